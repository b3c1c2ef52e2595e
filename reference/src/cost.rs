//! A round of calls many times on a prepared table. The instructions of a round are the difference of two runs by their
//! rounds: start-up and preparation drop out.

use crate::calls::{self, Call, Reply, Request};
use crate::coding;
use crate::given::Given;
use crate::shares::SERVICES;
use crate::table::Table;
use crate::writing;

pub const CASES: &str = "continue-1 continue-64 continue-128 lifetime malformed unidirectional";

const SERVICE: u32 = 3;
const OPERATION: [u8; 3] = [0x02, 0x01, 0x3B];

/// How many calls were answered 0, and the rows and octets that they gave.
#[derive(Default)]
pub struct Sums {
    pub calls: usize,
    pub rows: usize,
    pub octets: usize,
}

/// A table, and what was counted on it.
struct Bench {
    table: Table,
    sums: Sums,
}

/// Plays a case so many times; none where there is no such case.
pub fn run(case: &str, rounds: usize) -> Option<Sums> {
    let continue_with_invoke = continue_to(0, &writing::invoke(5, None, &OPERATION, &[]));
    match case {
        "continue-1" => Some(receive(1, rounds, &continue_with_invoke)),
        "continue-64" => Some(receive(64, rounds, &continue_with_invoke)),
        "continue-128" => Some(receive(128, rounds, &continue_with_invoke)),
        "malformed" => Some(receive(1, rounds, &malformed())),
        "unidirectional" => Some(receive(1, rounds, &unidirectional())),
        "lifetime" => Some(lifetime(rounds)),
        _ => None,
    }
}

/// One message again and again, with so many dialogues open.
fn receive(dialogues: usize, rounds: usize, octets: &[u8]) -> Sums {
    let mut bench = Bench::with(dialogues);
    let call = Call::Receive { service: SERVICE, octets: octets.to_vec() };
    for _ in 0..rounds {
        bench.call(&call);
    }
    bench.sums
}

/// Open, invoke, begin, and the peer's End.
fn lifetime(rounds: usize) -> Sums {
    let mut bench = Bench::with(0);
    for _ in 0..rounds {
        let local_id = bench.call(&Call::Open { service: SERVICE }).dialogue.unwrap_or(0);
        let parameter = Vec::new();
        let invoke = Request::Invoke { id: 5, linked: None, class: 1, operation: OPERATION.to_vec(), parameter };
        bench.request(local_id, invoke);
        bench.request(local_id, Request::Begin(Given::NONE));
        let octets = coding::write(0x64, &coding::write(0x49, &local_id.to_be_bytes()));
        bench.call(&Call::Receive { service: SERVICE, octets });
    }
    bench.sums
}

impl Bench {
    /// A table with so many dialogues, all Active with nothing open or waiting.
    fn with(dialogues: usize) -> Bench {
        let mut bench = Bench { table: Table::zeros(), sums: Sums::default() };
        bench.call(&Call::Fresh { guarantees: [0; SERVICES], limits: [128; SERVICES] });
        for _ in 0..dialogues {
            let local_id = bench.call(&Call::Open { service: SERVICE }).dialogue.unwrap_or(0);
            bench.request(local_id, Request::Begin(Given::NONE));
            bench.call(&Call::Receive { service: SERVICE, octets: continue_to(local_id, &[]) });
        }
        Bench { sums: Sums::default(), ..bench }
    }

    fn call(&mut self, call: &Call) -> Reply {
        let answer = calls::call(&mut self.table, call);
        self.sums.calls += usize::from(answer.is_ok());
        let reply = answer.unwrap_or_default();
        self.sums.rows += reply.rows.len();
        self.sums.octets += reply.message.len();
        reply
    }

    fn request(&mut self, local_id: u32, request: Request) {
        self.call(&Call::OnDialogue { service: SERVICE, local_id, request });
    }
}

fn continue_to(local_id: u32, components: &[u8]) -> Vec<u8> {
    let portion = if components.is_empty() { Vec::new() } else { coding::write(0x6C, components) };
    coding::write(0x65, &[coding::write(0x48, &[7]), coding::write(0x49, &local_id.to_be_bytes()), portion].concat())
}

/// A Begin whose 6C is longer than what follows it: answered by an Abort with cause 2.
fn malformed() -> Vec<u8> {
    vec![0x62, 0x0D, 0x48, 0x01, 0x07, 0x6C, 0x09, 0xA1, 0x06, 0x02, 0x01, 0x05, 0x02, 0x01, 0x3B]
}

/// 512 octets with 100 components: 99 results, each shown as rejected, and an invoke.
fn unidirectional() -> Vec<u8> {
    let results = [0xA2, 0x03, 0x02, 0x01, 0x05].repeat(99);
    let invoke = writing::invoke(5, None, &[0x02, 0x02, 0x01, 0x3B], &[]);
    coding::write(0x61, &coding::write(0x6C, &[results, invoke].concat()))
}
