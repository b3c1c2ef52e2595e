//! The calls, their answer numbers and what they give (01, Answer numbers; 02 a).

use crate::given::Given;
use crate::receive;
use crate::requests::{self, Answer};
use crate::rules;
use crate::shares::{Shares, SERVICES};
use crate::table::Table;

pub const BROKEN_TABLE: u8 = 2;
pub const NO_SERVICE: u8 = 3;
pub const BAD_SIZE: u8 = 4;
pub const NO_DIALOGUE: u8 = 5;
pub const WRONG_STATE: u8 = 6;
pub const NO_PLACE: u8 = 7;
pub const BAD_CLASS_OR_PROBLEM: u8 = 8;
pub const WRONG_ID: u8 = 9;
pub const FULL: u8 = 10;
pub const BAD_ELEMENT: u8 = 11;
pub const TOO_LONG: u8 = 12;
pub const BAD_SHARES: u8 = 13;
pub const MISPLACED_PORTION: u8 = 14;

const LONGEST_MESSAGE: usize = 512;

/// A request on a dialogue, or an event for one.
#[derive(Clone)]
pub enum Request {
    Invoke { id: i8, linked: Option<i8>, class: u32, operation: Vec<u8>, parameter: Vec<u8> },
    Result { id: i8, last: bool, operation: Vec<u8>, parameter: Vec<u8> },
    Error { id: i8, error: Vec<u8>, parameter: Vec<u8> },
    Reject { id: i8, problem: u32 },
    Cancel { id: i8 },
    Begin(Given),
    Continue(Given),
    End(Given),
    Prearranged,
    Unidirectional(Given),
    Abort { portion: Vec<u8> },
    Timeout { id: i8 },
    RejectTimeout { id: i8 },
    NoReaction,
}

/// A call on the table, which it changes only where it is answered 0.
pub enum Call {
    Fresh { guarantees: [u32; SERVICES], limits: [u32; SERVICES] },
    Open { service: u32 },
    OnDialogue { service: u32, local_id: u32, request: Request },
    Receive { service: u32, octets: Vec<u8> },
}

/// What a call gives that is answered 0.
#[derive(Default)]
pub struct Reply {
    pub dialogue: Option<u32>,
    pub message: Vec<u8>,
    pub rows: Vec<crate::rows::Row>,
}

pub fn refuse_unless(condition: bool, number: u8) -> Result<(), u8> {
    if condition {
        Ok(())
    } else {
        Err(number)
    }
}

/// Fresh does not look at the table; every other call first checks the whole of it.
pub fn call(table: &mut Table, call: &Call) -> Answer {
    match call {
        Call::Fresh { guarantees, limits } => fresh(table, guarantees, limits),
        _ if !rules::are_kept(table) => Err(BROKEN_TABLE),
        Call::Open { service } => requests::open(table, known(*service)?),
        Call::OnDialogue { service, local_id, request } => {
            requests::on_dialogue(table, known(*service)?, *local_id, request)
        }
        Call::Receive { service, octets } => received(table, known(*service)?, octets),
    }
}

/// Whether a received message has a size that is read.
pub fn has_message_size(octets: &[u8]) -> bool {
    (1..=LONGEST_MESSAGE).contains(&octets.len())
}

fn received(table: &mut Table, service: u8, octets: &[u8]) -> Answer {
    refuse_unless(has_message_size(octets), BAD_SIZE)?;
    Ok(receive::receive(table, service, octets))
}

fn known(service: u32) -> Result<u8, u8> {
    u8::try_from(service).ok().filter(|service| usize::from(*service) < SERVICES).ok_or(NO_SERVICE)
}

fn fresh(table: &mut Table, guarantees: &[u32; SERVICES], limits: &[u32; SERVICES]) -> Answer {
    let narrow = |numbers: &[u32; SERVICES]| numbers.map(|number| number.min(255) as u8);
    let shares = Shares { guarantees: narrow(guarantees), limits: narrow(limits) };
    refuse_unless(shares.are_allowed(), BAD_SHARES)?;
    *table = Table::fresh(&shares);
    Ok(Reply::default())
}
