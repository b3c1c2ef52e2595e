//! A sequence as it grows: a table, and the calls made on it with what they gave.

use super::random::Random;
use super::samples;
use crate::calls::{self, Call, Reply, Request};
use crate::coding;
use crate::dialogue::Dialogue;
use crate::given::Given;
use crate::reader;
use crate::shares::SERVICES;
use crate::table::{Table, PLACES};
use crate::vectors::{self, Line};

/// No message is longer: 513 are too many already.
const LONGEST: usize = 600;

pub struct Recorder {
    table: Table,
    /// Each call with what it gave.
    pub calls: Vec<String>,
}

/// An open dialogue and its local ID.
pub struct Known {
    pub local_id: u32,
    pub dialogue: Dialogue,
}

impl Recorder {
    pub fn new() -> Recorder {
        Recorder { table: Table::zeros(), calls: Vec::new() }
    }

    /// A recorder on a fresh table in which every service may have any number of places.
    pub fn open_to_all() -> Recorder {
        let mut recorder = Recorder::new();
        recorder.call(Call::Fresh { guarantees: [4; SERVICES], limits: [128; SERVICES] });
        recorder
    }

    /// Makes a call; its reply is empty where it is refused.
    pub fn call(&mut self, mut call: Call) -> Reply {
        if let Call::Receive { octets, .. } = &mut call {
            octets.truncate(LONGEST);
        }
        let answer = calls::call(&mut self.table, &call);
        self.calls.push(format!("{}\n{}", Line::Call(call), vectors::answer_text(&answer)));
        answer.unwrap_or_default()
    }

    pub fn open(&mut self, service: u32) -> Option<u32> {
        self.call(Call::Open { service }).dialogue
    }

    pub fn request(&mut self, service: u32, local_id: u32, request: Request) -> Reply {
        self.call(Call::OnDialogue { service, local_id, request })
    }

    pub fn receive(&mut self, service: u32, octets: Vec<u8>) -> Reply {
        self.call(Call::Receive { service, octets })
    }

    fn read(&mut self, line: Line) {
        let given = vectors::expectation(&mut self.table, &line);
        self.calls.push(format!("{line}\n{given}"));
    }

    /// Asks for a message's components, and for parameters at and near their places.
    pub fn read_message(&mut self, random: &mut Random, octets: &[u8]) {
        let octets = &octets[..octets.len().min(LONGEST)];
        self.read(Line::Components { octets: octets.to_vec() });
        let mut runs: Vec<_> = reader::components(octets).into_iter().map(|component| component.run).collect();
        let start = random.below(octets.len() + 2);
        runs.push(start..start + random.below(octets.len() + 2));
        let run = random.pick(&runs);
        let nudge = if random.chance(15) { random.below(3) } else { 1 };
        let length = (run.len() + nudge).saturating_sub(1);
        self.read(Line::Parameter { octets: octets.to_vec(), start: run.start, length });
        if random.chance(if octets.contains(&0x6B) { 60 } else { 4 }) {
            self.read_portion(random, octets);
        }
    }

    /// Asks for the dialogue portion at or near a 6B of a message, or at any run, in the message or not.
    pub fn read_portion(&mut self, random: &mut Random, octets: &[u8]) {
        let octets = octets[..octets.len().min(LONGEST)].to_vec();
        let framed = |at: usize| coding::frame(&octets, at, 0).map(|frame| (at, frame.whole.len()));
        let found: Vec<_> = (0..octets.len()).filter(|at| octets[*at] == 0x6B).filter_map(framed).collect();
        let any = (random.below(octets.len() + 2), random.below(octets.len() + 2));
        let first = found.first().copied().unwrap_or(any);
        let (start, length) = match random.below(10) {
            0 => any,
            1 if !found.is_empty() => random.pick(&found),
            _ => first,
        };
        let (start, length) =
            if random.chance(70) { (start as u64, length as u64) } else { near(random, start, length) };
        self.read(Line::Portion { octets, start, length });
    }

    pub fn known(&self) -> Vec<Known> {
        let dialogue = |place| self.table.place(place).dialogue();
        let known = |place| dialogue(place).map(|dialogue| Known { local_id: self.table.local_id(place), dialogue });
        (0..PLACES).filter_map(known).collect()
    }

    /// The dialogue with this local ID, if it is open.
    pub fn find(&self, local_id: u32) -> Option<Dialogue> {
        self.known().into_iter().find(|known| known.local_id == local_id).map(|known| known.dialogue)
    }

    /// A dialogue brought to Active by a peer's Continue.
    pub fn active(&mut self, random: &mut Random, service: u32) -> Option<u32> {
        let local_id = self.open(service)?;
        self.request(service, local_id, Request::Begin(Given::NONE));
        self.receive(service, continue_with(random, local_id, &[]));
        Some(local_id)
    }

    /// A dialogue begun by a peer.
    pub fn received(&mut self, random: &mut Random, service: u32) -> Option<u32> {
        let begin = begin_from(&samples::peer_id(random));
        self.receive(service, begin).rows.first().map(|row| row.local_id)
    }
}

/// A run that is another by little, or ends past the message, past 32 bits or past 64.
fn near(random: &mut Random, start: usize, length: usize) -> (u64, u64) {
    let (start, length) = (start as u64, length as u64);
    match random.below(10) {
        0 => (start + 1, length),
        1 => (start.saturating_sub(1), length),
        2 => (start, length + 1),
        3 => (start, length.saturating_sub(1)),
        4 => (start, random.pick(&[0, 1, 2])),
        5 => (start, length + random.pick(&[1 << 8, 1 << 16, 1 << 32, 1 << 63])),
        6 => (start + random.pick(&[1 << 8, 1 << 16, 1 << 32, 1 << 63]), length),
        7 => (start, random.pick(&[u64::MAX, start.wrapping_neg(), length.wrapping_sub(start)])),
        8 => (random.pick(&[u64::MAX, length.wrapping_neg(), start.wrapping_sub(length)]), length),
        _ => (u64::MAX, u64::MAX),
    }
}

fn begin_from(peer: &[u8]) -> Vec<u8> {
    let contents = coding::write(0x48, peer);
    coding::write(0x62, &contents)
}

/// A Continue to one of our dialogues, with these octets as components if there are any.
pub fn continue_with(random: &mut Random, local_id: u32, components: &[u8]) -> Vec<u8> {
    let peer = samples::peer_id(random);
    let mut contents = coding::write(0x48, &peer);
    contents.extend(end_contents(local_id, components));
    coding::write(0x65, &contents)
}

pub fn end_with(local_id: u32, components: &[u8]) -> Vec<u8> {
    coding::write(0x64, &end_contents(local_id, components))
}

fn end_contents(local_id: u32, components: &[u8]) -> Vec<u8> {
    let mut contents = coding::write(0x49, &local_id.to_be_bytes());
    if !components.is_empty() {
        contents.extend(coding::write(0x6C, components));
    }
    contents
}
