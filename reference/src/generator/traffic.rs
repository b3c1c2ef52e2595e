//! Traffic of both ends: requests, messages handed over (some damaged, lost or twice), crafted ones, timers.

use super::asked::{any_request, fitting, likely_ids};
use super::random::Random;
use super::recorder::{Known, Recorder};
use super::samples::{self, Parts};
use super::tree::{self, Tree};
use crate::calls::{Call, Reply};
use crate::dialogue::Dialogue;

/// A message on its way to a service of one of the ends.
struct Underway {
    to: usize,
    service: u32,
    octets: Vec<u8>,
}

/// One or two engines: a single one has both ends on its table.
pub struct Traffic {
    ends: Vec<Recorder>,
    underway: Vec<Underway>,
}

const MOST_DIALOGUES: usize = 12;

pub fn sequences(random: &mut Random, ends: usize) -> Vec<Recorder> {
    let ends = (0..ends).map(|_| Recorder::open_to_all()).collect();
    let mut traffic = Traffic { ends, underway: Vec::new() };
    for _ in 0..random.within(60, 400) {
        traffic.step(random);
    }
    traffic.ends
}

fn any_service(random: &mut Random) -> u32 {
    if random.chance(2) {
        random.pick(&[16, 17, 255, 100])
    } else {
        random.pick(&[2, 3, 2, 3, 14, 15])
    }
}

impl Traffic {
    fn step(&mut self, random: &mut Random) {
        let end = random.below(self.ends.len());
        let known = self.ends[end].known();
        let hand_over = !self.underway.is_empty() && random.chance(45);
        match random.weighted(&[8, 40, 25, 5, 4]) {
            _ if hand_over => self.hand_over(random),
            0 if known.len() < MOST_DIALOGUES => self.begin(random, end),
            _ if known.is_empty() => self.begin(random, end),
            1 | 0 => {
                let one = &known[random.below(known.len())];
                self.request(random, end, one);
            }
            2 => {
                let one = &known[random.below(known.len())];
                self.craft(random, end, one);
            }
            3 => self.unidirectional(random, end),
            _ => self.wrong_call(random, end, &known),
        }
    }

    /// A call of a service; its message goes to the neighbouring service at the other end.
    fn call(&mut self, end: usize, service: u32, call: Call) -> Reply {
        let reply = self.ends[end].call(call);
        if !reply.message.is_empty() {
            let to = self.ends.len() - 1 - end;
            self.underway.push(Underway { to, service: service ^ 1, octets: reply.message.clone() });
        }
        reply
    }

    fn receive(&mut self, random: &mut Random, end: usize, service: u32, octets: Vec<u8>) {
        if random.chance(8) {
            self.ends[end].read_message(random, &octets);
        }
        self.call(end, service, Call::Receive { service, octets });
    }

    fn hand_over(&mut self, random: &mut Random) {
        let at = if random.chance(85) { 0 } else { random.below(self.underway.len()) };
        let Underway { to, service, octets } = self.underway.remove(at);
        match random.below(100) {
            0..=3 => return,
            4..=6 => self.receive(random, to, service, octets.clone()),
            7..=16 => {
                let damaged = Tree::read(&octets).damaged(random, 1);
                return self.receive(random, to, service, damaged);
            }
            _ => {}
        }
        self.receive(random, to, service, octets);
    }

    fn begin(&mut self, random: &mut Random, end: usize) {
        let service = any_service(random);
        if random.chance(65) {
            self.call(end, service, Call::Open { service });
            return;
        }
        let originating = Some(samples::peer_id(random));
        let parts = Parts { kind: 0x62, originating, destination: None, ..contents(random, &[1, 5, -128]) };
        let octets = craft(random, parts);
        self.receive(random, end, service, octets);
    }

    fn request(&mut self, random: &mut Random, end: usize, one: &Known) {
        let request =
            if random.chance(75) { fitting(random, &one.dialogue) } else { any_request(random, &one.dialogue) };
        let service = if random.chance(3) { any_service(random) } else { one.dialogue.service.into() };
        let local_id = if random.chance(4) { wrong_id(random, one.local_id) } else { one.local_id };
        self.call(end, service, Call::OnDialogue { service, local_id, request });
    }

    /// A message to a dialogue as its peer might send it.
    fn craft(&mut self, random: &mut Random, end: usize, one: &Known) {
        let local_id = if random.chance(4) { wrong_id(random, one.local_id) } else { one.local_id };
        let service = if random.chance(3) { any_service(random) } else { one.dialogue.service.into() };
        let octets = message_to(random, local_id, &one.dialogue);
        self.receive(random, end, service, octets);
    }

    fn unidirectional(&mut self, random: &mut Random, end: usize) {
        let service = any_service(random);
        let parts = Parts { kind: 0x61, originating: None, destination: None, ..contents(random, &[1, 127, -128]) };
        let octets = craft(random, parts);
        self.receive(random, end, service, octets);
    }

    /// A call on a dialogue that is not there, a message of a size that is not read, or octets of any kind.
    fn wrong_call(&mut self, random: &mut Random, end: usize, known: &[Known]) {
        let service = any_service(random);
        let dialogue = &known[random.below(known.len())].dialogue;
        match random.below(4) {
            0 => {
                let count = random.pick(&[0, 513, 600]);
                self.receive(random, end, service, vec![0x62; count]);
            }
            1 => {
                let count = random.below(40);
                let octets = random.octets(count);
                self.receive(random, end, service, octets);
            }
            _ => {
                let request = any_request(random, dialogue);
                let local_id = random.pick(&[0x8000_0000, 0xFFFF_FFFF, 0x7F00_0000, 0x0000_0100]);
                self.call(end, service, Call::OnDialogue { service, local_id, request });
            }
        }
    }
}

/// A local ID with another turn, or another place.
fn wrong_id(random: &mut Random, local_id: u32) -> u32 {
    match random.below(4) {
        0 => local_id.wrapping_add(1),
        1 => local_id.wrapping_sub(1),
        2 => local_id ^ 1 << 24,
        _ => local_id | 1 << 31,
    }
}

/// Portion and components of a crafted message; the kind and the IDs are the caller's.
fn contents(random: &mut Random, ids: &[i8]) -> Parts {
    let portion = random.chance(20).then(|| samples::portion(random));
    let count = random.weighted(&[10, 50, 25, 10, 5]);
    let mut components: Vec<Tree> = (0..count).map(|_| samples::component(random, ids)).collect();
    for component in &mut components {
        if random.chance(12) {
            component.damage(random);
        }
    }
    let components = (count > 0 || random.chance(30)).then_some(components);
    Parts { kind: 0x65, originating: None, destination: None, portion, components }
}

/// The octets of a message; a few are damaged as a whole.
fn craft(random: &mut Random, parts: Parts) -> Vec<u8> {
    let message = samples::message(random, parts);
    if random.chance(12) {
        let times = random.within(1, 2);
        return message.damaged(random, times);
    }
    let octets = message.encode();
    if random.chance(3) {
        tree::damage_octets(&octets, random)
    } else {
        octets
    }
}

fn message_to(random: &mut Random, local_id: u32, dialogue: &Dialogue) -> Vec<u8> {
    let ids = likely_ids(random, dialogue);
    let destination = local_id.to_be_bytes();
    let kind = random.pick(&[0x65, 0x65, 0x65, 0x65, 0x65, 0x65, 0x64, 0x67, 0x63]);
    if kind == 0x67 {
        let abort = samples::abort(random, &destination);
        return abort.encode();
    }
    let originating = (kind != 0x64).then(|| samples::peer_id(random));
    let destination = Some(destination.to_vec());
    let parts = Parts { kind, originating, destination, ..contents(random, &ids) };
    craft(random, parts)
}
