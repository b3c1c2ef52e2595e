//! Each limit, and one past it: invocations, waiting octets and rejects, portions, messages, IDs.

use super::giving;
use super::random::Random;
use super::recorder::{continue_with, end_with, Recorder};
use crate::calls::Request;
use crate::coding;
use crate::given::Given;
use crate::writing;

const SERVICE: u32 = 11;
pub const OPERATION: [u8; 3] = [0x02, 0x01, 0x3B];
const IDS: [i8; 10] = [-128, 127, 0, -1, 1, 2, 3, 4, 5, 6];

pub fn sequences(random: &mut Random) -> Vec<Recorder> {
    let mut recorder = Recorder::open_to_all();
    for _ in 0..random.within(3, 8) {
        let local_id = match random.below(3) {
            0 => recorder.open(SERVICE),
            1 => recorder.active(random, SERVICE),
            _ => recorder.received(random, SERVICE),
        };
        let Some(local_id) = local_id else { break };
        for _ in 0..random.within(2, 6) {
            if recorder.find(local_id).is_some() || random.chance(5) {
                exercise(&mut recorder, random, local_id);
            }
        }
    }
    vec![recorder]
}

fn exercise(recorder: &mut Recorder, random: &mut Random, local_id: u32) {
    match random.below(7) {
        0 => invocations(recorder, random, local_id),
        1 => waiting(recorder, random, local_id),
        2 | 3 => rejects(recorder, random, local_id),
        4 => portion(recorder, random, local_id),
        5 => message_size(recorder, random),
        _ => send(recorder, random, local_id),
    }
}

/// Up to nine invocations, then one ends and another is passed.
fn invocations(recorder: &mut Recorder, random: &mut Random, local_id: u32) {
    for id in IDS.into_iter().take(random.within(7, 10)) {
        recorder.request(SERVICE, local_id, invoke(id, random.within(1, 4) as u32, Vec::new()));
    }
    send(recorder, random, local_id);
    let id = random.pick(&IDS);
    recorder.request(SERVICE, local_id, random.pick(&[Request::Cancel { id }, Request::Timeout { id }]));
    recorder.request(SERVICE, local_id, invoke(id, 1, Vec::new()));
    recorder.request(SERVICE, local_id, invoke(99, 1, Vec::new()));
}

pub fn invoke(id: i8, class: u32, parameter: Vec<u8>) -> Request {
    Request::Invoke { id, linked: None, class, operation: OPERATION.to_vec(), parameter }
}

/// A parameter that makes a component of this length, if one does.
pub fn parameter_for(length: usize, write: impl Fn(&[u8]) -> Vec<u8>) -> Option<Vec<u8>> {
    let parameters = (0..=240).map(|count| coding::write(0x04, &vec![0; count]));
    parameters.into_iter().find(|parameter| write(parameter).len() == length)
}

/// Components that leave as much room as said, or are that much too long; in Open only invokes can.
fn fill(recorder: &mut Recorder, random: &mut Random, local_id: u32, total: usize) {
    for _ in 0..4 {
        let waiting = recorder.find(local_id).map_or(0, |dialogue| dialogue.waiting.len());
        let left = total.saturating_sub(waiting);
        let length = if random.chance(50) { left } else { left.min(random.within(8, 60)) };
        let id = random.pick(&IDS);
        recorder.request(SERVICE, local_id, request_of(random, id, length));
    }
}

fn request_of(random: &mut Random, id: i8, length: usize) -> Request {
    let operation = OPERATION.to_vec();
    match random.below(3) {
        0 => {
            let parameter = parameter_for(length, |given| writing::invoke(id, None, &OPERATION, given));
            invoke(id, 1, parameter.unwrap_or_default())
        }
        1 => {
            let parameter = parameter_for(length, |given| writing::error(id, &OPERATION, given));
            Request::Error { id, error: operation, parameter: parameter.unwrap_or_default() }
        }
        _ => {
            let kind = crate::components::Kind::ResultLast;
            match parameter_for(length, |given| writing::result(kind, id, &OPERATION, given)) {
                Some(parameter) => Request::Result { id, last: true, operation, parameter },
                None => Request::Result { id, last: true, operation: Vec::new(), parameter: Vec::new() },
            }
        }
    }
}

/// 239 to 241 octets of waiting components, then a short one more.
fn waiting(recorder: &mut Recorder, random: &mut Random, local_id: u32) {
    let total = random.within(239, 241);
    fill(recorder, random, local_id, total);
    recorder.request(SERVICE, local_id, Request::Reject { id: 1, problem: 256 });
    send(recorder, random, local_id);
}

/// Up to ten faulty or unexpected components, then as many octets as just fit beside their rejects, or do not.
fn rejects(recorder: &mut Recorder, random: &mut Random, local_id: u32) {
    recorder.request(SERVICE, local_id, Request::Begin(Given::NONE));
    for _ in 0..random.within(6, 10) {
        let component = rejected_component(random);
        recorder.receive(SERVICE, continue_with(random, local_id, &component));
    }
    let rejects = recorder.find(local_id).map_or(0, |dialogue| {
        dialogue.rejects.iter().map(|reject| writing::reject(reject.id, reject.problem).len()).sum()
    });
    let total = random.within(239, 241) - rejects;
    fill(recorder, random, local_id, total);
    if random.chance(20) {
        recorder.receive(SERVICE, end_with(local_id, &rejected_component(random)));
    }
    send(recorder, random, local_id);
    send(recorder, random, local_id);
}

fn rejected_component(random: &mut Random) -> Vec<u8> {
    let id = random.pick(&IDS) as u8;
    let components: [&[u8]; 8] = [
        &[0xA1, 0x00],
        &[0xA8, 0x03, 0x02, 0x01, id],
        &[0xA2, 0x03, 0x02, 0x01, id],
        &[0xA3, 0x06, 0x02, 0x01, id, 0x02, 0x01, 0x01],
        &[0xA1, 0x09, 0x02, 0x01, id, 0x80, 0x01, 99, 0x02, 0x01, 0x01],
        &[0xA2, 0x05, 0x02, 0x01, id, 0x30],
        &[0xA7, 0x03, 0x02, 0x01, id, 0xA2, 0x03, 0x02, 0x01, id],
        &[0xA4, 0x03, 0x02, 0x01, id],
    ];
    random.pick(&components).to_vec()
}

/// An abort's portion of 239 to 241 octets, given whole or formed from an information.
fn portion(recorder: &mut Recorder, random: &mut Random, local_id: u32) {
    let length = random.within(239, 241);
    let contents = (200..=240).map(|count| coding::write(0x04, &vec![0; count]));
    let mut portions = contents.map(|contents| coding::write(0x6B, &contents));
    let whole = portions.find(|portion| portion.len() == length).unwrap_or_default();
    let portion = if random.chance(60) { whole } else { giving::abort_of_length(length) };
    recorder.request(SERVICE, local_id, Request::Abort { portion });
}

/// A Begin of 510 to 513 octets.
fn message_size(recorder: &mut Recorder, random: &mut Random) {
    let mut contents = coding::write(0x48, &[7]);
    let parameter = coding::write(0x04, &vec![0; random.within(485, 488)]);
    contents.extend(coding::write(0x6C, &writing::invoke(-128, None, &OPERATION, &parameter)));
    let octets = coding::write(0x62, &contents);
    recorder.receive(SERVICE, octets.clone());
    recorder.read_message(random, &octets);
}

fn send(recorder: &mut Recorder, random: &mut Random, local_id: u32) {
    let given = giving::sometimes(random, 10);
    let request = match random.below(5) {
        0 => Request::Begin(given),
        1 => Request::Unidirectional(given),
        _ => Request::Continue(given),
    };
    recorder.request(SERVICE, local_id, request);
    if random.chance(10) {
        recorder.request(SERVICE, local_id, Request::End(giving::sometimes(random, 20)));
    }
}
