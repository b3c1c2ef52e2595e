//! Each class and invocation state against each component, sound and faulty, and against each request.

use super::random::Random;
use super::recorder::{continue_with, end_with, Recorder};
use super::samples;
use super::tree::{leaf, node, Tree};
use crate::calls::Request;
use crate::given::Given;
use crate::invocations::State;

const SERVICE: u32 = 3;

pub fn sequences(random: &mut Random) -> Vec<Recorder> {
    let mut recorder = Recorder::open_to_all();
    for _ in 0..random.within(15, 40) {
        one(&mut recorder, random);
    }
    vec![recorder]
}

/// A dialogue with one invocation in some state; a component comes; requests show the state after it.
fn one(recorder: &mut Recorder, random: &mut Random) {
    let id = samples::any_id(random);
    let Some(local_id) = recorder.active(random, SERVICE) else { return };
    bring_to_state(recorder, random, local_id, id);
    for _ in 0..random.pick(&[0, 1, 1, 1, 2, 3]) {
        let component = component(random, id);
        let octets = if random.chance(93) {
            continue_with(random, local_id, &component)
        } else {
            end_with(local_id, &component)
        };
        recorder.receive(SERVICE, octets);
    }
    for _ in 0..random.within(1, 4) {
        probe(recorder, random, local_id, id);
    }
    recorder.request(SERVICE, local_id, Request::Continue(Given::NONE));
    probe(recorder, random, local_id, id);
    recorder.request(SERVICE, local_id, Request::Prearranged);
}

/// A request whose answer depends on the invocation's state, often one that its state takes.
fn probe(recorder: &mut Recorder, random: &mut Random, local_id: u32, id: i8) {
    let state = recorder.find(local_id).and_then(|dialogue| dialogue.invocations.find(id).map(|found| found.state));
    let request = match state {
        Some(State::Sent) if random.chance(50) => random.pick(&[Request::Cancel { id }, Request::Timeout { id }]),
        Some(State::Wait) if random.chance(25) => Request::RejectTimeout { id },
        _ => any_probe(random, id),
    };
    recorder.request(SERVICE, local_id, request);
}

/// To Idle, Pending, Sent (with a result not last shown or not), Wait or Rejecting, as far as the class allows.
fn bring_to_state(recorder: &mut Recorder, random: &mut Random, local_id: u32, id: i8) {
    let steps = random.below(7);
    if steps == 0 {
        return;
    }
    recorder.request(SERVICE, local_id, invoke(random, id));
    if steps == 1 {
        return;
    }
    recorder.request(SERVICE, local_id, Request::Continue(Given::NONE));
    let octet = id as u8;
    if steps == 3 || steps == 6 {
        recorder.receive(SERVICE, continue_with(random, local_id, &[0xA7, 3, 2, 1, octet]));
    }
    if steps == 4 || steps == 5 {
        let answers: [&[u8]; 2] = [&[0xA2, 3, 2, 1, octet], &[0xA3, 6, 2, 1, octet, 2, 1, 9]];
        let answer = random.pick(&answers);
        recorder.receive(SERVICE, continue_with(random, local_id, answer));
    }
    if steps >= 5 {
        let problem = random.pick(&[514, 514, 770]);
        recorder.request(SERVICE, local_id, Request::Reject { id, problem });
    }
}

fn invoke(random: &mut Random, id: i8) -> Request {
    let class = random.within(1, 4) as u32;
    Request::Invoke { id, linked: None, class, operation: vec![2, 1, 0x3B], parameter: Vec::new() }
}

/// The octets of one or two components about this ID, some with a syntax fault.
fn component(random: &mut Random, id: i8) -> Vec<u8> {
    let mut octets = match random.below(12) {
        0..=4 => samples::component(random, &[id]).encode(),
        5 | 6 => samples::reject(random, Some(id)).encode(),
        7 => samples::invoke(random, 77, Some(id)).encode(),
        8..=10 => faulty(random, id).encode(),
        _ => {
            let component = samples::component(random, &[id]);
            component.damaged(random, 1)
        }
    };
    if random.chance(25) {
        octets.extend(samples::component(random, &[id, -1]).encode());
    }
    octets
}

/// A component with a frame and an ID, but a piece missing, wrong or too much.
fn faulty(random: &mut Random, id: i8) -> Tree {
    let tag = random.pick(&[0xA1, 0xA2, 0xA3, 0xA4, 0xA4, 0xA4, 0xA7, 0xA5, 0xA0, 0x30, 0x24]);
    let mut pieces = vec![leaf(0x02, &[id as u8])];
    match random.below(6) {
        0 => {}
        1 => pieces.push(leaf(0x81, &[random.pick(&[0, 5, 8])])),
        2 => pieces.push(leaf(0x80, &[3])),
        3 => pieces.push(Tree::Raw(vec![0x81])),
        4 => pieces.push(node(0x30, vec![leaf(0x02, &[1])])),
        _ => pieces.extend([leaf(0x82, &[2]), leaf(0x05, &[])]),
    }
    Tree::Node { tag: vec![tag], children: pieces, indefinite: random.chance(20) }
}

fn any_probe(random: &mut Random, id: i8) -> Request {
    match random.below(7) {
        0 => Request::Cancel { id },
        1 => Request::Timeout { id },
        2 => Request::RejectTimeout { id },
        3 => Request::Reject { id, problem: 514 },
        4 => Request::Reject { id, problem: random.pick(&[770, 771, 772]) },
        5 => Request::Reject { id, problem: random.pick(&[256, 257, 258, 259, 260, 262, 263]) },
        _ => invoke(random, id),
    }
}
