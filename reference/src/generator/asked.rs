//! Requests as a user makes them: fitting the dialogue's state, or right or wrong in each of their parts.

use super::giving;
use super::random::Random;
use super::samples;
use crate::calls::Request;
use crate::dialogue::{Dialogue, State};
use crate::invocations;

fn own_ids(dialogue: &Dialogue) -> Vec<i8> {
    dialogue.invocations.places().iter().flatten().map(|invocation| invocation.id).collect()
}

fn ids_in(dialogue: &Dialogue, state: invocations::State) -> Vec<i8> {
    own_ids(dialogue).into_iter().filter(|id| dialogue.invocations.is_in(*id, state)).collect()
}

/// IDs that go deep: mostly those that were sent, else those open in the dialogue.
pub fn likely_ids(random: &mut Random, dialogue: &Dialogue) -> Vec<i8> {
    let (own, sent) = (own_ids(dialogue), ids_in(dialogue, invocations::State::Sent));
    match random.below(20) {
        0..=13 if !sent.is_empty() => sent,
        0..=17 if !own.is_empty() => own,
        _ => vec![samples::any_id(random)],
    }
}

fn new_id(random: &mut Random, dialogue: &Dialogue) -> i8 {
    let own = own_ids(dialogue);
    let free: Vec<i8> = (0..10).map(|_| samples::any_id(random)).filter(|id| !own.contains(id)).collect();
    if free.is_empty() {
        random.octet() as i8
    } else {
        free[0]
    }
}

/// A request that the dialogue's state takes, with IDs in the state that it needs where there is one.
pub fn fitting(random: &mut Random, dialogue: &Dialogue) -> Request {
    let sending = random.chance(40);
    match dialogue.state {
        State::Open if sending => opening(random),
        State::Open => invoke(random, dialogue),
        State::Sent if random.chance(4) => Request::NoReaction,
        State::Received | State::Active if sending => answering(random, dialogue.state),
        _ => component_request(random, dialogue),
    }
}

fn opening(random: &mut Random) -> Request {
    let given = giving::sometimes(random, 20);
    random.pick(&[Request::Begin(given.clone()), Request::Begin(given.clone()), Request::Unidirectional(given)])
}

/// A Continue, or now and then an End; only from Received they take a portion.
fn answering(random: &mut Random, state: State) -> Request {
    let given = giving::sometimes(random, if state == State::Received { 25 } else { 2 });
    if random.chance(12) {
        Request::End(given)
    } else {
        Request::Continue(given)
    }
}

fn invoke(random: &mut Random, dialogue: &Dialogue) -> Request {
    let linked = random.chance(25).then(|| samples::any_id(random));
    let uni = dialogue.state == State::Open && random.chance(40);
    let class = if uni { 4 } else { random.within(1, 4) as u32 };
    let operation = samples::code(random).encode();
    Request::Invoke { id: new_id(random, dialogue), linked, class, operation, parameter: optional_element(random) }
}

fn optional_element(random: &mut Random) -> Vec<u8> {
    if random.chance(50) {
        samples::element(random).encode()
    } else {
        Vec::new()
    }
}

/// Operation and parameter of a result: both or neither.
fn result(random: &mut Random) -> Request {
    let (id, last) = (samples::any_id(random), random.chance(50));
    if random.chance(50) {
        return Request::Result { id, last, operation: Vec::new(), parameter: Vec::new() };
    }
    let operation = samples::code(random).encode();
    Request::Result { id, last, operation, parameter: samples::element(random).encode() }
}

fn component_request(random: &mut Random, dialogue: &Dialogue) -> Request {
    let waiting = ids_in(dialogue, invocations::State::Wait);
    match random.below(16) {
        0..=5 => invoke(random, dialogue),
        6..=8 => result(random),
        9 => {
            let id = samples::any_id(random);
            Request::Error { id, error: samples::code(random).encode(), parameter: optional_element(random) }
        }
        10..=12 if !waiting.is_empty() => {
            let id = random.pick(&waiting);
            on_waiting(random, id)
        }
        10..=13 => on_sent(random, dialogue),
        14 => Request::Reject { id: samples::any_id(random), problem: random.pick(&[256, 260, 262, 263]) },
        _ => invoke(random, dialogue),
    }
}

/// A request about an invocation that may be rejected.
fn on_waiting(random: &mut Random, id: i8) -> Request {
    match random.below(3) {
        0 => Request::RejectTimeout { id },
        1 => Request::Reject { id, problem: 514 },
        _ => Request::Reject { id, problem: random.pick(&[770, 771, 772]) },
    }
}

/// A request about an invocation that was likely sent.
fn on_sent(random: &mut Random, dialogue: &Dialogue) -> Request {
    let ids = likely_ids(random, dialogue);
    let id = random.pick(&ids);
    match random.below(4) {
        0 => Request::Cancel { id },
        1 => Request::Timeout { id },
        2 => Request::RejectTimeout { id },
        _ => Request::Reject { id, problem: random.pick(&[514, 514, 514, 770]) },
    }
}

/// Any request, right or wrong in each of its parts.
pub fn any_request(random: &mut Random, dialogue: &Dialogue) -> Request {
    let ids = likely_ids(random, dialogue);
    let id = random.pick(&ids);
    let no_problem = [0, 2, 3, 261, 264, 512, 513, 515, 768, 769, 773, 1024, 65_535];
    match random.below(14) {
        0 => odd_invoke(random, id),
        1 => Request::Result { id, last: true, operation: odd_code(random), parameter: odd_element(random) },
        2 => Request::Error { id, error: odd_code(random), parameter: odd_element(random) },
        3 => Request::Reject { id, problem: random.pick(&no_problem) },
        4 => Request::Cancel { id },
        5 => Request::Timeout { id },
        6 => Request::RejectTimeout { id },
        7 => Request::NoReaction,
        8 => Request::Begin(giving::sometimes(random, 20)),
        9 => Request::Continue(giving::sometimes(random, 20)),
        10 => Request::Unidirectional(giving::sometimes(random, 20)),
        11 => Request::Abort { portion: odd_portion(random) },
        12 if random.chance(15) => Request::Prearranged,
        12 if random.chance(15) => Request::End(giving::sometimes(random, 20)),
        _ => component_request(random, dialogue),
    }
}

fn odd_invoke(random: &mut Random, id: i8) -> Request {
    let class = random.pick(&[0, 1, 1, 2, 3, 4, 5, 255]);
    Request::Invoke { id, linked: None, class, operation: odd_code(random), parameter: odd_element(random) }
}

fn odd_code(random: &mut Random) -> Vec<u8> {
    if random.chance(50) {
        samples::odd_code(random)
    } else {
        samples::code(random).encode()
    }
}

/// A parameter, or one too deep, damaged, or none.
pub fn odd_element(random: &mut Random) -> Vec<u8> {
    match random.below(5) {
        0 => Vec::new(),
        1 => {
            let levels = random.within(13, 17);
            samples::nested(random, levels).encode()
        }
        2 => {
            let element = samples::element(random);
            element.damaged(random, 1)
        }
        _ => samples::element(random).encode(),
    }
}

/// What an abort is given: a dialogue portion or an information, or octets near one.
pub fn odd_portion(random: &mut Random) -> Vec<u8> {
    match random.below(7) {
        0 => Vec::new(),
        1 => odd_element(random),
        3 | 4 => giving::for_abort(random),
        2 => {
            let portion = samples::portion(random);
            portion.damaged(random, 1)
        }
        _ => samples::portion(random).encode(),
    }
}
