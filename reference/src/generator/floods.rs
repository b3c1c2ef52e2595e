//! Floods of opens and Begins against guarantees and limits.

use super::giving;
use super::random::Random;
use super::recorder::Recorder;
use super::samples;
use crate::calls::{Call, Request};
use crate::dialogue::State;
use crate::shares::SERVICES;

pub fn sequences(random: &mut Random) -> Vec<Recorder> {
    let mut recorder = Recorder::new();
    for _ in 0..random.below(3) {
        recorder.call(odd_fresh(random));
    }
    recorder.call(fresh(random));
    let mut leaving = random.pick(&[10, 30, 60]);
    for _ in 0..random.within(150, 500) {
        if random.chance(2) {
            leaving = random.pick(&[2, 10, 30, 60]);
        }
        step(&mut recorder, random, leaving);
    }
    vec![recorder]
}

/// Shares that fresh takes: guarantees that leave room, or none.
fn fresh(random: &mut Random) -> Call {
    let mut guarantees = [0; SERVICES];
    let mut left = random.pick(&[0, 5, 40, 100, 127, 128]);
    for _ in 0..random.within(1, 24) {
        let guarantee = random.below(left + 1).min(40);
        guarantees[random.below(SERVICES)] += guarantee as u32;
        left -= guarantee;
    }
    let above = |guarantee: u32, random: &mut Random| match random.below(4) {
        0 => guarantee,
        1 => (guarantee + 1).min(128),
        2 => random.within(guarantee as usize, 128) as u32,
        _ => 128,
    };
    let limits = guarantees.map(|guarantee| above(guarantee, random));
    Call::Fresh { guarantees, limits }
}

/// Shares of which one is mostly wrong.
fn odd_fresh(random: &mut Random) -> Call {
    let Call::Fresh { mut guarantees, mut limits } = fresh(random) else {
        return Call::Open { service: 0 };
    };
    let service = random.below(SERVICES);
    match random.below(4) {
        0 => limits[service] = random.pick(&[129, 200, 255]),
        1 => guarantees[service] = (limits[service] + 1).min(255),
        2 => (guarantees, limits) = ([8; SERVICES], [random.pick(&[8, 128]); SERVICES]),
        _ => (guarantees[service], limits[service]) = (random.pick(&[60, 128]), 128),
    }
    Call::Fresh { guarantees, limits }
}

/// A service takes a place, or gives one back in so many of a hundred steps.
fn step(recorder: &mut Recorder, random: &mut Random, leaving: usize) {
    let service = random.below(SERVICES) as u32;
    if random.chance(100 - leaving) {
        let favourite = if random.chance(60) { service / 4 * 4 } else { service };
        return take(recorder, random, favourite);
    }
    let known = recorder.known();
    if known.is_empty() {
        return take(recorder, random, service);
    }
    let one = &known[random.below(known.len())];
    let service = if random.chance(95) { one.dialogue.service.into() } else { service };
    give_back(recorder, random, service, one.local_id, one.dialogue.state);
}

fn take(recorder: &mut Recorder, random: &mut Random, service: u32) {
    if random.chance(60) {
        recorder.open(service);
    } else {
        recorder.received(random, service);
    }
}

fn give_back(recorder: &mut Recorder, random: &mut Random, service: u32, local_id: u32, state: State) {
    let end = match (random.below(6), state) {
        (0, _) => Request::Abort { portion: Vec::new() },
        (1, _) => Request::Prearranged,
        (2, State::Sent) => Request::NoReaction,
        (_, State::Open) => Request::Begin(giving::sometimes(random, 5)),
        (3, _) => Request::Continue(giving::sometimes(random, 5)),
        (4, State::Active | State::Sent) => {
            let abort = samples::abort(random, &local_id.to_be_bytes());
            recorder.receive(service, abort.encode());
            return;
        }
        _ => Request::End(giving::sometimes(random, 5)),
    };
    recorder.request(service, local_id, end);
}
