//! Names and user informations as a user gives them: sound, damaged, or of a length wanted.

use super::random::Random;
use super::samples;
use super::tree::{any_node, leaf, node, Tree};
use crate::calls::Request;
use crate::coding;
use crate::given::{self, Given, Pdu};

/// A context name: one 06.
pub fn name(random: &mut Random) -> Tree {
    match random.below(8) {
        0..=3 => leaf(0x06, &[4, 0, 0, 1, 0, random.octet() & 0x1F, random.within(1, 3) as u8]),
        4 => leaf(0x06, &[random.octet()]),
        5 if random.chance(20) => leaf(0x06, &vec![0x2A; random.pick(&[126, 127, 128, 129, 160, 255, 256])]),
        _ => {
            let count = random.within(1, 20);
            leaf(0x06, &random.octets(count))
        }
    }
}

/// User information: one BE, of any contents. It is depth 5 in its portion, so that 11 levels more are the most.
pub fn information(random: &mut Random) -> Tree {
    match random.below(8) {
        0 => any_node(random, 0xBE, Vec::new()),
        1 | 2 => {
            let single = node(0xA0, vec![samples::element(random)]);
            let external = any_node(random, 0x28, vec![leaf(0x06, &[4, 0, 0, 1, 1, 1, 1]), single]);
            any_node(random, 0xBE, vec![external])
        }
        3 => nested_information(random, 11),
        _ => {
            let elements = (0..random.within(1, 2)).map(|_| samples::element(random)).collect();
            any_node(random, 0xBE, elements)
        }
    }
}

fn nested_information(random: &mut Random, levels: usize) -> Tree {
    let nest = samples::nested(random, levels);
    any_node(random, 0xBE, vec![nest])
}

/// Octets near a name, mostly not one.
fn odd_name(random: &mut Random) -> Vec<u8> {
    let odd: [&[u8]; 12] = [
        &[0x06, 0x00],
        &[0x06],
        &[0x06, 0x02, 0x2A],
        &[0x06, 0x01, 0x2A, 0x00],
        &[0x06, 0x01, 0x2A, 0x06, 0x01, 0x2A],
        &[0x06, 0x81, 0x01, 0x2A],
        &[0x06, 0x80, 0x00, 0x00],
        &[0x26, 0x03, 0x06, 0x01, 0x2A],
        &[0x04, 0x01, 0x2A],
        &[0x86, 0x01, 0x2A],
        &[0xA1, 0x03, 0x06, 0x01, 0x2A],
        &[0xBE, 0x00],
    ];
    if random.chance(70) {
        return random.pick(&odd).to_vec();
    }
    name(random).damaged(random, 1)
}

/// Octets near an information: too deep or just not, of another tag, two, not well formed.
fn odd_information(random: &mut Random) -> Vec<u8> {
    let odd: [&[u8]; 9] = [
        &[0xBE],
        &[0xBE, 0x80],
        &[0xBE, 0x02, 0x04],
        &[0xBE, 0x02, 0x00, 0x00],
        &[0xBE, 0x80, 0x00, 0x00, 0x00],
        &[0xBE, 0x00, 0xBE, 0x00],
        &[0x9E, 0x00],
        &[0x30, 0x00],
        &[0x28, 0x03, 0x06, 0x01, 0x2A],
    ];
    match random.below(10) {
        0..=3 => random.pick(&odd).to_vec(),
        4..=6 => {
            let levels = random.within(10, 13);
            nested_information(random, levels).encode()
        }
        _ => information(random).damaged(random, 1),
    }
}

/// A sound name, and mostly an information.
pub fn sound(random: &mut Random) -> Given {
    let information = if random.chance(60) { information(random).encode() } else { Vec::new() };
    Given { name: name(random).encode(), information }
}

/// Names and informations of every kind, right or wrong, each or both.
pub fn any(random: &mut Random) -> Given {
    let given = sound(random);
    match random.below(12) {
        0 => Given::NONE,
        1 => Given { name: Vec::new(), information: information(random).encode() },
        2 => Given { name: odd_name(random), ..given },
        3 | 4 => Given { information: odd_information(random), ..given },
        5 => Given { name: Vec::new(), information: odd_information(random) },
        6 => Given { name: odd_name(random), information: odd_information(random) },
        7 if random.chance(20) => Given { information: filled(random.pick(&[250, 256, 512, 700])), ..given },
        _ => given,
    }
}

/// Mostly nothing, as most users do; so many of a hundred give something.
pub fn sometimes(random: &mut Random, percent: usize) -> Given {
    if !random.chance(percent) {
        return Given::NONE;
    }
    if random.chance(70) {
        sound(random)
    } else {
        any(random)
    }
}

/// An information with so many octets in it.
fn filled(count: usize) -> Vec<u8> {
    coding::write(0xBE, &coding::write(0x04, &vec![0; count]))
}

/// What makes a portion of this length, with a name or without; something sound where nothing does.
pub fn of_length(random: &mut Random, pdu: Pdu, length: usize) -> Given {
    let name = if random.chance(85) { name(random).encode() } else { Vec::new() };
    let mut sized = (0..=240).map(|count| Given { name: name.clone(), information: filled(count) });
    let named = |count| Given { name: coding::write(0x06, &vec![0x2A; count]), information: Vec::new() };
    let by_name = random.chance(20).then(|| (1..=240).map(named).find(|given| given.portion(pdu).len() == length));
    by_name.flatten().or_else(|| sized.find(|given| given.portion(pdu).len() == length)).unwrap_or(sound(random))
}

/// An information whose abort has a portion of this length, or an empty one where none has.
pub fn abort_of_length(length: usize) -> Vec<u8> {
    let makes = |information: &Vec<u8>| given::abort_portion(information).is_some_and(|made| made.len() == length);
    (0..=240).map(filled).find(makes).unwrap_or(filled(0))
}

/// A sending of any kind with what is given.
pub fn sending(random: &mut Random, given: Given) -> Request {
    match random.below(5) {
        0 => Request::Begin(given),
        1 => Request::Unidirectional(given),
        2 => Request::End(given),
        _ => Request::Continue(given),
    }
}

/// What an abort is given: an information, sound or not.
pub fn for_abort(random: &mut Random) -> Vec<u8> {
    if random.chance(60) {
        information(random).encode()
    } else {
        odd_information(random)
    }
}
