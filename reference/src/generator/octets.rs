//! The edges of Coding: tags, lengths, nesting, order and endings, at every level of a message.

use super::asked::{odd_element, odd_portion};
use super::giving;
use super::pdus;
use super::random::Random;
use super::recorder::Recorder;
use super::samples::{self, Parts};
use super::tree::{any_node, edge_length, leaf, Tree};
use crate::calls::{Reply, Request};

const SERVICE: u32 = 9;

pub fn sequences(random: &mut Random) -> Vec<Recorder> {
    let mut recorder = Recorder::open_to_all();
    let mut dialogue = None;
    for _ in 0..random.within(40, 120) {
        if dialogue.is_none_or(|local_id| recorder.find(local_id).is_none()) {
            dialogue = recorder.active(random, SERVICE);
        }
        let octets = odd_message(random, dialogue.unwrap_or(0));
        let reply = recorder.receive(SERVICE, octets.clone());
        if random.chance(40) {
            recorder.read_message(random, &octets);
        }
        after(&mut recorder, random, &reply);
        given(&mut recorder, random, dialogue.unwrap_or(0));
    }
    vec![recorder]
}

/// A dialogue that a Begin opened sends its rejects and goes.
fn after(recorder: &mut Recorder, random: &mut Random, reply: &Reply) {
    if let Some(row) = reply.rows.first().filter(|row| row.kind == crate::rows::BEGIN) {
        let end = Request::End(giving::sometimes(random, 20));
        let end = random.pick(&[end, Request::Prearranged, Request::Abort { portion: Vec::new() }]);
        recorder.request(SERVICE, row.local_id, end);
    }
}

/// Octets of every kind given by the user.
fn given(recorder: &mut Recorder, random: &mut Random, local_id: u32) {
    let parameter = odd_element(random);
    let operation = if random.chance(30) { samples::odd_code(random) } else { samples::code(random).encode() };
    let request = match random.below(12) {
        0 => Request::Invoke { id: samples::any_id(random), linked: Some(127), class: 2, operation, parameter },
        1 => Request::Result { id: -128, last: random.chance(50), operation, parameter },
        2 => Request::Error { id: 127, error: operation, parameter },
        3 => Request::Continue(giving::sometimes(random, 20)),
        4 if random.chance(40) => Request::Abort { portion: odd_portion(random) },
        _ => return,
    };
    recorder.request(SERVICE, local_id, request);
}

fn odd_message(random: &mut Random, local_id: u32) -> Vec<u8> {
    let tree = any_message(random, local_id);
    match random.below(10) {
        0..=2 => tree.encode(),
        3..=7 => tree.damaged(random, 1),
        8 => tree.damaged(random, 3),
        _ => super::tree::damage_octets(&tree.encode(), random),
    }
}

fn any_message(random: &mut Random, local_id: u32) -> Tree {
    let destination = local_id.to_be_bytes().to_vec();
    let peer = samples::peer_id(random);
    let (kind, originating, destination) = match random.below(10) {
        0..=3 => (0x62, Some(peer), None),
        4..=6 => (0x65, Some(peer), Some(destination)),
        7 => (0x61, None, None),
        8 if random.chance(30) => (0x64, None, Some(destination)),
        8 => (random.pick(&[0x63, 0x60, 0x42, 0x7E, 0x7F, 0x5F]), Some(peer), Some(destination)),
        _ => return samples::abort(random, &destination),
    };
    let portion = random.chance(30).then(|| deep_portion(random));
    let components = random.chance(85).then(|| components(random));
    samples::message(random, Parts { kind, originating, destination, portion, components })
}

fn deep_portion(random: &mut Random) -> Tree {
    match random.below(5) {
        0 | 1 => return samples::portion(random),
        2 => return any_edge(random, 0x6B, Vec::new()),
        3 => return pdus::any(random),
        _ => {}
    }
    let levels = random.within(14, 17);
    let nest = samples::nested(random, levels);
    any_node(random, 0x6B, vec![nest])
}

/// A few components; or one that is deep, or as many small ones as a message may hold.
fn components(random: &mut Random) -> Vec<Tree> {
    let ids = [-128, 127, 5];
    match random.below(8) {
        0 | 1 => vec![deep_component(random)],
        3 => vec![any_edge(random, 0xA1, vec![leaf(0x02, &[5]), leaf(0x02, &[0x3C])])],
        2 if random.chance(20) => (0..random.within(60, 100)).map(|number| small_component(number as u8)).collect(),
        _ => (0..random.below(4)).map(|_| samples::component(random, &ids)).collect(),
    }
}

/// A constructor with an element whose length is at an edge, or itself of such a length.
fn any_edge(random: &mut Random, tag: u8, mut pieces: Vec<Tree>) -> Tree {
    if random.chance(15) {
        return edge_length(random, tag);
    }
    let inner = random.pick(&[0x04, 0x04, 0x30]);
    pieces.push(edge_length(random, inner));
    any_node(random, tag, pieces)
}

fn small_component(number: u8) -> Tree {
    Tree::Raw(vec![0xA2, 3, 2, 1, number])
}

/// An invoke, result or error that reaches depth 15 to 18.
fn deep_component(random: &mut Random) -> Tree {
    let levels = random.within(13, 17);
    let deep = samples::nested(random, levels);
    let id = leaf(0x02, &[5]);
    let code = leaf(0x02, &[0x3C]);
    match random.below(3) {
        0 => any_node(random, 0xA1, vec![id, code, deep]),
        1 => any_node(random, 0xA3, vec![id, code, deep]),
        _ => {
            let inner = any_node(random, 0x30, vec![code, deep]);
            any_node(random, 0xA2, vec![id, inner])
        }
    }
}
