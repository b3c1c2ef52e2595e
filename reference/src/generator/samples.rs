//! Sample octets: elements, components and messages, sound unless said otherwise.

use super::pdus;
use super::random::Random;
use super::tree::{any_node, leaf, node, sound_long_tag, Tree};

const IDS: [i8; 10] = [-128, 127, 0, -1, 1, 2, 3, 5, 8, 126];

pub fn any_id(random: &mut Random) -> i8 {
    random.pick(&IDS)
}

/// A transaction ID of a peer, 1 to 4 octets.
pub fn peer_id(random: &mut Random) -> Vec<u8> {
    let count = random.pick(&[1, 2, 3, 4, 4, 4]);
    random.octets(count)
}

/// An operation or an error.
pub fn code(random: &mut Random) -> Tree {
    match random.below(6) {
        0 => leaf(0x02, &[0x3B]),
        1 => leaf(0x02, &[1, 2, 3, 4]),
        2 => leaf(0x06, &[0x2A, 3]),
        3 => leaf(0x06, &[0x80]),
        4 if random.chance(10) => leaf(0x06, &[7; 130]),
        _ => {
            let count = random.within(1, 4);
            leaf(0x02, &random.octets(count))
        }
    }
}

/// Octets near an operation, mostly not one.
pub fn odd_code(random: &mut Random) -> Vec<u8> {
    let odd: [&[u8]; 9] = [
        &[],
        &[0x02, 0x00],
        &[0x02, 0x05, 1, 2, 3, 4, 5],
        &[0x06, 0x00],
        &[0x04, 0x01, 0x3B],
        &[0x02, 0x01],
        &[0x02, 0x01, 0x3B, 0x00],
        &[0x02, 0x81, 0x01, 0x3B],
        &[0x26, 0x03, 0x02, 0x01, 0x3B],
    ];
    random.pick(&odd).to_vec()
}

/// One element of any shape, small most of the time.
pub fn element(random: &mut Random) -> Tree {
    match random.below(16) {
        0..=5 => {
            let count = random.below(8);
            leaf(random.pick(&[0x04, 0x05, 0x80, 0x81, 0x14]), &random.octets(count))
        }
        6..=9 => children(random, 0x30),
        10 => children(random, 0xA3),
        11 => Tree::Leaf { tag: primitive(sound_long_tag(random)), octets: vec![1, 2] },
        12 => Tree::Node { tag: constructor(sound_long_tag(random)), children: vec![leaf(4, &[9])], indefinite: true },
        13 => {
            let count = random.pick(&[20, 100, 127, 128, 129]);
            leaf(0x04, &random.octets(count))
        }
        14 => any_node(random, 0x20, Vec::new()),
        _ => {
            let depth = random.within(2, 8);
            nested(random, depth)
        }
    }
}

fn children(random: &mut Random, tag: u8) -> Tree {
    let count = random.below(4);
    let children = (0..count).map(|_| element(random)).collect();
    any_node(random, tag, children)
}

fn primitive(mut tag: Vec<u8>) -> Vec<u8> {
    tag[0] &= !0x20;
    tag
}

fn constructor(mut tag: Vec<u8>) -> Vec<u8> {
    tag[0] |= 0x20;
    tag
}

/// Constructors in one another, as many levels as said, the innermost empty or with a primitive as the last level.
pub fn nested(random: &mut Random, levels: usize) -> Tree {
    let percent_indefinite = random.pick(&[0, 50, 100]);
    let mut tree = if random.chance(50) { leaf(0x04, &[]) } else { any_node(random, 0x30, Vec::new()) };
    for _ in 1..levels {
        let indefinite = random.chance(percent_indefinite);
        tree = Tree::Node { tag: vec![0x30], children: vec![tree], indefinite };
    }
    tree
}

fn id_leaf(tag: u8, id: i8) -> Tree {
    leaf(tag, &[id as u8])
}

fn with_optional(random: &mut Random, mut pieces: Vec<Tree>, percent: usize) -> Vec<Tree> {
    if random.chance(percent) {
        pieces.push(element(random));
    }
    pieces
}

pub fn invoke(random: &mut Random, id: i8, linked: Option<i8>) -> Tree {
    let mut pieces = vec![id_leaf(0x02, id)];
    pieces.extend(linked.map(|linked| id_leaf(0x80, linked)));
    pieces.push(code(random));
    let pieces = with_optional(random, pieces, 60);
    any_node(random, 0xA1, pieces)
}

pub fn result(random: &mut Random, tag: u8, id: i8) -> Tree {
    let mut pieces = vec![id_leaf(0x02, id)];
    if random.chance(60) {
        let inner = vec![code(random), element(random)];
        pieces.push(any_node(random, 0x30, inner));
    }
    any_node(random, tag, pieces)
}

pub fn error(random: &mut Random, id: i8) -> Tree {
    let pieces = vec![id_leaf(0x02, id), code(random)];
    let pieces = with_optional(random, pieces, 50);
    any_node(random, 0xA3, pieces)
}

/// A reject with any problem near the nineteen; most are in the list.
pub fn reject(random: &mut Random, id: Option<i8>) -> Tree {
    let first = id.map_or(leaf(0x05, &[]), |id| id_leaf(0x02, id));
    let kind = random.within(0x80, 0x83) as u8;
    let most = [2, 7, 2, 4][usize::from(kind - 0x80)] + usize::from(random.chance(10));
    let problem = leaf(kind, &[random.within(0, most) as u8]);
    any_node(random, 0xA4, vec![first, problem])
}

/// A component of any kind, its IDs from those given.
pub fn component(random: &mut Random, ids: &[i8]) -> Tree {
    let id = random.pick(ids);
    match random.below(10) {
        0..=2 => {
            let linked = random.chance(30).then(|| random.pick(ids));
            invoke(random, id, linked)
        }
        3 | 4 => result(random, 0xA2, id),
        5 | 6 => result(random, 0xA7, id),
        7 => error(random, id),
        _ => {
            let id = (!random.chance(15)).then_some(id);
            reject(random, id)
        }
    }
}

/// A dialogue portion, with a PDU or without.
pub fn portion(random: &mut Random) -> Tree {
    match random.below(7) {
        4..=6 => pdus::sound(random),
        0 => any_node(random, 0x6B, Vec::new()),
        1 => any_node(random, 0x6B, vec![node(0x28, vec![leaf(0x06, &[0x2A, 3])])]),
        2 => {
            let levels = random.within(14, 16);
            let nest = nested(random, levels);
            any_node(random, 0x6B, vec![nest])
        }
        _ => children(random, 0x6B),
    }
}

/// What a message is made of; its components are trees of their own.
pub struct Parts {
    pub kind: u8,
    pub originating: Option<Vec<u8>>,
    pub destination: Option<Vec<u8>>,
    pub portion: Option<Tree>,
    pub components: Option<Vec<Tree>>,
}

pub fn message(random: &mut Random, parts: Parts) -> Tree {
    let mut contents = Vec::new();
    contents.extend(parts.originating.map(|id| leaf(0x48, &id)));
    contents.extend(parts.destination.map(|id| leaf(0x49, &id)));
    contents.extend(parts.portion);
    contents.extend(parts.components.map(|components| any_node(random, 0x6C, components)));
    with_stray(random, &mut contents);
    any_node(random, parts.kind, contents)
}

/// Now and then an element where it does not belong.
fn with_stray(random: &mut Random, contents: &mut Vec<Tree>) {
    if !random.chance(4) {
        return;
    }
    let components = vec![Tree::Raw(vec![0xA2, 3, 2, 1, 5])];
    let ids = [leaf(0x48, &[7]), leaf(0x49, &[7]), leaf(0x4A, &[1])];
    let others = [node(0x6B, Vec::new()), node(0x6C, components), leaf(0x05, &[])];
    let stray = random.pick(&[ids, others].concat());
    contents.insert(random.below(contents.len() + 1), stray);
}

/// An Abort, with a cause, a portion or neither.
pub fn abort(random: &mut Random, destination: &[u8]) -> Tree {
    let mut contents = vec![leaf(0x49, destination)];
    match random.below(3) {
        0 => {}
        1 => contents.push(leaf(0x4A, &[random.below(6) as u8])),
        _ => contents.push(portion(random)),
    }
    with_stray(random, &mut contents);
    any_node(random, 0x67, contents)
}
