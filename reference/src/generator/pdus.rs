//! Dialogue portions with the PDUs of 004, 4.2.3, as partners may write them, and with something in them changed.

use super::giving;
use super::random::Random;
use super::tree::{any_node, leaf, node, Tree};
use crate::given::{STRUCTURED, UNSTRUCTURED};

/// An object identifier, and the tag of a PDU that goes with it.
type Kind = ([u8; 7], u8);

const PRIMITIVES: [u8; 6] = [0x02, 0x04, 0x06, 0x80, 0x81, 0x9E];
const CONSTRUCTORS: [u8; 15] =
    [0x28, 0x30, 0x60, 0x61, 0x62, 0x64, 0x65, 0x6B, 0x6C, 0xA0, 0xA1, 0xA2, 0xA3, 0xA4, 0xBE];

/// A portion with a PDU of any kind, in any of the length forms.
pub fn sound(random: &mut Random) -> Tree {
    let kind = any_kind(random);
    let pdu = pdu(random, kind, false);
    with_frame(random, kind, pdu)
}

fn any_kind(random: &mut Random) -> Kind {
    random.pick(&[(STRUCTURED, 0x60), (STRUCTURED, 0x61), (STRUCTURED, 0x64), (UNSTRUCTURED, 0x60)])
}

/// A PDU without information; an odd one may have a value just past the last, no name or another giver.
fn pdu(random: &mut Random, (_, tag): Kind, odd: bool) -> Tree {
    let pieces = match tag {
        0x60 => name(random, odd),
        0x61 => response(random, odd),
        _ => vec![leaf(0x80, &[random.within(0, 1 + usize::from(odd)) as u8])],
    };
    any_node(random, tag, pieces)
}

/// The portion of a PDU, to which an information is mostly added.
fn with_frame(random: &mut Random, (identifier, _): Kind, mut pdu: Tree) -> Tree {
    if let Tree::Node { children, .. } = &mut pdu {
        children.extend(random.chance(60).then(|| giving::information(random)));
    }
    let single = any_node(random, 0xA0, vec![pdu]);
    let external = any_node(random, 0x28, vec![leaf(0x06, &identifier), single]);
    any_node(random, 0x6B, vec![external])
}

/// The A1 with the name, now and then a protocol version before it.
fn name(random: &mut Random, odd: bool) -> Vec<Tree> {
    let versions: [&[u8]; 4] = [&[0x07, 0x80], &[0x07, 0x80], &[0x00], &[]];
    let version = random.chance(35).then(|| leaf(0x80, random.pick(&versions)));
    let name = if odd && random.chance(15) { leaf(0x06, &[]) } else { giving::name(random) };
    version.into_iter().chain([any_node(random, 0xA1, vec![name])]).collect()
}

fn value(random: &mut Random, tag: u8, most: usize) -> Tree {
    let value = leaf(0x02, &[random.within(0, most) as u8]);
    any_node(random, tag, vec![value])
}

fn response(random: &mut Random, odd: bool) -> Vec<Tree> {
    let mut pieces = name(random, odd);
    pieces.push(value(random, 0xA2, 1 + usize::from(odd)));
    let giver = if odd && random.chance(20) { random.pick(&[0xA0, 0xA3]) } else { random.pick(&[0xA1, 0xA1, 0xA2]) };
    let diagnostic = value(random, giver, 2 + usize::from(odd));
    pieces.push(any_node(random, 0xA3, vec![diagnostic]));
    pieces
}

/// A sound portion, one with something else in it that is well formed too, or a damaged one.
pub fn any(random: &mut Random) -> Tree {
    let kind = any_kind(random);
    match random.below(12) {
        0 | 1 => {
            let pdu = pdu(random, kind, true);
            with_frame(random, kind, pdu)
        }
        2..=5 => twisted(random, kind),
        6 => {
            let octets = pdu(random, kind, false).encode();
            let mut portion = with_frame(random, kind, Tree::Raw(octets));
            twist(&mut portion, random);
            portion
        }
        7 => {
            let mut portion = sound(random);
            portion.damage(random);
            portion
        }
        _ => sound(random),
    }
}

/// A portion whose PDU was changed in its own pieces, or in any of its elements, before the information came to it.
fn twisted(random: &mut Random, kind: Kind) -> Tree {
    let mut pdu = pdu(random, kind, false);
    match &mut pdu {
        Tree::Node { children, .. } if random.chance(50) => twist_children(children, random),
        _ => twist(&mut pdu, random),
    }
    with_frame(random, kind, pdu)
}

/// Changes one of its elements so that what was well formed still is.
fn twist(tree: &mut Tree, random: &mut Random) {
    let number = random.below(tree.count());
    let chosen = tree.find(number);
    match chosen {
        Tree::Leaf { .. } if random.chance(30) => chosen.set_tag(vec![random.pick(&PRIMITIVES)]),
        Tree::Node { .. } if random.chance(30) => chosen.set_tag(vec![random.pick(&CONSTRUCTORS)]),
        Tree::Leaf { octets, .. } => twist_octets(octets, random),
        Tree::Node { children, .. } => twist_children(children, random),
        Tree::Raw(_) => {}
    }
}

/// A value changed by little, or one octet more or less.
fn twist_octets(octets: &mut Vec<u8>, random: &mut Random) {
    match (random.below(5), octets.last_mut()) {
        (0..=2, Some(last)) => *last = random.pick(&[0, 1, 2, 3, 128, 255]),
        (3, Some(_)) => {
            octets.pop();
        }
        _ => octets.push(0),
    }
}

/// A child left out, given twice or moved, or a piece of some PDU put between.
fn twist_children(children: &mut Vec<Tree>, random: &mut Random) {
    let at = random.below(children.len() + 1);
    match (random.below(6), children.get(at).cloned()) {
        (0, Some(_)) => {
            children.remove(at);
        }
        (1, Some(child)) => children.insert(random.below(children.len()), child),
        (2, Some(_)) => {
            let other = random.below(children.len());
            children.swap(at, other);
        }
        _ => children.insert(at, stray(random)),
    }
}

/// A protocol version, also as a constructor; or a piece of another place.
fn stray(random: &mut Random) -> Tree {
    if random.chance(40) {
        return random.pick(&[leaf(0x80, &[0]), leaf(0x80, &[7, 0x80]), node(0xA0, Vec::new()), leaf(0x81, &[0])]);
    }
    let name = node(0xA1, vec![leaf(0x06, &[0x2A])]);
    let value = |tag| node(tag, vec![leaf(0x02, &[0])]);
    let constructors = [name, value(0xA1), value(0xA2), node(0xA3, vec![value(0xA1)]), node(0xBE, Vec::new())];
    let primitives = [leaf(0x02, &[1]), leaf(0x06, &[0x2A]), leaf(0x05, &[])];
    random.pick(&[&constructors[..], &primitives[..]].concat())
}
