//! Elements as trees: built, read from octets, and damaged at any level while what is around them stays sound.

use super::random::Random;
use crate::coding;

#[derive(Clone)]
pub enum Tree {
    Leaf {
        tag: Vec<u8>,
        octets: Vec<u8>,
    },
    Node {
        tag: Vec<u8>,
        children: Vec<Tree>,
        indefinite: bool,
    },
    /// Octets as they are, sound or not.
    Raw(Vec<u8>),
}

const TAGS: [u8; 30] = [
    0x00, 0x02, 0x04, 0x05, 0x06, 0x20, 0x30, 0x48, 0x49, 0x4A, 0x61, 0x62, 0x63, 0x64, 0x65, 0x67, 0x6B, 0x6C, 0x80,
    0x81, 0x82, 0x83, 0x84, 0xA0, 0xA1, 0xA2, 0xA3, 0xA4, 0xA7, 0xFF,
];

const OCTETS: [u8; 16] =
    [0x00, 0x01, 0x02, 0x05, 0x1F, 0x3F, 0x7F, 0x80, 0x81, 0x82, 0x83, 0x84, 0xA1, 0xA4, 0xFE, 0xFF];

const LONG_TAGS: [&[u8]; 12] = [
    &[0x1F, 0x1F],
    &[0x3F, 0x1F],
    &[0x9F, 0x7F],
    &[0xBF, 0x81, 0x00],
    &[0x5F, 0xFF, 0xFF, 0x7F],
    &[0x7F, 0x81, 0x80, 0x80, 0x00],
    &[0xBF, 0xFF, 0xFF, 0xFF, 0x7F],
    &[0x1F, 0x1E],
    &[0x3F, 0x00],
    &[0x3F, 0x80, 0x20],
    &[0xBF, 0x81, 0x81, 0x81, 0x81, 0x01],
    &[0x1F, 0xFF],
];

/// How many of the long tags are well formed.
const SOUND_LONG_TAGS: usize = 7;

pub fn leaf(tag: u8, octets: &[u8]) -> Tree {
    Tree::Leaf { tag: vec![tag], octets: octets.to_vec() }
}

pub fn node(tag: u8, children: Vec<Tree>) -> Tree {
    Tree::Node { tag: vec![tag], children, indefinite: false }
}

/// A node of either form of length.
pub fn any_node(random: &mut Random, tag: u8, children: Vec<Tree>) -> Tree {
    Tree::Node { tag: vec![tag], children, indefinite: random.chance(25) }
}

/// An element whose length is at the edge of a form, in any of the forms.
pub fn edge_length(random: &mut Random, tag: u8) -> Tree {
    let length = random.pick(&[0, 1, 126, 127, 128, 129, 254, 255, 256, 257]);
    let contents: Vec<u8> = if random.chance(50) { [0x05, 0x00].repeat(length / 2) } else { vec![0; length] };
    Tree::Raw([vec![tag], length_octets(random, contents.len()), contents].concat())
}

pub fn sound_long_tag(random: &mut Random) -> Vec<u8> {
    random.pick(&LONG_TAGS[..SOUND_LONG_TAGS]).to_vec()
}

fn encode(tag: &[u8], contents: &[u8], indefinite: bool) -> Vec<u8> {
    let mut octets = tag.to_vec();
    if indefinite {
        octets.push(0x80);
        octets.extend(contents);
        octets.extend([0, 0]);
    } else {
        octets.extend(&coding::write(0, contents)[1..]);
    }
    octets
}

impl Tree {
    pub fn encode(&self) -> Vec<u8> {
        match self {
            Tree::Leaf { tag, octets } => encode(tag, octets, false),
            Tree::Node { tag, children, indefinite } => encode(tag, &encode_all(children), *indefinite),
            Tree::Raw(octets) => octets.clone(),
        }
    }

    /// The tree of octets; what is no element stays raw.
    pub fn read(octets: &[u8]) -> Tree {
        match coding::frame(octets, 0, 0) {
            Some(frame) if frame.whole.end == octets.len() => {
                let indefinite = frame.contents.end != octets.len();
                let tag = octets[..coding::tag_end(octets, 0).unwrap_or(1)].to_vec();
                let contents = &octets[frame.contents];
                if coding::is_constructor(octets[0]) {
                    Tree::Node { tag, children: read_all(contents), indefinite }
                } else {
                    Tree::Leaf { tag, octets: contents.to_vec() }
                }
            }
            _ => Tree::Raw(octets.to_vec()),
        }
    }

    pub fn count(&self) -> usize {
        match self {
            Tree::Node { children, .. } => 1 + children.iter().map(Tree::count).sum::<usize>(),
            _ => 1,
        }
    }

    /// The tree of this number, counted from the root, each before its children.
    pub fn find(&mut self, number: usize) -> &mut Tree {
        if number == 0 {
            return self;
        }
        let Tree::Node { children, .. } = self else {
            return self;
        };
        let mut left = number - 1;
        let mut chosen = children.len() - 1;
        for (position, child) in children.iter().enumerate() {
            if left < child.count() {
                chosen = position;
                break;
            }
            left -= child.count();
        }
        children[chosen].find(left)
    }

    /// Damages one of its elements, the outermost too.
    pub fn damage(&mut self, random: &mut Random) {
        let number = random.below(self.count());
        damage_one(self.find(number), random);
    }

    /// The octets, damaged as often as said.
    pub fn damaged(mut self, random: &mut Random, times: usize) -> Vec<u8> {
        for _ in 0..times {
            self.damage(random);
        }
        self.encode()
    }

    pub fn set_tag(&mut self, new: Vec<u8>) {
        match self {
            Tree::Leaf { tag, .. } | Tree::Node { tag, .. } => *tag = new,
            Tree::Raw(octets) => {
                octets.splice(..octets.len().min(1), new);
            }
        }
    }
}

pub fn encode_all(trees: &[Tree]) -> Vec<u8> {
    trees.iter().flat_map(Tree::encode).collect()
}

fn read_all(octets: &[u8]) -> Vec<Tree> {
    let mut trees = Vec::new();
    let mut at = 0;
    while at < octets.len() {
        let end = coding::frame(octets, at, 0).map_or(octets.len(), |frame| frame.whole.end);
        trees.push(Tree::read(&octets[at..end]));
        at = end;
    }
    trees
}

fn damage_one(tree: &mut Tree, random: &mut Random) {
    match random.below(8) {
        0 | 1 => *tree = Tree::Raw(damage_octets(&tree.encode(), random)),
        2 => tree.set_tag(vec![random.pick(&TAGS)]),
        3 => tree.set_tag(random.pick(&LONG_TAGS).to_vec()),
        4 => *tree = Tree::Raw(with_other_length(tree, random)),
        5 => damage_contents(tree, random),
        6 => damage_children(tree, random),
        _ => toggle_form(tree, random),
    }
}

/// Octets with a bit turned, an octet changed, put in or left out, an end cut off, or something after them.
pub fn damage_octets(octets: &[u8], random: &mut Random) -> Vec<u8> {
    let mut octets = octets.to_vec();
    let at = random.below(octets.len().max(1));
    match random.below(8) {
        _ if octets.is_empty() => octets.push(random.octet()),
        0 | 1 => octets[at] ^= 1 << random.below(8),
        2 => octets[at] = random.pick(&OCTETS),
        3 => octets.insert(at, random.pick(&OCTETS)),
        4 => {
            octets.remove(at);
        }
        5 => octets.truncate(at),
        6 => octets.extend([0, 0]),
        _ => octets.push(random.pick(&OCTETS)),
    }
    octets
}

/// The element with its length one too small or large, or in a form that is not its own.
fn with_other_length(tree: &Tree, random: &mut Random) -> Vec<u8> {
    let (tag, contents) = match tree {
        Tree::Leaf { tag, octets } => (tag.clone(), octets.clone()),
        Tree::Node { tag, children, .. } => (tag.clone(), encode_all(children)),
        Tree::Raw(octets) => (Vec::new(), octets.clone()),
    };
    [tag, length_octets(random, contents.len()), contents].concat()
}

/// Length octets for so many octets: in one of the forms, or one too small or large, or any.
fn length_octets(random: &mut Random, length: usize) -> Vec<u8> {
    let (high, low) = ((length >> 8) as u8, length as u8);
    match random.below(11) {
        0 => vec![0x80],
        1..=3 => vec![0x81, low],
        4..=6 => vec![0x82, high, low],
        7 => vec![0x83, 0, high, low],
        8 => vec![0x84, 0, 0, high, low],
        9 => vec![random.pick(&[low, low.wrapping_add(1), low.wrapping_sub(1)])],
        _ => vec![random.octet()],
    }
}

fn damage_contents(tree: &mut Tree, random: &mut Random) {
    match tree {
        Tree::Leaf { octets, .. } => *octets = damage_octets(octets, random),
        Tree::Node { children, .. } => children.push(Tree::Raw(random.pick(&[vec![0, 0], vec![0x05, 0], vec![0]]))),
        Tree::Raw(octets) => *octets = damage_octets(octets, random),
    }
}

/// A child left out, given twice, moved, or put into one more constructor.
fn damage_children(tree: &mut Tree, random: &mut Random) {
    let Tree::Node { children, .. } = tree else {
        return damage_contents(tree, random);
    };
    if children.is_empty() {
        return children.push(leaf(random.pick(&TAGS), &[1]));
    }
    let (one, other) = (random.below(children.len()), random.below(children.len()));
    match random.below(4) {
        0 => {
            children.remove(one);
        }
        1 => children.insert(other, children[one].clone()),
        2 => children.swap(one, other),
        _ => children[one] = any_node(random, 0x30, vec![children[one].clone()]),
    }
}

/// Definite to indefinite and back; a leaf gets the bit of a constructor, or the form 80.
fn toggle_form(tree: &mut Tree, random: &mut Random) {
    match tree {
        Tree::Node { indefinite, .. } => *indefinite = !*indefinite,
        Tree::Leaf { tag, octets } if random.chance(50) => *tree = Tree::Raw(encode(tag, octets, true)),
        Tree::Leaf { tag, .. } => tag[0] ^= 0x20,
        Tree::Raw(octets) => octets.extend([0, 0]),
    }
}
