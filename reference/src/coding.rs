//! Elements: tag, length, contents (01, Coding).
//!
//! Every function takes the octets up to where reading must stop, and positions from their start, so that a
//! position found is a position in the message.

use std::ops::Range;

/// An element below this depth is malformed.
const DEEPEST: usize = 16;

/// The length octets of an element.
#[derive(Clone, Copy, PartialEq)]
pub enum Length {
    Definite(usize),
    Indefinite,
}

/// Where an element lies, from its tag to its end, and where its contents lie.
#[derive(Clone)]
pub struct Frame {
    pub whole: Range<usize>,
    pub contents: Range<usize>,
}

pub fn is_constructor(tag: u8) -> bool {
    tag & 0x20 != 0
}

pub fn is_long_tag(tag: u8) -> bool {
    tag & 0x1F == 0x1F
}

/// The length at a position, and where it ends.
pub fn length(octets: &[u8], at: usize) -> Option<(Length, usize)> {
    match *octets.get(at)? {
        0x80 => Some((Length::Indefinite, at + 1)),
        0x81 => {
            let value = usize::from(*octets.get(at + 1)?);
            (value >= 128).then_some((Length::Definite(value), at + 2))
        }
        0x82 => {
            let value = usize::from(*octets.get(at + 1)?) * 256 + usize::from(*octets.get(at + 2)?);
            (value >= 256).then_some((Length::Definite(value), at + 3))
        }
        short if short < 0x80 => Some((Length::Definite(short.into()), at + 1)),
        _ => None,
    }
}

/// Where the tag at a position ends.
pub fn tag_end(octets: &[u8], at: usize) -> Option<usize> {
    let first = *octets.get(at)?;
    if first == 0 {
        return None;
    }
    if !is_long_tag(first) {
        return Some(at + 1);
    }
    let further = &octets[at + 1..];
    let last = further.iter().take(4).position(|octet| octet & 0x80 == 0)?;
    let leading_zeros = further[0] == 0x80;
    let below_31 = last == 0 && further[0] < 31;
    (!leading_zeros && !below_31).then_some(at + 2 + last)
}

/// The element at a position as far as its end can be found: the contents of a definite one are not looked at.
pub fn frame(octets: &[u8], at: usize, depth: usize) -> Option<Frame> {
    let (length, start) = length(octets, tag_end(octets, at)?)?;
    match length {
        Length::Definite(length) => {
            let end = start + length;
            (end <= octets.len()).then_some(Frame { whole: at..end, contents: start..end })
        }
        Length::Indefinite if is_constructor(octets[at]) => {
            let end = closing(octets, start, depth + 1)?;
            Some(Frame { whole: at..end + 2, contents: start..end })
        }
        Length::Indefinite => None,
    }
}

/// Where the well-formed element at a position ends.
pub fn element(octets: &[u8], at: usize, depth: usize) -> Option<usize> {
    if depth > DEEPEST {
        return None;
    }
    let frame = frame(octets, at, depth)?;
    let sound = !is_constructor(octets[at]) || are_elements(octets, &frame.contents, depth + 1);
    sound.then_some(frame.whole.end)
}

/// Whether a run is well-formed elements one after another.
pub fn are_elements(octets: &[u8], run: &Range<usize>, depth: usize) -> bool {
    let octets = &octets[..run.end];
    let mut at = run.start;
    while at < run.end {
        match element(octets, at, depth) {
            Some(end) => at = end,
            None => return false,
        }
    }
    true
}

/// Whether octets are one well-formed element.
pub fn is_element(octets: &[u8], depth: usize) -> bool {
    element(octets, 0, depth) == Some(octets.len())
}

/// Where the 00 00 stands to which well-formed elements lead up.
fn closing(octets: &[u8], start: usize, depth: usize) -> Option<usize> {
    let mut at = start;
    while octets.get(at..at + 2)? != [0, 0] {
        at = element(octets, at, depth)?;
    }
    Some(at)
}

/// An element written with a definite, shortest length.
pub fn write(tag: u8, contents: &[u8]) -> Vec<u8> {
    let mut octets = vec![tag];
    match contents.len() {
        short @ 0..=127 => octets.push(short as u8),
        long @ 128..=255 => octets.extend([0x81, long as u8]),
        longer => octets.extend([0x82, (longer >> 8) as u8, longer as u8]),
    }
    octets.extend(contents);
    octets
}
