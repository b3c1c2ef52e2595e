//! A received message read in order (01, A received message).

use crate::coding::{self, Length};
use std::ops::Range;

#[derive(Clone, Copy, PartialEq, Debug)]
pub enum Kind {
    Unidirectional = 0x61,
    Begin = 0x62,
    End = 0x64,
    Continue = 0x65,
    Abort = 0x67,
}

/// A transaction ID of 1 to 4 octets.
#[derive(Clone, Copy, PartialEq, Debug)]
pub struct TransactionId {
    length: usize,
    octets: [u8; 4],
}

/// A message in order, its contents by where they lie.
pub struct Message {
    pub kind: Kind,
    pub originating: Option<TransactionId>,
    pub destination: Option<TransactionId>,
    pub portion: Option<Range<usize>>,
    pub components: Option<Range<usize>>,
    pub cause: Option<u8>,
}

/// The P-Abort cause of a fault, and the IDs that are derivable.
pub struct Fault {
    pub cause: u8,
    pub originating: Option<TransactionId>,
    pub destination: Option<TransactionId>,
}

pub enum Reading {
    Dropped,
    Faulty(Fault),
    Sound(Message),
}

const UNKNOWN_TYPE: u8 = 0;
const WRONG_ORDER: u8 = 2;

const ORIGINATING: u8 = 0x48;
const DESTINATION: u8 = 0x49;

impl TransactionId {
    pub fn new(octets: &[u8]) -> Option<TransactionId> {
        let length = octets.len();
        if !(1..=4).contains(&length) {
            return None;
        }
        let mut kept = [0; 4];
        kept[..length].copy_from_slice(octets);
        Some(TransactionId { length, octets: kept })
    }

    pub fn octets(&self) -> &[u8] {
        &self.octets[..self.length]
    }

    /// The local ID that it is, if it has four octets.
    pub fn local_id(&self) -> Option<u32> {
        (self.length == 4).then(|| u32::from_be_bytes(self.octets))
    }
}

impl Kind {
    fn of(tag: u8) -> Option<Kind> {
        use Kind::*;
        [Unidirectional, Begin, End, Continue, Abort].into_iter().find(|kind| *kind as u8 == tag)
    }

    fn has_originating(self) -> bool {
        matches!(self, Kind::Begin | Kind::Continue)
    }

    fn has_destination(self) -> bool {
        matches!(self, Kind::End | Kind::Continue | Kind::Abort)
    }
}

pub fn read(octets: &[u8]) -> Reading {
    let Some((length, start)) = outer(octets) else {
        return Reading::Dropped;
    };
    let kind = Kind::of(octets[0]);
    let cause = match kind {
        None => UNKNOWN_TYPE,
        Some(kind) => match in_order(octets, kind, length, start) {
            Some(message) => return Reading::Sound(message),
            None => WRONG_ORDER,
        },
    };
    let (originating, destination) = derivable(octets, start, kind);
    Reading::Faulty(Fault { cause, originating, destination })
}

/// The outer length and where the contents start, unless the message is dropped for its form.
fn outer(octets: &[u8]) -> Option<(Length, usize)> {
    let tag = *octets.first()?;
    let (length, start) = coding::length(octets, 1)?;
    let primitive_indefinite = length == Length::Indefinite && !coding::is_constructor(tag);
    (!coding::is_long_tag(tag) && !primitive_indefinite).then_some((length, start))
}

/// The IDs that can be read whatever the outer length says; an unknown type is looked through for both.
fn derivable(octets: &[u8], start: usize, kind: Option<Kind>) -> (Option<TransactionId>, Option<TransactionId>) {
    let mut cursor = Cursor { octets, at: start };
    let originating = if kind.is_none_or(Kind::has_originating) { cursor.id(ORIGINATING) } else { None };
    let destination = if kind.is_none_or(Kind::has_destination) { cursor.id(DESTINATION) } else { None };
    (originating, destination)
}

/// The message, if everything stands where it should and nothing else does.
fn in_order(octets: &[u8], kind: Kind, length: Length, start: usize) -> Option<Message> {
    let mut cursor = Cursor { octets, at: start };
    let message = contents(&mut cursor, kind)?;
    let closed = match length {
        Length::Definite(length) => start + length == octets.len() && cursor.at == octets.len(),
        Length::Indefinite => octets[cursor.at..] == [0, 0],
    };
    closed.then_some(message)
}

fn contents(cursor: &mut Cursor, kind: Kind) -> Option<Message> {
    let originating = if kind.has_originating() { Some(cursor.id(ORIGINATING)?) } else { None };
    let destination = if kind.has_destination() { Some(cursor.id(DESTINATION)?) } else { None };
    let mut message = Message { kind, originating, destination, portion: None, components: None, cause: None };
    if kind == Kind::Abort && cursor.next_tag() == Some(0x4A) {
        message.cause = Some(cursor.cause()?);
        return Some(message);
    }
    if cursor.next_tag() == Some(0x6B) {
        message.portion = Some(cursor.portion()?);
    }
    if kind != Kind::Abort && cursor.next_tag() == Some(0x6C) {
        message.components = Some(cursor.components()?);
    }
    let lacks_components = kind == Kind::Unidirectional && message.components.is_none();
    (!lacks_components).then_some(message)
}

/// A position within a message.
struct Cursor<'a> {
    octets: &'a [u8],
    at: usize,
}

impl Cursor<'_> {
    fn next_tag(&self) -> Option<u8> {
        self.octets.get(self.at).copied()
    }

    fn id(&mut self, tag: u8) -> Option<TransactionId> {
        let rest = &self.octets[self.at..];
        let length = usize::from(*rest.get(1)?);
        if rest[0] != tag {
            return None;
        }
        let id = TransactionId::new(rest.get(2..2 + length)?)?;
        self.at += 2 + length;
        Some(id)
    }

    fn cause(&mut self) -> Option<u8> {
        let cause = match self.octets[self.at..] {
            [0x4A, 0x01, cause @ 0..=4, ..] => cause,
            _ => return None,
        };
        self.at += 3;
        Some(cause)
    }

    /// A dialogue portion is depth 1.
    fn portion(&mut self) -> Option<Range<usize>> {
        let start = self.at;
        self.at = coding::element(self.octets, start, 1)?;
        Some(start..self.at)
    }

    /// The contents of the 6C; its components are depth 1.
    fn components(&mut self) -> Option<Range<usize>> {
        let frame = coding::frame(self.octets, self.at, 0)?;
        self.at = frame.whole.end;
        Some(frame.contents)
    }
}
