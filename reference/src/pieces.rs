//! The elements within a well-formed component or dialogue portion, taken one after another.

use crate::coding::{self, Frame};
use std::ops::Range;

pub struct Pieces<'a> {
    pub octets: &'a [u8],
    pub at: usize,
}

impl<'a> Pieces<'a> {
    pub fn of(octets: &'a [u8], contents: &Range<usize>) -> Pieces<'a> {
        Pieces { octets: &octets[..contents.end], at: contents.start }
    }

    pub fn next_tag(&self) -> Option<u8> {
        self.octets.get(self.at).copied()
    }

    pub fn finished(&self) -> bool {
        self.at == self.octets.len()
    }

    /// The next one. Its nesting was judged with what holds it, so that depth 1, the outermost, does for all.
    pub fn take(&mut self) -> Option<Frame> {
        let frame = coding::frame(self.octets, self.at, 1)?;
        self.at = frame.whole.end;
        Some(frame)
    }

    pub fn take_tagged(&mut self, tag: u8) -> Option<Frame> {
        if self.next_tag() == Some(tag) {
            self.take()
        } else {
            None
        }
    }

    /// A piece of one octet.
    pub fn octet(&mut self, tag: u8) -> Option<u8> {
        let contents = self.take_tagged(tag)?.contents;
        (contents.len() == 1).then(|| self.octets[contents.start])
    }

    /// The pieces within the next one.
    pub fn inside(&mut self, tag: u8) -> Option<Pieces<'a>> {
        let contents = self.take_tagged(tag)?.contents;
        Some(Pieces::of(self.octets, &contents))
    }

    /// The pieces within the only one left.
    pub fn only(mut self, tag: u8) -> Option<Pieces<'a>> {
        let inside = self.inside(tag)?;
        self.finished().then_some(inside)
    }
}
