//! Dialogue portions read (02 a; 004, 4.2.3).

use crate::coding;
use crate::given::Pdu;
use crate::pieces::Pieces;
use std::ops::Range;

/// What stands at a run of a message. Name and information are by where they lie, 0..0 for none.
#[derive(Default)]
pub struct Portion {
    kind: u32,
    name: Range<usize>,
    information: Range<usize>,
    result: Option<u8>,
    diagnostic: Option<u32>,
    source: Option<u8>,
}

/// The run is not in the message, or not one well-formed 6B.
const NONE: u32 = 0;
/// A 6B that is none of the four PDUs: never a fault.
const OPAQUE: u32 = 1;

const NO_VALUE: u32 = 65_535;
/// A diagnostic is this plus its value.
const OF_USER: u32 = 256;
const OF_PROVIDER: u32 = 512;

/// A row has 32 bits for a start: no run reaches past them.
const FURTHEST: u64 = 1 << 32;

impl Portion {
    fn of(kind: u32) -> Portion {
        Portion { kind, ..Portion::default() }
    }

    /// The numbers of its row.
    pub fn numbers(&self) -> [u32; 8] {
        let value = |value: Option<u32>| value.unwrap_or(NO_VALUE);
        let (name, information) = (&self.name, &self.information);
        [
            self.kind,
            name.start as u32,
            name.len() as u32,
            information.start as u32,
            information.len() as u32,
            value(self.result.map(u32::from)),
            value(self.diagnostic),
            value(self.source.map(u32::from)),
        ]
    }
}

/// The dialogue portion at a run of a message; it looks at no table and not at the message around the run.
pub fn read(octets: &[u8], start: u64, length: u64) -> Portion {
    let Some(octets) = up_to_end(octets, start, length) else {
        return Portion::of(NONE);
    };
    let start = start as usize;
    if octets.get(start) != Some(&0x6B) || coding::element(octets, start, 1) != Some(octets.len()) {
        return Portion::of(NONE);
    }
    Pieces { octets, at: start }.portion().unwrap_or(Portion::of(OPAQUE))
}

/// The message up to where the run ends, if it lies in it.
fn up_to_end(octets: &[u8], start: u64, length: u64) -> Option<&[u8]> {
    let end = start.checked_add(length).filter(|end| *end <= FURTHEST)?;
    octets.get(..usize::try_from(end).ok()?)
}

/// The pieces of a portion, each the next that its form has.
impl Pieces<'_> {
    /// The 28 holds the object identifier and the A0, the A0 the PDU, and nothing else.
    fn portion(self) -> Option<Portion> {
        let mut external = self.only(0x6B)?.only(0x28)?;
        let identifier = external.take_tagged(0x06)?.contents;
        let identifier = &external.octets[identifier];
        let single = external.only(0xA0)?;
        let tag = single.next_tag()?;
        single.only(tag)?.pdu(Pdu::of(identifier, tag)?)
    }

    fn pdu(mut self, pdu: Pdu) -> Option<Portion> {
        let mut portion = Portion::of(pdu as u32);
        match pdu {
            Pdu::Request | Pdu::Unidirectional => portion.name = self.name()?,
            Pdu::Response => {
                portion.name = self.name()?;
                portion.result = Some(self.inside(0xA2)?.value(1)?);
                portion.diagnostic = Some(self.inside(0xA3)?.diagnostic()?);
            }
            Pdu::Abort => portion.source = Some(self.octet(0x80).filter(|source| *source <= 1)?),
        }
        portion.information = self.take_tagged(0xBE).map_or(0..0, |frame| frame.whole);
        self.finished().then_some(portion)
    }

    /// The 06 of at least 1 octet in the A1; a protocol version before it is stepped over.
    fn name(&mut self) -> Option<Range<usize>> {
        self.take_tagged(0x80);
        let mut inside = self.inside(0xA1)?;
        let name = inside.take_tagged(0x06)?;
        (inside.finished() && !name.contents.is_empty()).then_some(name.whole)
    }

    /// The only piece left is 02 01 with a value up to the last.
    fn value(mut self, last: u8) -> Option<u8> {
        let value = self.octet(0x02)?;
        (self.finished() && value <= last).then_some(value)
    }

    fn diagnostic(self) -> Option<u32> {
        let tag = self.next_tag()?;
        let giver = match tag {
            0xA1 => OF_USER,
            0xA2 => OF_PROVIDER,
            _ => return None,
        };
        Some(giver + u32::from(self.only(tag)?.value(2)?))
    }
}
