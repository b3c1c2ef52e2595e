//! What a user gives for the dialogue portion, judged and written (02 a; 004, 4.2.3).

use crate::coding::{self, write};
use crate::dialogue::State;

/// A context name (one 06) and user information (one BE) given with a sending; no octets for none.
#[derive(Clone)]
pub struct Given {
    pub name: Vec<u8>,
    pub information: Vec<u8>,
}

/// The PDUs, by the number that rows give them: AARQ, AARE, ABRT and AUDT.
#[derive(Clone, Copy, PartialEq, Debug)]
pub enum Pdu {
    Request = 2,
    Response = 3,
    Abort = 4,
    Unidirectional = 5,
}

pub const STRUCTURED: [u8; 7] = [0x00, 0x11, 0x86, 0x05, 0x01, 0x01, 0x01];
pub const UNSTRUCTURED: [u8; 7] = [0x00, 0x11, 0x86, 0x05, 0x01, 0x02, 0x01];

/// Result and diagnostic of a response: accepted; user, null.
const ACCEPTED: [u8; 12] = [0xA2, 3, 0x02, 1, 0, 0xA3, 5, 0xA1, 3, 0x02, 1, 0];
/// The source of an abort: user.
const BY_USER: [u8; 3] = [0x80, 1, 0];

/// The 6B is depth 1, and 28, A0, the PDU, A1 and the name follow in one another; the information stands beside the A1.
const NAME_DEPTH: usize = 6;
const INFORMATION_DEPTH: usize = 5;

impl Pdu {
    /// The object identifier with which it goes, and its tag.
    fn frame(self) -> ([u8; 7], u8) {
        match self {
            Pdu::Request => (STRUCTURED, 0x60),
            Pdu::Response => (STRUCTURED, 0x61),
            Pdu::Abort => (STRUCTURED, 0x64),
            Pdu::Unidirectional => (UNSTRUCTURED, 0x60),
        }
    }

    /// The PDU that an object identifier and a tag make.
    pub fn of(identifier: &[u8], tag: u8) -> Option<Pdu> {
        use Pdu::*;
        let is = |pdu: &Pdu| pdu.frame().0 == identifier && pdu.frame().1 == tag;
        [Request, Response, Abort, Unidirectional].into_iter().find(is)
    }

    /// The whole 6B with these pieces in the PDU.
    fn portion(self, pieces: &[u8]) -> Vec<u8> {
        let (identifier, tag) = self.frame();
        let single = write(0xA0, &write(tag, pieces));
        write(0x6B, &write(0x28, &[write(0x06, &identifier), single].concat()))
    }
}

impl Given {
    pub const NONE: Given = Given { name: Vec::new(), information: Vec::new() };

    pub fn is_none(&self) -> bool {
        self.name.is_empty() && self.information.is_empty()
    }

    /// Whether each is one element of its kind, or none.
    pub fn is_sound(&self) -> bool {
        let name_is = self.name.is_empty() || is_name(&self.name);
        name_is && (self.information.is_empty() || is_information(&self.information))
    }

    /// Whether a sending from this state takes them: in Active neither, and no information without a name.
    pub fn suits(&self, state: State) -> bool {
        let nameless = self.name.is_empty() && !self.information.is_empty();
        !nameless && (state != State::Active || self.is_none())
    }

    /// The portion formed from what is given, no octets where nothing is; a name that is not given has no A1.
    pub fn portion(&self, pdu: Pdu) -> Vec<u8> {
        if self.is_none() {
            return Vec::new();
        }
        let name = if self.name.is_empty() { Vec::new() } else { write(0xA1, &self.name) };
        let between: &[u8] = if pdu == Pdu::Response { &ACCEPTED } else { &[] };
        pdu.portion(&[&name, between, &self.information].concat())
    }
}

/// A 06 of at least 1 octet, not examined.
fn is_name(octets: &[u8]) -> bool {
    octets[0] == 0x06 && octets.len() > 2 && coding::is_element(octets, NAME_DEPTH)
}

fn is_information(octets: &[u8]) -> bool {
    octets[0] == 0xBE && coding::is_element(octets, INFORMATION_DEPTH)
}

/// The portion of the user's abort: none, a whole 6B as it is, or an ABRT with the information given.
pub fn abort_portion(octets: &[u8]) -> Option<Vec<u8>> {
    match octets.first() {
        None => Some(Vec::new()),
        Some(0x6B) => coding::is_element(octets, 1).then(|| octets.to_vec()),
        Some(0xBE) => is_information(octets).then(|| Pdu::Abort.portion(&[&BY_USER, octets].concat())),
        Some(_) => None,
    }
}
