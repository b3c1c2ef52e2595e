//! Problem codes, and who sends them (01, Coding).

/// A problem: its kind is the tag less 128.
#[derive(Clone, Copy, PartialEq, Debug)]
pub struct Problem {
    pub kind: u8,
    pub code: u8,
}

#[derive(Clone, Copy, PartialEq)]
pub enum Sender {
    User,
    SubLayer,
}

pub const GENERAL: u8 = 0;
pub const INVOKE: u8 = 1;
pub const RESULT: u8 = 2;
pub const ERROR: u8 = 3;

pub const LINKED_UNKNOWN: Problem = Problem { kind: INVOKE, code: 5 };

use Sender::{SubLayer, User};

/// The nineteen codes: kind, code, sender.
const CODES: [(u8, u8, Sender); 19] = [
    (GENERAL, 0, SubLayer),
    (GENERAL, 1, SubLayer),
    (GENERAL, 2, SubLayer),
    (INVOKE, 0, User),
    (INVOKE, 1, User),
    (INVOKE, 2, User),
    (INVOKE, 3, User),
    (INVOKE, 4, User),
    (INVOKE, 5, SubLayer),
    (INVOKE, 6, User),
    (INVOKE, 7, User),
    (RESULT, 0, SubLayer),
    (RESULT, 1, SubLayer),
    (RESULT, 2, User),
    (ERROR, 0, SubLayer),
    (ERROR, 1, SubLayer),
    (ERROR, 2, User),
    (ERROR, 3, User),
    (ERROR, 4, User),
];

impl Problem {
    /// Who sends it; none where it is not in the list.
    pub fn sender(self) -> Option<Sender> {
        CODES.iter().find(|(kind, code, _)| (*kind, *code) == (self.kind, self.code)).map(|(_, _, sender)| *sender)
    }

    /// The number that rows and requests give it.
    pub fn number(self) -> u32 {
        u32::from(self.kind) * 256 + u32::from(self.code)
    }

    pub fn from_number(number: u32) -> Option<Problem> {
        let kind = u8::try_from(number / 256).ok()?;
        Some(Problem { kind, code: (number % 256) as u8 })
    }

    pub fn tag(self) -> u8 {
        self.kind + 0x80
    }
}
