//! Rows: what a call shows the user (01, Rows).

use crate::components::{Component, Faulty, Kind};
use crate::problems::Sender;
use std::ops::Range;

pub const UNI: u32 = 1;
pub const BEGIN: u32 = 2;
pub const CONTINUE: u32 = 3;
pub const END: u32 = 4;
pub const U_ABORT: u32 = 5;
pub const P_ABORT: u32 = 6;
const INVOKE: u32 = 7;
const RESULT_L: u32 = 8;
const RESULT_NL: u32 = 9;
const U_ERROR: u32 = 10;
const U_REJECT: u32 = 11;
const R_REJECT: u32 = 12;
const L_REJECT_STORED: u32 = 13;
const L_REJECT_NOT_STORED: u32 = 14;
const L_CANCEL: u32 = 15;

const NO_ID: u32 = 256;
const NO_PROBLEM: u32 = 65_535;

#[derive(Clone, Copy, PartialEq, Debug)]
pub struct Row {
    pub kind: u32,
    pub local_id: u32,
    pub id: u32,
    pub linked: u32,
    pub problem: u32,
    pub start: u32,
    pub length: u32,
    pub following: u32,
}

/// An ID as rows give it: plus 128, 256 for none.
pub fn id_number(id: Option<i8>) -> u32 {
    id.map_or(NO_ID, |id| (i32::from(id) + 128) as u32)
}

/// A problem as rows give it: 65,535 for none.
pub fn problem_number(problem: Option<u32>) -> u32 {
    problem.unwrap_or(NO_PROBLEM)
}

impl Row {
    pub fn dialogue(kind: u32, local_id: u32) -> Row {
        Row { kind, local_id, id: NO_ID, linked: NO_ID, problem: NO_PROBLEM, start: 0, length: 0, following: 0 }
    }

    pub fn numbers(&self) -> [u32; 8] {
        let Row { kind, local_id, id, linked, problem, start, length, following } = *self;
        [kind, local_id, id, linked, problem, start, length, following]
    }

    fn at(self, run: &Range<usize>) -> Row {
        Row { start: run.start as u32, length: run.len() as u32, ..self }
    }

    pub fn with_portion(self, portion: Option<&Range<usize>>) -> Row {
        portion.map_or(self, |run| self.at(run))
    }

    pub fn p_abort(local_id: u32, cause: Option<u8>) -> Row {
        let problem = problem_number(cause.map(u32::from));
        Row { problem, ..Row::dialogue(P_ABORT, local_id) }
    }

    pub fn l_cancel(local_id: u32, id: i8) -> Row {
        Row { id: id_number(Some(id)), ..Row::dialogue(L_CANCEL, local_id) }
    }

    /// A sound component as it is.
    pub fn component(local_id: u32, component: &Component) -> Row {
        let problem = problem_number(component.problem.map(|problem| problem.number()));
        let (id, linked) = (id_number(component.id), id_number(component.linked));
        Row { id, linked, problem, ..Row::dialogue(component_kind(component), local_id) }.at(&component.run)
    }

    /// A sound component that was rejected.
    pub fn rejected(local_id: u32, component: &Component, problem: u32, stored: bool) -> Row {
        Row { kind: l_reject(stored), problem, ..Row::component(local_id, component) }
    }

    pub fn faulty(local_id: u32, faulty: &Faulty, stored: bool) -> Row {
        let id = id_number(faulty.id);
        Row { id, problem: faulty.code.into(), ..Row::dialogue(l_reject(stored), local_id) }.at(&faulty.run)
    }
}

fn l_reject(stored: bool) -> u32 {
    if stored {
        L_REJECT_STORED
    } else {
        L_REJECT_NOT_STORED
    }
}

fn component_kind(component: &Component) -> u32 {
    let sender = component.problem.and_then(|problem| problem.sender());
    match component.kind {
        Kind::Invoke => INVOKE,
        Kind::ResultLast => RESULT_L,
        Kind::ResultNotLast => RESULT_NL,
        Kind::Error => U_ERROR,
        Kind::Reject if sender == Some(Sender::User) => U_REJECT,
        Kind::Reject => R_REJECT,
    }
}
