//! The invocations of a dialogue and their states (01, Invocation states).

use crate::components::Kind;
use crate::problems::{self, Problem};

pub const MOST: usize = 8;

/// Idle is no state here: an invocation that is Idle is not kept.
#[derive(Clone, Copy, PartialEq, Debug)]
pub enum State {
    Pending = 1,
    Sent = 2,
    Wait = 3,
    Rejecting = 4,
}

#[derive(Clone, Copy)]
pub struct Invocation {
    pub id: i8,
    pub state: State,
    pub class: u8,
    /// A result not last was shown.
    pub shown: bool,
}

#[derive(Clone, Default)]
pub struct Invocations {
    places: [Option<Invocation>; MOST],
}

impl State {
    pub fn from_number(number: u8) -> Option<State> {
        use State::*;
        [Pending, Sent, Wait, Rejecting].into_iter().find(|state| *state as u8 == number)
    }
}

impl Invocation {
    /// The state to which a component takes one that is Sent; none where its class forbids the component.
    fn answered(&self, kind: Kind) -> Option<State> {
        match (self.class, kind) {
            (1 | 3, Kind::ResultNotLast) => Some(State::Sent),
            (1 | 3, Kind::ResultLast) => Some(State::Wait),
            (1 | 2, Kind::Error) => Some(State::Wait),
            _ => None,
        }
    }

    /// Whether the user may reject with a problem of this kind.
    fn may_be_rejected(&self, kind: u8) -> bool {
        let by_result_not_last = kind == problems::RESULT && self.state == State::Sent && self.shown;
        self.state == State::Wait || by_result_not_last
    }
}

impl Invocations {
    pub fn from_places(places: [Option<Invocation>; MOST]) -> Invocations {
        Invocations { places }
    }

    pub fn places(&self) -> &[Option<Invocation>; MOST] {
        &self.places
    }

    pub fn find(&self, id: i8) -> Option<&Invocation> {
        self.places.iter().flatten().find(|invocation| invocation.id == id)
    }

    fn find_mut(&mut self, id: i8) -> Option<&mut Invocation> {
        self.places.iter_mut().flatten().find(|invocation| invocation.id == id)
    }

    pub fn is_in(&self, id: i8, state: State) -> bool {
        self.find(id).is_some_and(|invocation| invocation.state == state)
    }

    pub fn is_full(&self) -> bool {
        self.places.iter().all(Option::is_some)
    }

    /// A new one, Pending; where all are open it is not kept.
    pub fn pass(&mut self, id: i8, class: u8) {
        if let Some(place) = self.places.iter_mut().find(|place| place.is_none()) {
            *place = Some(Invocation { id, state: State::Pending, class, shown: false });
        }
    }

    /// To Idle.
    pub fn release(&mut self, id: i8) {
        for place in &mut self.places {
            if place.is_some_and(|invocation| invocation.id == id) {
                *place = None;
            }
        }
    }

    pub fn release_if_sent(&mut self, id: i8) {
        if self.is_in(id, State::Sent) {
            self.release(id);
        }
    }

    /// Whether the user may reject with this problem; a reject of an invoke needs no state.
    pub fn may_be_rejected(&self, id: i8, problem: Problem) -> bool {
        problem.kind == problems::INVOKE || self.find(id).is_some_and(|found| found.may_be_rejected(problem.kind))
    }

    /// The user rejected: a result or error makes the invocation Rejecting.
    pub fn reject(&mut self, id: i8, problem: Problem) {
        if problem.kind == problems::INVOKE {
            return;
        }
        if let Some(invocation) = self.find_mut(id) {
            invocation.state = State::Rejecting;
        }
    }

    /// What is passed was transmitted: Pending to Sent, Rejecting to Idle.
    pub fn transmit(&mut self) {
        for place in &mut self.places {
            match place {
                Some(invocation) if invocation.state == State::Pending => invocation.state = State::Sent,
                Some(invocation) if invocation.state == State::Rejecting => *place = None,
                _ => {}
            }
        }
    }

    /// A received result or error: the problem with which it is rejected, if it is.
    pub fn answer(&mut self, id: i8, kind: Kind) -> Result<(), Problem> {
        let problem_kind = if kind == Kind::Error { problems::ERROR } else { problems::RESULT };
        let Some(invocation) = self.find_mut(id).filter(|found| found.state == State::Sent) else {
            return Err(Problem { kind: problem_kind, code: 0 });
        };
        let Some(state) = invocation.answered(kind) else {
            self.release(id);
            return Err(Problem { kind: problem_kind, code: 1 });
        };
        invocation.state = state;
        invocation.shown |= kind == Kind::ResultNotLast;
        Ok(())
    }
}
