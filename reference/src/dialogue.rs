//! A dialogue: its state, its invocations, and what waits to be sent (01, Dialogue states).

use crate::components;
use crate::invocations::Invocations;
use crate::message::TransactionId;
use crate::problems::Problem;
use crate::writing;

pub const MOST_WAITING: usize = 240;
pub const MOST_REJECTS: usize = 8;

#[derive(Clone, Copy, PartialEq, Debug)]
pub enum State {
    Open = 1,
    Sent = 2,
    Received = 3,
    Active = 4,
}

/// A waiting reject of the component sub-layer.
#[derive(Clone, Copy)]
pub struct Reject {
    pub id: Option<i8>,
    pub problem: Problem,
}

#[derive(Clone)]
pub struct Dialogue {
    pub state: State,
    pub service: u8,
    pub peer: Option<TransactionId>,
    pub invocations: Invocations,
    pub rejects: Vec<Reject>,
    pub waiting: Vec<u8>,
}

impl State {
    pub fn from_number(number: u8) -> Option<State> {
        use State::*;
        [Open, Sent, Received, Active].into_iter().find(|state| *state as u8 == number)
    }

    pub fn has_peer(self) -> bool {
        matches!(self, State::Received | State::Active)
    }
}

impl Dialogue {
    pub fn new(state: State, service: u8, peer: Option<TransactionId>) -> Dialogue {
        let invocations = Invocations::default();
        Dialogue { state, service, peer, invocations, rejects: Vec::new(), waiting: Vec::new() }
    }

    /// Whether a component of this length still fits; waiting rejects do not count.
    pub fn has_room(&self, component: &[u8]) -> bool {
        self.waiting.len() + component.len() <= MOST_WAITING
    }

    /// Keeps a reject, unless eight wait already; says whether it did.
    pub fn store_reject(&mut self, id: Option<i8>, problem: Problem) -> bool {
        let stored = self.rejects.len() < MOST_REJECTS;
        if stored {
            self.rejects.push(Reject { id, problem });
        }
        stored
    }

    /// Whether a portion of this length may go with the components that wait.
    pub fn may_send_with(&self, portion: &[u8]) -> bool {
        self.waiting.len() + portion.len() <= MOST_WAITING
    }

    /// The components that a sending writes: those that wait, then the rejects if all fit beside the portion.
    pub fn send(&mut self, portion: &[u8]) -> Vec<u8> {
        let mut components = std::mem::take(&mut self.waiting);
        let rejects: Vec<u8> =
            self.rejects.iter().flat_map(|reject| writing::reject(reject.id, reject.problem)).collect();
        if portion.len() + components.len() + rejects.len() <= MOST_WAITING {
            components.extend(rejects);
            self.rejects.clear();
        }
        self.invocations.transmit();
        components
    }

    /// Whether components wait and all are invokes of class 4, as Unidirectional needs.
    pub fn suits_unidirectional(&self) -> bool {
        let class_4 = |id| self.invocations.find(id).is_some_and(|invocation| invocation.class == 4);
        let suits = |component: &components::Component| {
            component.kind == components::Kind::Invoke && component.id.is_some_and(class_4)
        };
        !self.waiting.is_empty() && components::all_sound(&self.waiting, suits)
    }
}
