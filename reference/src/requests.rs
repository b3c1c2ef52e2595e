//! Requests of the user (01, Dialogue states and Invocation states; 02 a). Each judges its refusals in rising order.

use crate::calls::{refuse_unless, Reply, Request};
use crate::calls::{BAD_CLASS_OR_PROBLEM, BAD_ELEMENT, FULL, MISPLACED_PORTION, NO_DIALOGUE, NO_PLACE, TOO_LONG};
use crate::calls::{WRONG_ID, WRONG_STATE};
use crate::coding;
use crate::components::{self, Kind};
use crate::dialogue::{Dialogue, State, MOST_WAITING};
use crate::given::{self, Given, Pdu};
use crate::problems::{Problem, Sender};
use crate::shares;
use crate::table::Table;
use crate::writing;

/// The refusal that a request gets, or its reply.
pub type Answer = Result<Reply, u8>;

pub fn open(table: &mut Table, service: u8) -> Answer {
    let place = shares::place_for(table, service).ok_or(NO_PLACE)?;
    table.store(place, &Dialogue::new(State::Open, service, None));
    Ok(Reply { dialogue: Some(table.local_id(place)), ..Reply::default() })
}

/// A request on a dialogue of this service.
pub fn on_dialogue(table: &mut Table, service: u8, local_id: u32, request: &Request) -> Answer {
    let (place, dialogue) = table.find(local_id, service).ok_or(NO_DIALOGUE)?;
    let held = Held { table, place, local_id, dialogue };
    match request {
        Request::Invoke { id, linked, class, operation, parameter } => {
            held.invoke(*id, *linked, *class, operation, parameter)
        }
        Request::Result { id, last, operation, parameter } => held.result(*id, *last, operation, parameter),
        Request::Error { id, error, parameter } => held.error(*id, error, parameter),
        Request::Reject { id, problem } => held.reject(*id, *problem),
        Request::Begin(given) => held.begin(given),
        Request::Continue(given) => held.continue_(given),
        Request::End(given) => held.end(given),
        Request::Prearranged => Ok(held.freed(Vec::new())),
        Request::Unidirectional(given) => held.unidirectional(given),
        Request::Abort { portion } => held.abort(portion),
        Request::Cancel { id } => held.cancel(*id),
        Request::Timeout { id } => held.timeout(*id),
        Request::RejectTimeout { id } => held.reject_timeout(*id),
        Request::NoReaction => held.no_reaction(),
    }
}

/// A dialogue taken out of the table, and where it goes back to.
pub struct Held<'a> {
    pub table: &'a mut Table,
    pub place: usize,
    pub local_id: u32,
    pub dialogue: Dialogue,
}

impl Held<'_> {
    pub fn kept(self, message: Vec<u8>) -> Reply {
        self.table.store(self.place, &self.dialogue);
        Reply { message, ..Reply::default() }
    }

    pub fn freed(self, message: Vec<u8>) -> Reply {
        self.table.free(self.place);
        Reply { message, ..Reply::default() }
    }

    /// Only invokes may be passed in Open.
    fn takes_answers(&self) -> Result<(), u8> {
        refuse_unless(self.dialogue.state != State::Open, WRONG_STATE)
    }

    /// A component waits from now on, if it fits.
    fn pass(&mut self, component: &[u8]) -> Result<(), u8> {
        refuse_unless(self.dialogue.has_room(component), TOO_LONG)?;
        self.dialogue.waiting.extend(component);
        Ok(())
    }

    fn invoke(mut self, id: i8, linked: Option<i8>, class: u32, operation: &[u8], parameter: &[u8]) -> Answer {
        let invocations = &self.dialogue.invocations;
        refuse_unless((1..=4).contains(&class), BAD_CLASS_OR_PROBLEM)?;
        refuse_unless(invocations.find(id).is_none(), WRONG_ID)?;
        refuse_unless(!invocations.is_full(), FULL)?;
        refuse_unless(components::is_code(operation) && is_parameter(parameter, 2), BAD_ELEMENT)?;
        self.pass(&writing::invoke(id, linked, operation, parameter))?;
        self.dialogue.invocations.pass(id, class as u8);
        Ok(self.kept(Vec::new()))
    }

    fn result(mut self, id: i8, last: bool, operation: &[u8], parameter: &[u8]) -> Answer {
        self.takes_answers()?;
        let neither = operation.is_empty() && parameter.is_empty();
        let both = components::is_code(operation) && coding::is_element(parameter, 3);
        refuse_unless(neither || both, BAD_ELEMENT)?;
        let kind = if last { Kind::ResultLast } else { Kind::ResultNotLast };
        self.pass(&writing::result(kind, id, operation, parameter))?;
        Ok(self.kept(Vec::new()))
    }

    fn error(mut self, id: i8, error: &[u8], parameter: &[u8]) -> Answer {
        self.takes_answers()?;
        refuse_unless(components::is_code(error) && is_parameter(parameter, 2), BAD_ELEMENT)?;
        self.pass(&writing::error(id, error, parameter))?;
        Ok(self.kept(Vec::new()))
    }

    fn reject(mut self, id: i8, problem: u32) -> Answer {
        self.takes_answers()?;
        let of_user = |problem: &Problem| problem.sender() == Some(Sender::User);
        let problem = Problem::from_number(problem).filter(of_user).ok_or(BAD_CLASS_OR_PROBLEM)?;
        refuse_unless(self.dialogue.invocations.may_be_rejected(id, problem), WRONG_ID)?;
        self.pass(&writing::reject(Some(id), problem))?;
        self.dialogue.invocations.reject(id, problem);
        Ok(self.kept(Vec::new()))
    }

    /// The portion that goes with a sending; no octets for none.
    fn portion(&self, pdu: Pdu, given: &Given) -> Result<Vec<u8>, u8> {
        refuse_unless(given.is_sound(), BAD_ELEMENT)?;
        let portion = given.portion(pdu);
        refuse_unless(self.dialogue.may_send_with(&portion), TOO_LONG)?;
        refuse_unless(given.suits(self.dialogue.state), MISPLACED_PORTION)?;
        Ok(portion)
    }

    fn begin(mut self, given: &Given) -> Answer {
        refuse_unless(self.dialogue.state == State::Open, WRONG_STATE)?;
        let portion = self.portion(Pdu::Request, given)?;
        let message = writing::begin(self.local_id, &portion, &self.dialogue.send(&portion));
        self.dialogue.state = State::Sent;
        Ok(self.kept(message))
    }

    fn continue_(mut self, given: &Given) -> Answer {
        let peer = self.dialogue.peer.ok_or(WRONG_STATE)?;
        let portion = self.portion(Pdu::Response, given)?;
        let message = writing::continue_(self.local_id, peer, &portion, &self.dialogue.send(&portion));
        self.dialogue.state = State::Active;
        Ok(self.kept(message))
    }

    fn end(mut self, given: &Given) -> Answer {
        let peer = self.dialogue.peer.ok_or(WRONG_STATE)?;
        let portion = self.portion(Pdu::Response, given)?;
        let message = writing::end(peer, &portion, &self.dialogue.send(&portion));
        Ok(self.freed(message))
    }

    fn unidirectional(mut self, given: &Given) -> Answer {
        let is_open = self.dialogue.state == State::Open;
        refuse_unless(is_open && self.dialogue.suits_unidirectional(), WRONG_STATE)?;
        let portion = self.portion(Pdu::Unidirectional, given)?;
        let message = writing::unidirectional(&portion, &self.dialogue.send(&portion));
        Ok(self.freed(message))
    }

    /// The user's abort writes a message only where a peer's ID is known.
    fn abort(self, octets: &[u8]) -> Answer {
        let portion = given::abort_portion(octets).ok_or(BAD_ELEMENT)?;
        refuse_unless(portion.len() <= MOST_WAITING, TOO_LONG)?;
        let message = self.dialogue.peer.map_or(Vec::new(), |peer| writing::user_abort(peer, &portion));
        Ok(self.freed(message))
    }
}

/// Whether octets are a parameter, or none.
fn is_parameter(octets: &[u8], depth: usize) -> bool {
    octets.is_empty() || coding::is_element(octets, depth)
}
