//! A received message acts on the table (01, A received message and Invocation states).

use crate::calls::Reply;
use crate::components::{self, Component, Faulty, Kind};
use crate::dialogue::{Dialogue, State};
use crate::invocations;
use crate::message::{self, Fault, Message, Reading, TransactionId};
use crate::problems::{self, Problem};
use crate::rows::{self, Row};
use crate::shares;
use crate::table::Table;
use crate::writing;

const NOT_ASSIGNED: u8 = 1;
const WRONG_IN_STATE: u8 = 3;
const NO_PLACE: u8 = 4;

pub fn receive(table: &mut Table, service: u8, octets: &[u8]) -> Reply {
    let message = match message::read(octets) {
        Reading::Dropped => return Reply::default(),
        Reading::Faulty(fault) => return answer_fault(table, service, &fault),
        Reading::Sound(message) => message,
    };
    match message.kind {
        message::Kind::Unidirectional => unidirectional(service, octets, &message),
        message::Kind::Begin => begin(table, service, octets, &message),
        message::Kind::Continue => continue_(table, service, octets, &message),
        message::Kind::End => end(table, service, octets, &message),
        message::Kind::Abort => abort(table, service, &message),
    }
}

/// The dialogue to which a destination ID is assigned.
fn assigned(table: &Table, service: u8, destination: Option<TransactionId>) -> Option<(usize, Dialogue)> {
    let (place, dialogue) = table.find(destination?.local_id()?, service)?;
    (dialogue.state != State::Open).then_some((place, dialogue))
}

/// An Abort to the originating ID, and an assigned destination's place freed; without that ID nothing.
fn answer_fault(table: &mut Table, service: u8, fault: &Fault) -> Reply {
    let Some(originating) = fault.originating else {
        return Reply::default();
    };
    let mut reply = Reply { message: writing::provider_abort(originating, fault.cause), ..Reply::default() };
    if let Some((place, _)) = assigned(table, service, fault.destination) {
        reply.rows.push(Row::p_abort(table.local_id(place), Some(fault.cause)));
        table.free(place);
    }
    reply
}

fn at_fault(table: &mut Table, service: u8, message: &Message, cause: u8) -> Reply {
    let fault = Fault { cause, originating: message.originating, destination: message.destination };
    answer_fault(table, service, &fault)
}

fn unidirectional(service: u8, octets: &[u8], message: &Message) -> Reply {
    let mut nobody = Dialogue::new(State::Received, service, None);
    show(Row::dialogue(rows::UNI, 0), octets, message, &mut nobody)
}

fn begin(table: &mut Table, service: u8, octets: &[u8], message: &Message) -> Reply {
    let Some(place) = shares::place_for(table, service) else {
        return at_fault(table, service, message, NO_PLACE);
    };
    let mut dialogue = Dialogue::new(State::Received, service, message.originating);
    let row = Row::dialogue(rows::BEGIN, table.local_id(place));
    let reply = show(row, octets, message, &mut dialogue);
    table.store(place, &dialogue);
    reply
}

fn continue_(table: &mut Table, service: u8, octets: &[u8], message: &Message) -> Reply {
    let Some((place, mut dialogue)) = assigned(table, service, message.destination) else {
        return at_fault(table, service, message, NOT_ASSIGNED);
    };
    if dialogue.state == State::Received {
        return at_fault(table, service, message, WRONG_IN_STATE);
    }
    if dialogue.state == State::Sent {
        dialogue.state = State::Active;
        dialogue.peer = message.originating;
    }
    let row = Row::dialogue(rows::CONTINUE, table.local_id(place));
    let reply = show(row, octets, message, &mut dialogue);
    table.store(place, &dialogue);
    reply
}

/// The dialogue that an End or Abort ends; one in Received is not ended.
fn ended(table: &Table, service: u8, message: &Message) -> Option<(usize, Dialogue)> {
    assigned(table, service, message.destination).filter(|(_, dialogue)| dialogue.state != State::Received)
}

fn end(table: &mut Table, service: u8, octets: &[u8], message: &Message) -> Reply {
    let Some((place, mut dialogue)) = ended(table, service, message) else {
        return Reply::default();
    };
    let row = Row::dialogue(rows::END, table.local_id(place));
    table.free(place);
    show(row, octets, message, &mut dialogue)
}

fn abort(table: &mut Table, service: u8, message: &Message) -> Reply {
    let Some((place, _)) = ended(table, service, message) else {
        return Reply::default();
    };
    let local_id = table.local_id(place);
    let row = match message.cause {
        Some(cause) => Row::p_abort(local_id, Some(cause)),
        None => Row::dialogue(rows::U_ABORT, local_id).with_portion(message.portion.as_ref()),
    };
    table.free(place);
    Reply { rows: vec![row], ..Reply::default() }
}

/// The dialogue's row and the rows of the components, each of which acts on the dialogue.
fn show(row: Row, octets: &[u8], message: &Message, dialogue: &mut Dialogue) -> Reply {
    let readings = message.components.as_ref().map_or(Vec::new(), |run| components::read_all(octets, run));
    let mut act = Act { dialogue, local_id: row.local_id, stores: stores_rejects(message.kind) };
    let component_rows: Vec<Row> = readings.iter().map(|reading| act.on(reading)).collect();
    let row = Row { following: component_rows.len() as u32, ..row.with_portion(message.portion.as_ref()) };
    let mut rows = vec![row];
    rows.extend(component_rows);
    Reply { rows, ..Reply::default() }
}

fn stores_rejects(kind: message::Kind) -> bool {
    matches!(kind, message::Kind::Begin | message::Kind::Continue)
}

/// What a received component does to its dialogue.
struct Act<'a> {
    dialogue: &'a mut Dialogue,
    local_id: u32,
    stores: bool,
}

impl Act<'_> {
    fn on(&mut self, reading: &Result<Component, Faulty>) -> Row {
        match reading {
            Ok(component) => match self.sound(component) {
                Ok(()) => Row::component(self.local_id, component),
                Err(problem) => self.reject(component, problem),
            },
            Err(faulty) => self.faulty(faulty),
        }
    }

    fn store(&mut self, id: Option<i8>, problem: Problem) -> bool {
        self.stores && self.dialogue.store_reject(id, problem)
    }

    fn reject(&mut self, component: &Component, problem: Problem) -> Row {
        let stored = self.store(component.id, problem);
        Row::rejected(self.local_id, component, problem.number(), stored)
    }

    /// A sound component: the problem with which it is rejected, if it is.
    fn sound(&mut self, component: &Component) -> Result<(), Problem> {
        let invocations = &mut self.dialogue.invocations;
        match (component.kind, component.id) {
            (Kind::Invoke, _) => match component.linked {
                Some(linked) if !invocations.is_in(linked, invocations::State::Sent) => Err(problems::LINKED_UNKNOWN),
                _ => Ok(()),
            },
            (Kind::Reject, Some(id)) => {
                let of_invoke = |problem: Problem| matches!(problem.kind, problems::GENERAL | problems::INVOKE);
                if component.problem.is_some_and(of_invoke) {
                    invocations.release_if_sent(id);
                }
                Ok(())
            }
            (kind, Some(id)) => invocations.answer(id, kind),
            (_, None) => Ok(()),
        }
    }

    /// A syntax fault. A faulty reject is a local notice, never stored.
    fn faulty(&mut self, faulty: &Faulty) -> Row {
        let releases = match faulty.kind {
            Some(Kind::ResultLast | Kind::ResultNotLast | Kind::Error) => true,
            Some(Kind::Reject) => faulty.names_invoke_problem,
            Some(Kind::Invoke) | None => false,
        };
        if let Some(id) = faulty.id.filter(|_| releases) {
            self.dialogue.invocations.release_if_sent(id);
        }
        let problem = Problem { kind: problems::GENERAL, code: faulty.code };
        let stored = faulty.kind != Some(Kind::Reject) && self.store(faulty.id, problem);
        Row::faulty(self.local_id, faulty, stored)
    }
}
