//! Components and messages written: definite, shortest lengths, given octets copied (01, Coding).

use crate::coding::write;
use crate::components::Kind;
use crate::message::TransactionId;
use crate::problems::Problem;

fn id_piece(tag: u8, id: i8) -> [u8; 3] {
    [tag, 1, id as u8]
}

pub fn invoke(id: i8, linked: Option<i8>, operation: &[u8], parameter: &[u8]) -> Vec<u8> {
    let mut pieces = id_piece(0x02, id).to_vec();
    if let Some(linked) = linked {
        pieces.extend(id_piece(0x80, linked));
    }
    pieces.extend(operation);
    pieces.extend(parameter);
    write(Kind::Invoke as u8, &pieces)
}

/// A result; without operation and parameter it lacks the whole 30.
pub fn result(kind: Kind, id: i8, operation: &[u8], parameter: &[u8]) -> Vec<u8> {
    let mut pieces = id_piece(0x02, id).to_vec();
    if !operation.is_empty() {
        pieces.extend(write(0x30, &[operation, parameter].concat()));
    }
    write(kind as u8, &pieces)
}

pub fn error(id: i8, error: &[u8], parameter: &[u8]) -> Vec<u8> {
    write(Kind::Error as u8, &[&id_piece(0x02, id), error, parameter].concat())
}

pub fn reject(id: Option<i8>, problem: Problem) -> Vec<u8> {
    let mut pieces = match id {
        Some(id) => id_piece(0x02, id).to_vec(),
        None => vec![0x05, 0x00],
    };
    pieces.extend([problem.tag(), 1, problem.code]);
    write(Kind::Reject as u8, &pieces)
}

/// The 6C; components that are none have none.
fn component_portion(components: &[u8]) -> Vec<u8> {
    if components.is_empty() {
        Vec::new()
    } else {
        write(0x6C, components)
    }
}

fn originating(local_id: u32) -> Vec<u8> {
    write(0x48, &local_id.to_be_bytes())
}

fn destination(peer: TransactionId) -> Vec<u8> {
    write(0x49, peer.octets())
}

pub fn unidirectional(portion: &[u8], components: &[u8]) -> Vec<u8> {
    write(0x61, &[portion, &component_portion(components)].concat())
}

pub fn begin(local_id: u32, portion: &[u8], components: &[u8]) -> Vec<u8> {
    write(0x62, &[&originating(local_id), portion, &component_portion(components)].concat())
}

pub fn continue_(local_id: u32, peer: TransactionId, portion: &[u8], components: &[u8]) -> Vec<u8> {
    let ids = [originating(local_id), destination(peer)].concat();
    write(0x65, &[&ids, portion, &component_portion(components)].concat())
}

pub fn end(peer: TransactionId, portion: &[u8], components: &[u8]) -> Vec<u8> {
    write(0x64, &[&destination(peer), portion, &component_portion(components)].concat())
}

/// The user's abort, with its dialogue portion or none.
pub fn user_abort(peer: TransactionId, portion: &[u8]) -> Vec<u8> {
    write(0x67, &[&destination(peer), portion].concat())
}

/// The Abort that answers a fault.
pub fn provider_abort(peer: TransactionId, cause: u8) -> Vec<u8> {
    write(0x67, &[destination(peer), write(0x4A, &[cause])].concat())
}
