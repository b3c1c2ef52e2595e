//! The table: 36,400 octets with the map, the shares and 128 places (docs/TABLE.md).

use crate::dialogue::{Dialogue, Reject, State};
use crate::invocations::{self, Invocation, Invocations};
use crate::message::TransactionId;
use crate::problems::Problem;
use crate::shares::{Shares, SERVICES};

pub const PLACES: usize = 128;
pub const SIZE: usize = 36_400;

const MAP: usize = 0;
const GUARANTEES: usize = 16;
const LIMITS: usize = 32;
const FIRST_PLACE: usize = 48;
const PLACE_SIZE: usize = 284;

const TURN: usize = 0;
const STATE: usize = 3;
const SERVICE: usize = 4;
const PEER_LENGTH: usize = 5;
const PEER: usize = 6;
const WAITING_LENGTH: usize = 10;
const REJECTS_COUNT: usize = 11;
const INVOCATIONS: usize = 12;
const REJECTS: usize = 28;
const WAITING: usize = 44;

const TURNS: u32 = 1 << 24;

#[derive(Clone)]
pub struct Table {
    octets: Vec<u8>,
}

impl Table {
    /// A table of zeros: it breaks the rules until fresh was called on it.
    pub fn zeros() -> Table {
        Table { octets: vec![0; SIZE] }
    }

    /// All places free with turn 0.
    pub fn fresh(shares: &Shares) -> Table {
        let mut table = Table::zeros();
        table.octets[MAP..MAP + 16].fill(0xFF);
        table.octets[GUARANTEES..GUARANTEES + SERVICES].copy_from_slice(&shares.guarantees);
        table.octets[LIMITS..LIMITS + SERVICES].copy_from_slice(&shares.limits);
        table
    }

    fn sixteen(&self, start: usize) -> [u8; SERVICES] {
        std::array::from_fn(|service| self.octets[start + service])
    }

    pub fn shares(&self) -> Shares {
        Shares { guarantees: self.sixteen(GUARANTEES), limits: self.sixteen(LIMITS) }
    }

    fn word(&self, number: usize) -> u64 {
        let start = MAP + 8 * number;
        u64::from_le_bytes(std::array::from_fn(|octet| self.octets[start + octet]))
    }

    pub fn lowest_free(&self) -> Option<usize> {
        let words = [self.word(0), self.word(1)];
        let number = words.iter().position(|word| *word != 0)?;
        Some(64 * number + words[number].trailing_zeros() as usize)
    }

    pub fn free_places(&self) -> u32 {
        self.word(0).count_ones() + self.word(1).count_ones()
    }

    pub fn map_says_free(&self, place: usize) -> bool {
        self.octets[MAP + place / 8] >> (place % 8) & 1 == 1
    }

    fn mark(&mut self, place: usize, free: bool) {
        let octet = &mut self.octets[MAP + place / 8];
        let bit = 1 << (place % 8);
        *octet = if free { *octet | bit } else { *octet & !bit };
    }

    pub fn place(&self, place: usize) -> Place<'_> {
        let start = FIRST_PLACE + PLACE_SIZE * place;
        Place { octets: &self.octets[start..start + PLACE_SIZE] }
    }

    fn place_mut(&mut self, place: usize) -> &mut [u8] {
        let start = FIRST_PLACE + PLACE_SIZE * place;
        &mut self.octets[start..start + PLACE_SIZE]
    }

    /// The local ID of a place: the place, then its turn.
    pub fn local_id(&self, place: usize) -> u32 {
        (place as u32) << 24 | self.place(place).turn()
    }

    /// The place and dialogue of a local ID, if it is one of this service.
    pub fn find(&self, local_id: u32, service: u8) -> Option<(usize, Dialogue)> {
        let place = (local_id >> 24) as usize;
        if place >= PLACES || self.local_id(place) != local_id {
            return None;
        }
        let dialogue = self.place(place).dialogue()?;
        (dialogue.service == service).then_some((place, dialogue))
    }

    pub fn store(&mut self, place: usize, dialogue: &Dialogue) {
        self.mark(place, false);
        let octets = self.place_mut(place);
        octets[STATE..].fill(0);
        write_dialogue(octets, dialogue);
    }

    /// Frees a place: its turn goes up by one.
    pub fn free(&mut self, place: usize) {
        let turn = (self.place(place).turn() + 1) % TURNS;
        self.mark(place, true);
        let octets = self.place_mut(place);
        octets[STATE..].fill(0);
        octets[TURN..STATE].copy_from_slice(&turn.to_be_bytes()[1..]);
    }
}

fn write_dialogue(octets: &mut [u8], dialogue: &Dialogue) {
    octets[STATE] = dialogue.state as u8;
    octets[SERVICE] = dialogue.service;
    if let Some(peer) = &dialogue.peer {
        let peer = peer.octets();
        octets[PEER_LENGTH] = peer.len() as u8;
        octets[PEER..PEER + peer.len()].copy_from_slice(peer);
    }
    octets[WAITING_LENGTH] = dialogue.waiting.len() as u8;
    octets[REJECTS_COUNT] = dialogue.rejects.len() as u8;
    for (number, invocation) in dialogue.invocations.places().iter().enumerate() {
        let start = INVOCATIONS + 2 * number;
        octets[start..start + 2].copy_from_slice(&invocation.map_or([0, 0], invocation_octets));
    }
    for (number, reject) in dialogue.rejects.iter().enumerate() {
        let start = REJECTS + 2 * number;
        octets[start..start + 2].copy_from_slice(&reject_octets(reject));
    }
    octets[WAITING..WAITING + dialogue.waiting.len()].copy_from_slice(&dialogue.waiting);
}

fn invocation_octets(invocation: Invocation) -> [u8; 2] {
    let shown = u8::from(invocation.shown) << 6;
    [invocation.id as u8, invocation.state as u8 | invocation.class << 3 | shown]
}

fn reject_octets(reject: &Reject) -> [u8; 2] {
    let without_id = u8::from(reject.id.is_none()) << 7;
    [reject.id.unwrap_or(0) as u8, reject.problem.code | reject.problem.kind << 3 | without_id]
}

/// The octets of one place, read.
pub struct Place<'a> {
    octets: &'a [u8],
}

impl<'a> Place<'a> {
    fn turn(&self) -> u32 {
        u32::from_be_bytes([0, self.octets[TURN], self.octets[TURN + 1], self.octets[TURN + 2]])
    }

    pub fn is_zero_after_turn(&self) -> bool {
        self.octets[STATE..].iter().fold(0, |all, octet| all | octet) == 0
    }

    pub fn state_number(&self) -> u8 {
        self.octets[STATE]
    }

    pub fn service(&self) -> u8 {
        self.octets[SERVICE]
    }

    pub fn peer_length(&self) -> usize {
        self.octets[PEER_LENGTH].into()
    }

    pub fn peer_octets(&self) -> &'a [u8] {
        &self.octets[PEER..PEER + 4]
    }

    pub fn waiting_length(&self) -> usize {
        self.octets[WAITING_LENGTH].into()
    }

    pub fn waiting_octets(&self) -> &'a [u8] {
        &self.octets[WAITING..]
    }

    pub fn rejects_count(&self) -> usize {
        self.octets[REJECTS_COUNT].into()
    }

    pub fn invocation_pairs(&self) -> impl Iterator<Item = [u8; 2]> + 'a {
        self.octets[INVOCATIONS..REJECTS].chunks_exact(2).map(|pair| [pair[0], pair[1]])
    }

    pub fn reject_pairs(&self) -> impl Iterator<Item = [u8; 2]> + 'a {
        self.octets[REJECTS..WAITING].chunks_exact(2).map(|pair| [pair[0], pair[1]])
    }

    /// The dialogue in a place of a table that keeps the rules; none in a free one.
    pub fn dialogue(&self) -> Option<Dialogue> {
        let mut pairs = self.invocation_pairs();
        let places = std::array::from_fn(|_| pairs.next().and_then(read_invocation));
        Some(Dialogue {
            state: State::from_number(self.state_number())?,
            service: self.service(),
            peer: TransactionId::new(&self.peer_octets()[..self.peer_length()]),
            invocations: Invocations::from_places(places),
            rejects: self.reject_pairs().take(self.rejects_count()).map(read_reject).collect(),
            waiting: self.waiting_octets()[..self.waiting_length()].to_vec(),
        })
    }
}

/// An invocation from its two octets; none where its state is not one of the four.
pub fn read_invocation([id, packed]: [u8; 2]) -> Option<Invocation> {
    let state = invocations::State::from_number(packed & 7)?;
    Some(Invocation { id: id as i8, state, class: packed >> 3 & 7, shown: packed >> 6 & 1 == 1 })
}

pub fn read_reject([id, packed]: [u8; 2]) -> Reject {
    let problem = Problem { kind: packed >> 3 & 3, code: packed & 7 };
    Reject { id: (packed < 128).then_some(id as i8), problem }
}

/// Whether the two octets of an invocation in use are in range.
pub fn is_invocation([_, packed]: [u8; 2]) -> bool {
    let class = packed >> 3 & 7;
    (1..=4).contains(&(packed & 7)) && (1..=4).contains(&class) && packed < 128
}

/// Whether the two octets of a reject in use have no stray bit, and an ID of 0 where there is none.
pub fn is_reject([id, packed]: [u8; 2]) -> bool {
    packed & 0x60 == 0 && (packed < 128 || id == 0)
}
