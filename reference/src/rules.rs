//! The table rules (01, Answer numbers): a table that breaks one is answered 2.

use crate::components;
use crate::dialogue::{Reject, State, MOST_REJECTS, MOST_WAITING};
use crate::problems::{self, Sender};
use crate::shares::{Used, SERVICES};
use crate::table::{is_invocation, is_reject, read_reject, Place, Table, PLACES};

pub fn are_kept(table: &Table) -> bool {
    let mut used: Used = [0; SERVICES];
    for number in 0..PLACES {
        let place = table.place(number);
        let free = place.state_number() == 0;
        let sound = if free { place.is_zero_after_turn() } else { dialogue_is_sound(&place) };
        if !sound || table.map_says_free(number) != free {
            return false;
        }
        if !free {
            used[usize::from(place.service())] += 1;
        }
    }
    shares_are_kept(table, &used)
}

fn shares_are_kept(table: &Table, used: &Used) -> bool {
    let shares = table.shares();
    shares.are_allowed() && shares.nobody_above_limit(used) && table.free_places() >= shares.unused_guarantees(used)
}

fn dialogue_is_sound(place: &Place) -> bool {
    let Some(state) = State::from_number(place.state_number()) else {
        return false;
    };
    usize::from(place.service()) < SERVICES
        && peer_is_sound(place, state)
        && invocations_are_sound(place)
        && rejects_are_sound(place)
        && waiting_is_sound(place)
}

fn is_zero(octets: &[u8]) -> bool {
    octets.iter().fold(0, |all, octet| all | octet) == 0
}

fn peer_is_sound(place: &Place, state: State) -> bool {
    let length = place.peer_length();
    let in_range = if state.has_peer() { (1..=4).contains(&length) } else { length == 0 };
    in_range && is_zero(&place.peer_octets()[length..])
}

fn invocations_are_sound(place: &Place) -> bool {
    let pairs = || place.invocation_pairs();
    let in_use = |pair: &[u8; 2]| pair[1] & 7 != 0;
    let differs = |(number, pair): (usize, [u8; 2])| {
        !in_use(&pair) || pairs().take(number).filter(in_use).all(|earlier| earlier[0] != pair[0])
    };
    pairs().all(|pair| pair == [0, 0] || is_invocation(pair)) && pairs().enumerate().all(differs)
}

fn rejects_are_sound(place: &Place) -> bool {
    let count = place.rejects_count();
    count <= MOST_REJECTS
        && place.reject_pairs().take(count).all(|pair| is_reject(pair) && is_ours(&read_reject(pair)))
        && place.reject_pairs().skip(count).all(|pair| pair == [0, 0])
}

/// Whether the component sub-layer sends it; only a general problem goes without an ID.
fn is_ours(reject: &Reject) -> bool {
    let has_its_id = reject.id.is_some() || reject.problem.kind == problems::GENERAL;
    has_its_id && reject.problem.sender() == Some(Sender::SubLayer)
}

fn waiting_is_sound(place: &Place) -> bool {
    let length = place.waiting_length();
    if length > MOST_WAITING {
        return false;
    }
    let (waiting, unused) = place.waiting_octets().split_at(length);
    is_zero(unused) && components::all_sound(waiting, |_| true)
}
