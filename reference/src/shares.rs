//! Guarantees and limits of the services (01, demand 3).

use crate::table::{Table, PLACES};

pub const SERVICES: usize = 16;

pub struct Shares {
    pub guarantees: [u8; SERVICES],
    pub limits: [u8; SERVICES],
}

/// How many places each service has.
pub type Used = [u32; SERVICES];

impl Shares {
    /// Whether a fresh table may have them.
    pub fn are_allowed(&self) -> bool {
        let sum: usize = self.guarantees.iter().map(|guarantee| usize::from(*guarantee)).sum();
        let within = |(guarantee, limit): (&u8, &u8)| guarantee <= limit && usize::from(*limit) <= PLACES;
        sum <= PLACES && self.guarantees.iter().zip(&self.limits).all(within)
    }

    fn unused_guarantee(&self, service: usize, used: &Used) -> u32 {
        u32::from(self.guarantees[service]).saturating_sub(used[service])
    }

    pub fn unused_guarantees(&self, used: &Used) -> u32 {
        (0..SERVICES).map(|service| self.unused_guarantee(service, used)).sum()
    }

    pub fn nobody_above_limit(&self, used: &Used) -> bool {
        used.iter().zip(&self.limits).all(|(used, limit)| *used <= u32::from(*limit))
    }

    /// Whether a service gets a place. One below its guarantee always does; it never eats into the others'.
    fn grants(&self, service: usize, used: &Used, free: u32) -> bool {
        if used[service] < u32::from(self.guarantees[service]) {
            return true;
        }
        let others_unused = self.unused_guarantees(used);
        used[service] < u32::from(self.limits[service]) && free > others_unused
    }
}

pub fn used(table: &Table) -> Used {
    let mut used = [0; SERVICES];
    for place in (0..PLACES).map(|place| table.place(place)) {
        if place.state_number() != 0 {
            used[usize::from(place.service())] += 1;
        }
    }
    used
}

/// The place that a service gets, if it gets one: the lowest free.
pub fn place_for(table: &Table, service: u8) -> Option<usize> {
    let granted = table.shares().grants(service.into(), &used(table), table.free_places());
    if granted {
        table.lowest_free()
    } else {
        None
    }
}
