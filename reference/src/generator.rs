//! Seeded sequences of calls with what this engine makes of them.

mod asked;
mod floods;
mod giving;
mod limits;
mod octets;
mod pdus;
mod portions;
mod random;
mod recorder;
mod samples;
mod states;
mod traffic;
mod tree;

use random::Random;
use recorder::Recorder;
use std::io::{self, Write};

/// Writes exactly so many calls, in sequences that each begin with a comment and a fresh table.
pub fn make(out: &mut impl Write, seed: u64, calls: usize) -> io::Result<()> {
    let mut random = Random::new(seed);
    let mut left = calls;
    let mut number = 0;
    while left > 0 {
        let (name, recorders) = sequences(&mut random);
        for recorder in recorders.iter().filter(|recorder| !recorder.calls.is_empty()) {
            if left > 0 {
                writeln!(out, "# sequence {number} seed {seed} {name}")?;
                number += 1;
            }
            for call in recorder.calls.iter().take(left) {
                out.write_all(call.as_bytes())?;
            }
            left = left.saturating_sub(recorder.calls.len());
        }
    }
    out.flush()
}

fn sequences(random: &mut Random) -> (&'static str, Vec<Recorder>) {
    match random.weighted(&[5, 3, 1, 3, 3, 4, 5]) {
        0 => ("mixed", traffic::sequences(random, 1)),
        1 => ("peers", traffic::sequences(random, 2)),
        2 => ("shares", floods::sequences(random)),
        3 => ("limits", limits::sequences(random)),
        4 => ("states", states::sequences(random)),
        5 => ("octets", octets::sequences(random)),
        _ => ("portion", portions::sequences(random)),
    }
}
