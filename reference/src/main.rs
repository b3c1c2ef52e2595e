//! An independent TCAP engine, to compare the proved one with.

mod calls;
mod coding;
mod components;
mod cost;
mod dialogue;
mod events;
mod generator;
mod given;
mod invocations;
mod message;
mod pieces;
mod portion;
mod problems;
mod reader;
mod receive;
mod requests;
mod rows;
mod rules;
mod shares;
mod table;
mod vectors;
mod writing;

use std::io::{self, BufRead, Write};
use std::process::ExitCode;
use table::Table;

const USAGE: &str = "usage: reference play < FILE | reference make SEED CALLS | reference cost CASE ROUNDS";

fn main() -> ExitCode {
    let arguments: Vec<String> = std::env::args().skip(1).collect();
    let words: Vec<&str> = arguments.iter().map(String::as_str).collect();
    let done = match words[..] {
        ["play"] => play(),
        ["make", seed, calls] => make(seed, calls),
        ["cost", case, rounds] => cost(case, rounds),
        _ => Err(io::Error::other(USAGE)),
    };
    match done {
        Ok(()) => ExitCode::SUCCESS,
        Err(error) => {
            eprintln!("reference: {error}");
            ExitCode::FAILURE
        }
    }
}

fn make(seed: &str, calls: &str) -> io::Result<()> {
    let (Ok(seed), Ok(calls)) = (seed.parse(), calls.parse()) else {
        return Err(io::Error::other(USAGE));
    };
    generator::make(&mut io::BufWriter::new(io::stdout().lock()), seed, calls)
}

/// Plays a case of cost so many times and prints what its calls gave.
fn cost(case: &str, rounds: &str) -> io::Result<()> {
    let rounds = rounds.parse().map_err(|_| io::Error::other(USAGE))?;
    let unknown = || io::Error::other(format!("no such case; there are {}", cost::CASES));
    let sums = cost::run(case, rounds).ok_or_else(unknown)?;
    println!("{case}: {} calls answered 0, {} rows, {} octets of messages", sums.calls, sums.rows, sums.octets);
    Ok(())
}

/// Prints the comments and calls of standard input again, with what this engine makes of the calls.
fn play() -> io::Result<()> {
    let mut out = io::BufWriter::new(io::stdout().lock());
    let mut table = Table::zeros();
    for (number, line) in io::stdin().lock().lines().enumerate() {
        let line = line?;
        if vectors::is_expectation(&line) {
            continue;
        }
        writeln!(out, "{line}")?;
        if !line.starts_with('#') {
            let bad = || io::Error::other(format!("line {}: no call of the format: {line}", number + 1));
            let call = vectors::parse(&line).ok_or_else(bad)?;
            write!(out, "{}", vectors::expectation(&mut table, &call))?;
        }
    }
    out.flush()
}
