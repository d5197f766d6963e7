//! The library beside the oracle, in one process: the same calls on the same tables, and after each call the number, every result and every
//! number of the table held against each other. Both zeros count as equal, and a NaN equals a NaN. The explanation of each call is asked too: it
//! must find a culprit for the number that was answered, and for none that is tested before it.
//!
//!     compare-host [--seeds N] [--from S]     N seeds of each kind and of the tables of rubbish, from seed S on
//!
//! Stops at the first difference, names its kind and seed, and exits with 1.
#![forbid(unsafe_code)]

mod library;
mod tally;

use std::process::ExitCode;

use library::Lent;
use oracle::math::Steering;
use oracle::program;
use oracle::stream::{Code, Reader};
use oracle::table::Table;
use scenarios::Kind;
use tally::Tally;

/// `broken` is left out: it is about the stream, which this comparison does not read.
const KINDS: [Kind; 7] =
    [Kind::Car, Kind::Edge, Kind::Wild, Kind::Bad, Kind::Roll, Kind::Axle, Kind::Steer];

fn main() -> ExitCode {
    let Some((seeds, from)) = arguments() else {
        eprintln!("usage: compare-host [--seeds N] [--from S]");
        return ExitCode::from(2);
    };
    let kinds: Vec<&str> = runs_of(from).iter().map(|(name, ..)| *name).collect();
    println!("seeds {from} to {} of each kind: {}", from + seeds - 1, kinds.join(", "));
    let mut tally = Tally::default();
    for seed in from..from + seeds {
        for (name, start, codes) in runs_of(seed) {
            let lent = Lent::from(&start);
            if let Err(difference) = run(start, lent, &codes, &mut tally) {
                println!("{name} {seed}: {difference}");
                return ExitCode::FAILURE;
            }
        }
    }
    print!("{tally}");
    let wanted = seeds * kinds.len() as u64;
    if tally.runs != wanted {
        println!("{wanted} runs asked for, {} compared", tally.runs);
        return ExitCode::FAILURE;
    }
    println!(
        "each of {} refusals explained, and no number that is tested before it",
        tally.refused()
    );
    println!("compared {} runs of {} calls, 0 differences", tally.runs, tally.calls());
    ExitCode::SUCCESS
}

fn arguments() -> Option<(u64, u64)> {
    let (mut seeds, mut from) = (200, 1);
    let mut words = std::env::args().skip(1);
    while let Some(word) = words.next() {
        let number = words.next()?.parse().ok()?;
        match word.as_str() {
            "--seeds" => seeds = number,
            "--from" => from = number,
            _ => return None,
        }
    }
    Some((seeds, from)).filter(|(seeds, _)| *seeds > 0)
}

/// The runs of a seed: one of each kind from set-up, and one on a table of rubbish.
fn runs_of(seed: u64) -> Vec<(&'static str, Table, Vec<Code>)> {
    let mut runs: Vec<_> = KINDS
        .map(|kind| (kind.name(), Table::new(), codes_of(&scenarios::generate(kind, seed))))
        .into();
    let rubbish = scenarios::rubbish(seed);
    let codes = rubbish.codes.into_iter().filter(|code| *code != Code::End).collect();
    runs.push(("rubbish", rubbish.table, codes));
    runs
}

/// The codes up to code 0 or the first malformed place.
fn codes_of(stream: &[u8]) -> Vec<Code> {
    let mut reader = Reader::new(stream);
    std::iter::from_fn(|| reader.code().ok().filter(|code| *code != Code::End)).collect()
}

/// Runs the codes on both sides: the oracle's table, and the library's.
fn run(mut table: Table, mut lent: Lent, codes: &[Code], tally: &mut Tally) -> Result<(), String> {
    tally.runs += 1;
    for (place, code) in codes.iter().enumerate() {
        let line = program::call(&mut table, code);
        let before = lent.clone();
        let (number, results) =
            lent.call(code).map_err(|why| format!("call {place}, {}: {why}", name(code)))?;
        let difference = |what: String| Err(format!("call {place}, {}: {what}", name(code)));
        if number != line.answer {
            return difference(format!("the library answers {number}, the oracle {}", line.answer));
        }
        let expected = results_of(code, &line.results, results.len());
        if let Some(at) = first_difference(&results, &expected) {
            return difference(format!(
                "result {at}: the library has {}, the oracle {}",
                results[at], expected[at]
            ));
        }
        let after = Lent::from(&table);
        if lent.whole != after.whole {
            return difference(format!(
                "whole numbers: the library has {:?}, the oracle {:?}",
                lent.whole, after.whole
            ));
        }
        if let Some(at) = first_difference(&lent.table, &after.table) {
            let (ours, theirs) = (lent.table[at], after.table[at]);
            return difference(format!(
                "stored number {at}: the library has {ours}, the oracle {theirs}"
            ));
        }
        before.is_explained(code, number).or_else(difference)?;
        tally.add(code, &line);
    }
    Ok(())
}

/// The oracle's results as the library has them: a yes or no is a float, and an aim gives zeros for the wheels that are not there.
fn results_of(code: &Code, words: &[u32], size: usize) -> Vec<f32> {
    let yes_or_no = match code {
        Code::Drive(_) => 1,
        Code::ReadAll(_) => 2,
        _ => 0,
    };
    let (floats, flags) = words.split_at(words.len().saturating_sub(yes_or_no));
    let floats = floats.iter().map(|word| f32::from_bits(*word));
    let mut results: Vec<f32> = floats.chain(flags.iter().map(|flag| *flag as f32)).collect();
    results.resize(size, 0.0);
    results
}

/// Where two lists differ, both zeros being equal and a NaN equal to a NaN.
fn first_difference(ours: &[f32], theirs: &[f32]) -> Option<usize> {
    (0..ours.len())
        .find(|at| ours[*at] != theirs[*at] && !(ours[*at].is_nan() && theirs[*at].is_nan()))
}

pub fn name(code: &Code) -> &'static str {
    match code {
        Code::End => "end",
        Code::Add(wheel) if wheel.roll_influence.is_some() => "add rolled",
        Code::Add(_) => "add",
        Code::Controls(_, controls) => match controls.steering {
            Steering::Rotation(_) => "controls",
            Steering::Angle(_) => "controls by angle",
        },
        Code::Aim(_) => "aim",
        Code::Drive(_) => "drive",
        Code::Read(_) => "read",
        Code::ReadSettled(_) => "read settled",
        Code::ReadAll(_) => "read all",
    }
}

#[cfg(test)]
mod tests {
    use super::*;

    #[test]
    fn zeros_and_nans_are_equal_and_neighbours_are_not() {
        assert_eq!(first_difference(&[0.0, f32::NAN, 1.0], &[-0.0, -f32::NAN, 1.0]), None);
        assert_eq!(first_difference(&[0.0, 1.0], &[0.0, 1.0 + f32::EPSILON]), Some(1));
        assert_eq!(first_difference(&[f32::NAN], &[0.0]), Some(0));
    }

    #[test]
    fn a_stored_number_that_is_off_is_found() {
        let (_, table, codes) = runs_of(1).remove(0);
        let mut lent = Lent::from(&table);
        let last = lent.table.len() - 1;
        lent.table[last] = f32::from_bits(1);
        let difference = run(table, lent, &codes, &mut Tally::default()).expect_err("a difference");
        assert!(difference.contains(&format!("stored number {last}")), "{difference}");
    }
}
