//! `compare --runner PATH --seeds N [--from S] [--kind K] [--jobs J]`: runs the program at PATH
//! and the oracle on N seeds of each kind and stops at the first difference.
//! `compare --runner PATH --cuts FILE [--jobs J]`: the same on every beginning of a stream.
#![forbid(unsafe_code)]

use std::path::PathBuf;
use std::process::ExitCode;
use std::sync::atomic::{AtomicU64, Ordering};
use std::sync::Mutex;

use compare::{all_of, first_difference, guarded, Difference, Name, Runner, Streams, Tally, CUT};
use scenarios::Kind;
use vehicle::program;

const USAGE: &str = "usage: compare --runner PATH --seeds N [--from S] [--kind K] [--jobs J]
       compare --runner PATH --cuts FILE [--jobs J]";

struct Wanted {
    runner: PathBuf,
    streams: Streams,
    jobs: usize,
}

/// A scenario that the program and the oracle answer differently.
struct Found {
    place: u64,
    name: Name,
    /// The lines that differ, or why there are none.
    what: Result<Difference, String>,
}

fn main() -> ExitCode {
    let Some(wanted) = wanted(std::env::args().skip(1)) else {
        eprintln!("{USAGE}");
        return ExitCode::from(2);
    };
    announce(&wanted.streams);
    let (tally, found) = match compare_all(&wanted) {
        Ok(done) => done,
        Err(why) => {
            println!("{why}");
            return ExitCode::from(1);
        }
    };
    print!("{tally}");
    if let Some(found) = found {
        report(&found);
        println!("compared {} scenarios, 1 difference", tally.scenarios());
        return ExitCode::from(1);
    }
    if let Some(short) = shortfall(&wanted.streams, &tally) {
        println!("{short}");
        return ExitCode::from(1);
    }
    println!("compared {} scenarios, 0 differences", tally.scenarios());
    ExitCode::SUCCESS
}

fn wanted(mut arguments: impl Iterator<Item = String>) -> Option<Wanted> {
    let mut runner = None;
    let mut seeds = None;
    let mut cuts = None;
    let mut from = 0;
    let mut kinds = Kind::ALL.to_vec();
    let mut jobs = 2;
    while let Some(name) = arguments.next() {
        let value = arguments.next()?;
        match name.as_str() {
            "--runner" => runner = Some(PathBuf::from(value)),
            "--seeds" => seeds = Some(value.parse().ok().filter(|seeds| *seeds > 0)?),
            "--cuts" => cuts = Some(std::fs::read(value).ok()?),
            "--from" => from = value.parse().ok()?,
            "--kind" => kinds = vec![Kind::named(&value)?],
            "--jobs" => jobs = value.parse().ok()?,
            _ => return None,
        }
    }
    let streams = match (seeds, cuts) {
        (Some(seeds), None) => Streams::Seeds { from, seeds, kinds },
        (None, Some(stream)) => Streams::Cuts(stream),
        _ => return None,
    };
    Some(Wanted { runner: runner?, streams, jobs })
}

fn announce(streams: &Streams) {
    match streams {
        Streams::Seeds { from, seeds, kinds } => {
            let names: Vec<&str> = kinds.iter().map(|kind| kind.name()).collect();
            let last = from.wrapping_add(seeds - 1);
            println!("seeds {from} to {last} of each kind: {}", names.join(", "));
        }
        Streams::Cuts(stream) => println!("a stream's first 0 to {} bytes", stream.len()),
    }
}

/// Compares scenario by scenario and gives the first in their order that differs, however the
/// workers share them. An error if a worker stops.
fn compare_all(wanted: &Wanted) -> Result<(Tally, Option<Found>), String> {
    let next = AtomicU64::new(0);
    let end = AtomicU64::new(wanted.streams.count());
    let first: Mutex<Option<Found>> = Mutex::new(None);
    let work = |_| {
        let runner = Runner::new(&wanted.runner);
        let mut tally = Tally::default();
        loop {
            let place = next.fetch_add(1, Ordering::Relaxed);
            if place >= end.load(Ordering::Relaxed) {
                return tally;
            }
            let name = wanted.streams.name(place);
            let compared =
                guarded(|| compare_one(&runner, name, &wanted.streams.bytes(place), &mut tally));
            if let Err(what) = compared.unwrap_or_else(|why| Err(Err(format!("panicked: {why}")))) {
                end.fetch_min(place, Ordering::Relaxed);
                let mut first = first.lock().unwrap_or_else(|poisoned| poisoned.into_inner());
                if first.as_ref().is_none_or(|found| place < found.place) {
                    *first = Some(Found { place, name, what });
                }
            }
        }
    };
    let tallies = all_of(wanted.jobs.max(1), work)?;
    let tally = tallies.into_iter().fold(Tally::default(), Tally::and);
    Ok((tally, first.into_inner().unwrap_or_else(|poisoned| poisoned.into_inner())))
}

fn compare_one(
    runner: &Runner,
    name: Name,
    stream: &[u8],
    tally: &mut Tally,
) -> Result<(), Result<Difference, String>> {
    let lines = program::run(stream);
    let printed = runner.run(stream).map_err(Err)?;
    tally.add(name.group, &lines);
    match first_difference(&program::text(&lines), &printed) {
        None => Ok(()),
        Some(difference) => Err(Ok(difference)),
    }
}

/// Says which scenarios were asked for and not compared.
fn shortfall(streams: &Streams, tally: &Tally) -> Option<String> {
    let short = streams.groups().into_iter().find(|(group, count)| tally.of(group) != *count);
    short.map(|(group, count)| {
        format!("{group}: {count} scenarios asked for, {} compared", tally.of(group))
    })
}

fn report(found: &Found) {
    let Name { group, number } = found.name;
    if group == CUT {
        println!("the first {number} bytes");
    } else {
        println!("kind {group}, seed {number}; its bytes: scenarios {group} {number}");
    }
    match &found.what {
        Ok(Difference { line, expected, found }) => {
            println!("line {line}");
            println!("oracle: {expected}");
            println!("runner: {found}");
        }
        Err(why) => println!("{why}"),
    }
}
