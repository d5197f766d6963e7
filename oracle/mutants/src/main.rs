//! `mutants --runner PATH [--seeds N] [--only NAME]`: builds the oracle with each slip of
//! `slips.txt` and says whether comparing it with the program at PATH finds the slip.
#![forbid(unsafe_code)]

mod build;
mod expected;
mod slips;

use std::path::PathBuf;
use std::process::ExitCode;
use std::sync::atomic::{AtomicUsize, Ordering};
use std::thread;

use build::Workshop;
use expected::{Expected, Verdict};
use slips::Slip;

const USAGE: &str = "usage: mutants --runner PATH [--seeds N] [--only NAME]";
/// Builds at a time.
const WORKERS: usize = 2;
/// Seeds of each kind that a slip must get past to count as missed.
const SEEDS: u64 = 600;

struct Wanted {
    runner: PathBuf,
    seeds: u64,
    only: Option<String>,
}

fn main() -> ExitCode {
    let Some(wanted) = wanted(std::env::args().skip(1)) else {
        eprintln!("{USAGE}");
        return ExitCode::from(2);
    };
    match try_all(&wanted) {
        Ok(true) => ExitCode::SUCCESS,
        Ok(false) => ExitCode::from(1),
        Err(error) => {
            eprintln!("mutants: {error}");
            ExitCode::from(2)
        }
    }
}

fn wanted(mut arguments: impl Iterator<Item = String>) -> Option<Wanted> {
    let mut runner = None;
    let mut seeds = SEEDS;
    let mut only = None;
    while let Some(name) = arguments.next() {
        let value = arguments.next()?;
        match name.as_str() {
            "--runner" => runner = Some(PathBuf::from(value)),
            "--seeds" => seeds = value.parse().ok()?,
            "--only" => only = Some(value),
            _ => return None,
        }
    }
    Some(Wanted { runner: runner?, seeds, only })
}

/// True if every slip came out as the table says.
fn try_all(wanted: &Wanted) -> Result<bool, String> {
    let mut slips = slips::read()?;
    if let Some(only) = &wanted.only {
        slips.retain(|slip| slip.name == *only);
    }
    if slips.is_empty() {
        return Err("there is no such slip".to_string());
    }
    let expected = Expected::of(&wanted.runner, wanted.seeds)?;
    println!("the program agrees with the oracle on {} scenarios", expected.scenarios());
    let next = AtomicUsize::new(0);
    let work = |worker: usize| -> Result<Vec<(usize, Verdict)>, String> {
        let mut workshop = Workshop::open(worker)?;
        let mut verdicts = Vec::new();
        loop {
            let place = next.fetch_add(1, Ordering::Relaxed);
            let Some(slip) = slips.get(place) else { return Ok(verdicts) };
            let program = workshop.build(slip)?;
            let verdict = match program {
                Some(program) => expected.try_on(&program)?,
                None => Verdict::NotBuilt,
            };
            verdicts.push((place, verdict));
        }
    };
    let work = &work;
    let outcomes: Vec<Result<_, String>> = thread::scope(|scope| {
        let threads: Vec<_> =
            (0..WORKERS).map(|worker| scope.spawn(move || work(worker))).collect();
        let joined = threads.into_iter().map(|thread| thread.join());
        joined.map(|done| done.unwrap_or_else(|_| Err("a worker stopped".to_string()))).collect()
    });
    let mut verdicts = Vec::new();
    for outcome in outcomes {
        verdicts.extend(outcome?);
    }
    verdicts.sort_by_key(|(place, _)| *place);
    Ok(report(&slips, &verdicts))
}

fn report(slips: &[Slip], verdicts: &[(usize, Verdict)]) -> bool {
    let (mut found, mut hidden, mut wrong) = (0, 0, 0);
    for (place, verdict) in verdicts {
        let slip = &slips[*place];
        let name = &slip.name;
        match (verdict, &slip.hidden) {
            (Verdict::Found { kind, seed, line }, None) => {
                found += 1;
                println!("found   {name}: kind {}, seed {seed}, line {line}", kind.name());
            }
            (Verdict::Passed, Some(reason)) => {
                hidden += 1;
                println!("hidden  {name}: {reason}");
            }
            (Verdict::Found { kind, seed, .. }, Some(_)) => {
                wrong += 1;
                println!("WRONG   {name}: said to be hidden, found by {} {seed}", kind.name());
            }
            (Verdict::Passed, None) => {
                wrong += 1;
                println!("MISSED  {name}");
            }
            (Verdict::NotBuilt, _) => {
                wrong += 1;
                println!("UNBUILT {name}: it does not compile");
            }
        }
    }
    let slips = verdicts.len();
    println!("{slips} slips, {found} found, {hidden} that cannot show, {wrong} missed or wrong");
    wrong == 0
}
