//! What the program under comparison says on many scenarios, and slipped oracles held against it.

use std::io::{self, Read, Write};
use std::path::Path;
use std::process::{Child, ChildStdin, ChildStdout, Command, Stdio};
use std::sync::atomic::{AtomicUsize, Ordering};
use std::sync::Mutex;
use std::thread;
use std::time::Duration;

use compare::{first_difference, Runner};
use scenarios::{generate, Kind};
use vehicle::program;

use crate::WORKERS;

/// One scenario with the lines of the program.
struct Scenario {
    kind: Kind,
    seed: u64,
    stream: Vec<u8>,
    printed: String,
}

/// All scenarios, the kinds in turn for each seed.
pub struct Expected {
    scenarios: Vec<Scenario>,
}

/// How a slip came out.
pub enum Verdict {
    Found { kind: Kind, seed: u64, line: usize },
    Passed,
    NotBuilt,
}

impl Expected {
    /// Runs the program. It must agree with the oracle, or the slips would show nothing.
    pub fn of(runner: &Path, seeds: u64) -> Result<Expected, String> {
        let order: Vec<(Kind, u64)> =
            (0..seeds).flat_map(|seed| Kind::ALL.map(|kind| (kind, seed))).collect();
        let next = AtomicUsize::new(0);
        let made: Mutex<Vec<(usize, Result<Scenario, String>)>> = Mutex::new(Vec::new());
        thread::scope(|scope| {
            for _ in 0..WORKERS {
                scope.spawn(|| loop {
                    let place = next.fetch_add(1, Ordering::Relaxed);
                    let Some((kind, seed)) = order.get(place) else { return };
                    let scenario = Scenario::of(runner, *kind, *seed);
                    if let Ok(mut made) = made.lock() {
                        made.push((place, scenario));
                    }
                });
            }
        });
        let mut made = made.into_inner().map_err(|_| "a worker stopped".to_string())?;
        made.sort_by_key(|(place, _)| *place);
        let scenarios: Result<Vec<_>, _> = made.into_iter().map(|(_, scenario)| scenario).collect();
        Ok(Expected { scenarios: scenarios? })
    }

    pub fn scenarios(&self) -> usize {
        self.scenarios.len()
    }

    /// The first scenario on which the slipped oracle says something else.
    pub fn try_on(&self, slipped: &Path) -> Result<Verdict, String> {
        let mut batch =
            Batch::start(slipped).map_err(|error| format!("a slipped oracle: {error}"))?;
        for Scenario { kind, seed, stream, printed } in &self.scenarios {
            let found = |line| Verdict::Found { kind: *kind, seed: *seed, line };
            match batch.run(stream) {
                // A slipped oracle that breaks down is found out.
                Err(_) => return Ok(found(0)),
                Ok(text) => {
                    if let Some(difference) = first_difference(printed, &text) {
                        return Ok(found(difference.line));
                    }
                }
            }
        }
        Ok(Verdict::Passed)
    }
}

impl Scenario {
    fn of(runner: &Path, kind: Kind, seed: u64) -> Result<Scenario, String> {
        let stream = generate(kind, seed);
        let printed = Runner::new(runner).run(&stream)?;
        let oracle = program::text(&program::run(&stream));
        match first_difference(&oracle, &printed) {
            None => Ok(Scenario { kind, seed, stream, printed }),
            Some(_) => {
                let kind = kind.name();
                Err(format!("the program differs from the oracle already: {kind}, seed {seed}"))
            }
        }
    }
}

/// A slipped oracle that answers scenario after scenario.
struct Batch {
    child: Child,
    input: Option<ChildStdin>,
    output: Option<ChildStdout>,
}

impl Batch {
    fn start(program: &Path) -> io::Result<Batch> {
        let mut command = Command::new(program);
        command.arg("--batch").stdin(Stdio::piped()).stdout(Stdio::piped()).stderr(Stdio::null());
        let mut child = spawn(&mut command)?;
        let (input, output) = (child.stdin.take(), child.stdout.take());
        Ok(Batch { child, input, output })
    }

    fn run(&mut self, stream: &[u8]) -> io::Result<String> {
        let (Some(input), Some(output)) = (&mut self.input, &mut self.output) else {
            return Err(io::ErrorKind::BrokenPipe.into());
        };
        input.write_all(&(stream.len() as u32).to_le_bytes())?;
        input.write_all(stream)?;
        input.flush()?;
        let mut length = [0; 4];
        output.read_exact(&mut length)?;
        let mut text = vec![0; u32::from_le_bytes(length) as usize];
        output.read_exact(&mut text)?;
        Ok(String::from_utf8_lossy(&text).into_owned())
    }
}

/// Starts a program that was written just now. A process that another worker starts at the same
/// time may hold the file open for a moment; then it counts as busy.
fn spawn(command: &mut Command) -> io::Result<Child> {
    let mut tries = 100;
    loop {
        match command.spawn() {
            Err(error) if error.kind() == io::ErrorKind::ExecutableFileBusy && tries > 0 => {
                tries -= 1;
                thread::sleep(Duration::from_millis(20));
            }
            started => return started,
        }
    }
}

impl Drop for Batch {
    fn drop(&mut self) {
        // Closing its input ends the program.
        self.input = None;
        let _ = self.child.wait();
    }
}
