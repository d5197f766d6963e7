//! `scenarios KIND SEED`: writes the scenario's bytes to standard output. The kind `rubbish`
//! writes a table's contents and codes, as `oracle --state` reads them. `scenarios example` writes
//! the example of `examples/`, `scenarios landing` the landing there, `scenarios drives N` a stream
//! of N aims and drives, `scenarios unbroken` a stream that the kind `steer` breaks,
//! in which every code stands.
#![forbid(unsafe_code)]

use std::io::{self, BufWriter, Write};
use std::process::ExitCode;

use scenarios::{drives, example, generate, landing, rubbish, unbroken, Kind};

fn main() -> ExitCode {
    let arguments: Vec<String> = std::env::args().skip(1).collect();
    let Some(written) = write(&arguments) else {
        let names = Kind::ALL.map(Kind::name).join(" | ");
        eprintln!("usage: scenarios {names} | rubbish SEED > stream");
        eprintln!("       scenarios example | landing | unbroken > stream");
        eprintln!("       scenarios drives N > stream");
        return ExitCode::from(2);
    };
    match written {
        Ok(()) => ExitCode::SUCCESS,
        Err(_) => ExitCode::from(1),
    }
}

/// None where the arguments are not understood.
fn write(arguments: &[String]) -> Option<io::Result<()>> {
    let mut out = BufWriter::new(io::stdout().lock());
    match arguments {
        [kind] if kind == "example" => Some(out.write_all(&example())),
        [kind] if kind == "landing" => Some(out.write_all(&landing())),
        [kind] if kind == "unbroken" => Some(out.write_all(&unbroken())),
        [kind, count] if kind == "drives" => Some(write_drives(&mut out, count.parse().ok()?)),
        [kind, seed] => Some(out.write_all(&scenario(kind, seed.parse().ok()?)?)),
        _ => None,
    }
}

fn scenario(kind: &str, seed: u64) -> Option<Vec<u8>> {
    if kind == "rubbish" {
        return Some(rubbish(seed).stream());
    }
    Kind::named(kind).map(|kind| generate(kind, seed))
}

fn write_drives(out: &mut impl Write, count: u64) -> io::Result<()> {
    let [first, drive, last] = drives();
    out.write_all(&first)?;
    for _ in 0..count {
        out.write_all(&drive)?;
    }
    out.write_all(&last)
}
