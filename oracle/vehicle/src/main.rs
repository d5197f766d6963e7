//! `oracle`: reads a scenario on standard input and prints its lines.
//!
//! `oracle --state` takes a table's contents before the codes and shows the table at the end.
//! `oracle --each` takes scenarios one after another, as crate `replay` does.
//! `oracle --batch` takes many scenarios, each after its length (four bytes, lowest first), and
//! answers each with the length of its text and its text.
#![forbid(unsafe_code)]

use std::io::{self, Read, Write};
use std::process::ExitCode;

use vehicle::program;

fn main() -> ExitCode {
    let arguments: Vec<String> = std::env::args().skip(1).collect();
    let arguments: Vec<&str> = arguments.iter().map(String::as_str).collect();
    let done = match arguments[..] {
        [] => whole(|stream| program::text(&program::run(stream))),
        ["--state"] => whole(program::run_on_state),
        ["--each"] => whole(program::run_each),
        ["--batch"] => batch(),
        _ => {
            eprintln!("usage: oracle [--state | --each | --batch] < stream");
            return ExitCode::from(2);
        }
    };
    match done {
        Ok(()) => ExitCode::SUCCESS,
        Err(error) => {
            eprintln!("oracle: {error}");
            ExitCode::from(1)
        }
    }
}

fn whole(answer: fn(&[u8]) -> String) -> io::Result<()> {
    let mut stream = Vec::new();
    io::stdin().lock().read_to_end(&mut stream)?;
    io::stdout().lock().write_all(answer(&stream).as_bytes())
}

fn batch() -> io::Result<()> {
    let mut input = io::stdin().lock();
    let mut output = io::stdout().lock();
    while let Some(stream) = framed(&mut input)? {
        let text = program::text(&program::run(&stream));
        output.write_all(&(text.len() as u32).to_le_bytes())?;
        output.write_all(text.as_bytes())?;
        output.flush()?;
    }
    Ok(())
}

/// The next scenario of a batch; nothing at the end.
fn framed(input: &mut impl Read) -> io::Result<Option<Vec<u8>>> {
    let mut length = [0; 4];
    if input.read(&mut length[..1])? == 0 {
        return Ok(None);
    }
    input.read_exact(&mut length[1..])?;
    let mut stream = Vec::new();
    input.take(u64::from(u32::from_le_bytes(length))).read_to_end(&mut stream)?;
    Ok(Some(stream))
}
