//! A program that reads one scenario on standard input and prints its lines.

use std::io::{Read, Write};
use std::path::{Path, PathBuf};
use std::process::{Child, Command, Stdio};
use std::sync::mpsc::{self, RecvTimeoutError};
use std::thread;
use std::time::Duration;

/// How long a program may take for one scenario before it counts as hanging.
const PATIENCE: Duration = Duration::from_secs(60);

/// The program; one process is started for each scenario, so that none can touch another.
#[derive(Clone)]
pub struct Runner {
    path: PathBuf,
}

impl Runner {
    pub fn new(path: &Path) -> Self {
        Runner { path: path.to_path_buf() }
    }

    /// What the program printed, or why there is nothing to compare.
    pub fn run(&self, stream: &[u8]) -> Result<String, String> {
        let mut child = Command::new(&self.path)
            .stdin(Stdio::piped())
            .stdout(Stdio::piped())
            .stderr(Stdio::null())
            .spawn()
            .map_err(|error| format!("the program does not start: {error}"))?;
        let output = talk(&mut child, stream);
        if output.is_err() {
            // It hangs: end it, so that `wait` ends. It may have ended by itself just now.
            let _ = child.kill();
        }
        let status = child.wait().map_err(|error| error.to_string())?;
        let output = output?;
        match status.code() {
            Some(0) => Ok(output),
            _ => Err(format!("the program ended with {status}")),
        }
    }
}

/// Writes the scenario while the output is read: either pipe may be shorter than what passes.
fn talk(child: &mut Child, stream: &[u8]) -> Result<String, String> {
    let input = child.stdin.take();
    let output = child.stdout.take();
    let stream = stream.to_vec();
    // A program may stop reading at code 0 or at a malformed place: a broken pipe is no fault.
    thread::spawn(move || input.map(|mut input| input.write_all(&stream)));
    let (sender, receiver) = mpsc::channel();
    thread::spawn(move || {
        let mut bytes = Vec::new();
        let read = output.map_or(Ok(0), |mut output| output.read_to_end(&mut bytes));
        sender.send(read.map(|_| bytes))
    });
    match receiver.recv_timeout(PATIENCE) {
        Ok(Ok(bytes)) => Ok(String::from_utf8_lossy(&bytes).into_owned()),
        Ok(Err(error)) => Err(format!("its output cannot be read: {error}")),
        Err(RecvTimeoutError::Timeout) => {
            Err(format!("the program still ran after {} seconds", PATIENCE.as_secs()))
        }
        Err(RecvTimeoutError::Disconnected) => Err("its output cannot be read".to_string()),
    }
}
