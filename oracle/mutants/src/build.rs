//! Builds the oracle with a slip in it, in a copy of its sources below the target folder.

use std::collections::hash_map::DefaultHasher;
use std::fs;
use std::hash::{Hash, Hasher};
use std::path::{Path, PathBuf};
use std::process::{Command, Stdio};

use crate::slips::Slip;

/// The folder of the oracle's workspace.
pub fn oracle_folder() -> PathBuf {
    Path::new(env!("CARGO_MANIFEST_DIR")).join("..")
}

/// What of the oracle a slipped build needs, and what of that it does not.
const NEEDED: [&str; 3] = ["profiling", "vehicle", "source"];
const NOT_NEEDED: &str = "tests";

/// A workspace of the needed crates only, built quickly.
const MANIFEST: &str = r#"[workspace]
resolver = "2"
members = ["profiling", "vehicle"]

[workspace.package]
version = "1.0.0"
edition = "2021"
license = "Apache-2.0"
publish = false

[profile.dev]
opt-level = 0
overflow-checks = false
debug-assertions = false
debug = false
"#;

/// One worker's copy of the sources. Its target folder is kept, so that a build is quick.
pub struct Workshop {
    folder: PathBuf,
    /// Built programs, named by a hash of all that went into them.
    store: PathBuf,
    /// A hash of the unchanged sources.
    sources: u64,
}

impl Workshop {
    pub fn open(worker: usize) -> Result<Workshop, String> {
        let top = oracle_folder().join("target/mutants");
        let folder = top.join(format!("worker-{worker}"));
        let store = top.join("built");
        make_folder(&folder)?;
        make_folder(&store)?;
        write_if_new(&folder.join("Cargo.toml"), MANIFEST)?;
        let mut hasher = DefaultHasher::new();
        MANIFEST.hash(&mut hasher);
        for part in NEEDED {
            copy(&oracle_folder().join(part), &folder.join(part), &mut hasher)?;
        }
        Ok(Workshop { folder, store, sources: hasher.finish() })
    }

    /// The oracle with this slip; nothing if it does not compile.
    pub fn build(&mut self, slip: &Slip) -> Result<Option<PathBuf>, String> {
        let original = read(&oracle_folder().join(&slip.file))?;
        let slipped = slip.applied(&original)?;
        let mut hasher = DefaultHasher::new();
        (self.sources, &slip.file, &slipped).hash(&mut hasher);
        let built = self.store.join(format!("oracle-{:016x}", hasher.finish()));
        if built.exists() {
            return Ok(Some(built));
        }
        let file = self.folder.join(&slip.file);
        write(&file, &slipped)?;
        let compiled = self.compile();
        write(&file, &original)?;
        if !compiled? {
            return Ok(None);
        }
        let fresh = self.folder.join("target/debug/oracle");
        fs::copy(fresh, &built).map_err(|error| format!("copying a program: {error}"))?;
        Ok(Some(built))
    }

    fn compile(&self) -> Result<bool, String> {
        let cargo = std::env::var("CARGO").unwrap_or_else(|_| "cargo".to_string());
        let status = Command::new(cargo)
            .args(["build", "--offline", "--quiet", "--jobs", "1", "--bin", "oracle"])
            .current_dir(&self.folder)
            .env("CARGO_TARGET_DIR", "target")
            .stdout(Stdio::null())
            .stderr(Stdio::null())
            .status();
        status.map(|status| status.success()).map_err(|error| format!("cargo: {error}"))
    }
}

/// Copies a folder's files where they differ, and adds them to the hash.
fn copy(from: &Path, to: &Path, hasher: &mut DefaultHasher) -> Result<(), String> {
    make_folder(to)?;
    let mut names: Vec<_> = fs::read_dir(from)
        .and_then(|entries| entries.map(|entry| entry.map(|entry| entry.file_name())).collect())
        .map_err(|error| format!("a folder of the oracle: {error}"))?;
    names.retain(|name| name != NOT_NEEDED);
    names.sort();
    for name in names {
        let (from, to) = (from.join(&name), to.join(&name));
        if from.is_dir() {
            copy(&from, &to, hasher)?;
        } else {
            let text = read(&from)?;
            (name, &text).hash(hasher);
            write_if_new(&to, &text)?;
        }
    }
    Ok(())
}

fn make_folder(path: &Path) -> Result<(), String> {
    fs::create_dir_all(path).map_err(|error| format!("making a folder: {error}"))
}

fn read(path: &Path) -> Result<String, String> {
    fs::read_to_string(path).map_err(|error| format!("reading a file: {error}"))
}

fn write(path: &Path, text: &str) -> Result<(), String> {
    fs::write(path, text).map_err(|error| format!("writing a file: {error}"))
}

/// Leaves a file alone that holds the text already, so that cargo sees no change.
fn write_if_new(path: &Path, text: &str) -> Result<(), String> {
    match fs::read_to_string(path) {
        Ok(there) if there == text => Ok(()),
        _ => write(path, text),
    }
}
