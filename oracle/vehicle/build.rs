//! Writes the copies of the Rust source that the oracle runs. The file in ../source stays as sent.
//!
//! | copy | what differs from the file as sent |
//! |---|---|
//! | `as_sent` | nothing; `appended/kept.rs` follows it |
//! | `stored` | also: the wheels' transforms are left as stored |
//! | `demands` | also: the rescale of sliding wheels is switched off |
//!
//! Every line that differs is listed in the project's paper on differences.

use std::{env, fs, path::Path};

const SOURCE: &str = "../source/ray_cast_vehicle_controller.rs";
const APPENDED: &str = "appended/kept.rs";

/// The line that works out a wheel's transforms, and what stands there when they are the stored ones.
const TRANSFORMS: (&str, &str) =
    ("            self.update_wheel_transform(chassis, i);", "            let _ = (chassis, i);");

/// The line that opens the rescale, and the same line with the rescale switched off.
const RESCALE: (&str, &str) = ("        if sliding {", "        if sliding && false {");

fn main() {
    println!("cargo::rerun-if-changed={SOURCE}");
    println!("cargo::rerun-if-changed={APPENDED}");
    let out = env::var("OUT_DIR").expect("cargo sets OUT_DIR");
    let source = read(SOURCE) + &read(APPENDED);
    let stored = with_line(&source, TRANSFORMS);
    let demands = with_line(&stored, RESCALE);
    let copies = [("as_sent", &source), ("stored", &stored), ("demands", &demands)];
    let mut modules = String::new();
    for (name, text) in copies {
        let file = Path::new(&out).join(format!("{name}.rs"));
        fs::write(&file, text).expect("OUT_DIR can be written");
        modules +=
            &format!("#[path = {file:?}]\n#[allow(clippy::all, dead_code, unused_imports)]\npub mod {name};\n");
    }
    fs::write(Path::new(&out).join("copies.rs"), modules).expect("OUT_DIR can be written");
}

fn read(path: &str) -> String {
    fs::read_to_string(path).unwrap_or_else(|error| panic!("{path}: {error}"))
}

/// The text with one line changed. That line must stand in it exactly once.
fn with_line(text: &str, (old, new): (&str, &str)) -> String {
    let times = text.lines().filter(|line| *line == old).count();
    assert_eq!(times, 1, "this line must stand once in the source: {old}");
    text.replace(&format!("{old}\n"), &format!("{new}\n"))
}
