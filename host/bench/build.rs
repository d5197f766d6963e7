//! Puts the Rust source and the oracle's arithmetic into this crate, so that the compiler sees all of the source's side at once.
//!
//! | module | what it is |
//! |---|---|
//! | `as_sent` | the file in oracle/source, as sent |
//! | `guarded` | a copy in which a wheel's transforms can be left as they are, as a drive leaves those of its aim: one line differs; `appended.rs` follows it |
//! | `scaled` | a copy whose `rotation_from_angle` is that of `src/source.rs`, a rotation from a scaled axis: one line differs; `appended.rs` follows it |
//! | `dynamics`, `geometry`, `math`, `utils` | the oracle's |

use std::path::{Path, PathBuf};
use std::{env, fs};

const SOURCE: &str = "../../oracle/source/ray_cast_vehicle_controller.rs";
const ARITHMETIC: &str = "../../oracle/vehicle/src";
const APPENDED: &str = "appended.rs";
const SENT: &str = "            self.update_wheel_transform(chassis, i);\n";
const GUARDED: &str =
    "            if crate::source::TRANSFORMS.get() { self.update_wheel_transform(chassis, i); }\n";
const IMPORTED: &str = "use crate::math::{Real, Vector, VectorExt, rotation_from_angle};\n";
const SCALED: &str = "use crate::{math::{Real, Vector, VectorExt}, source::rotation_from_angle};\n";

fn main() {
    let here =
        PathBuf::from(env::var_os("CARGO_MANIFEST_DIR").expect("cargo sets CARGO_MANIFEST_DIR"));
    let out = PathBuf::from(env::var_os("OUT_DIR").expect("cargo sets OUT_DIR"));
    let text = read(SOURCE);
    let mut modules = module("as_sent", &here.join(SOURCE));
    for (name, sent, changed) in [("guarded", SENT, GUARDED), ("scaled", IMPORTED, SCALED)] {
        assert_eq!(
            text.matches(sent).count(),
            1,
            "this line must stand once in the source: {sent}"
        );
        let copy = out.join(name).with_extension("rs");
        fs::write(&copy, text.replace(sent, changed) + &read(APPENDED))
            .expect("OUT_DIR can be written");
        modules += &module(name, &copy);
    }
    for name in ["dynamics", "geometry", "math", "utils"] {
        let file = format!("{ARITHMETIC}/{name}.rs");
        println!("cargo::rerun-if-changed={file}");
        modules += &module(name, &here.join(file));
    }
    fs::write(out.join("modules.rs"), modules).expect("OUT_DIR can be written");
}

fn module(name: &str, file: &Path) -> String {
    format!("#[path = {file:?}]\n#[allow(clippy::all, dead_code, unused_imports)]\nmod {name};\n")
}

fn read(path: &str) -> String {
    println!("cargo::rerun-if-changed={path}");
    fs::read_to_string(path).unwrap_or_else(|error| panic!("{path}: {error}"))
}
