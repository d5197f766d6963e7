//! Which wheels had no axis or no rolling direction, and why.

use std::fmt;

use vehicle::math::Vector;
use vehicle::program::Line;
use vehicle::table::{Grip, ACCEPTED};

use crate::cases::Cases;

/// The code of a read with both answers, and where they begin in its results.
const READ_ALL: u32 = 9;
const FELL_BACK: usize = 18;

const READ: &str = "reads by code 9";
const NO_AXIS: &str = "no axis";
const NO_FORWARD: &str = "no forward alone";
const BEFORE: &str = "after a yes";

/// What a read said.
const NEITHER: &str = "neither fell back";
const FORWARD: &str = "the forward direction alone";
const BOTH: &str = "both";
const AXIS: &str = "the axis alone";

/// Why a vector has no direction.
const ZERO: &str = "zero";
const UNDERFLOW: &str = "its squares underflow";
const OVERFLOW: &str = "a square overflows";

/// What a wheel did in the drive after one that said yes.
const ON_THE_GROUND: &str = "no, on the ground";
const IN_THE_AIR: &str = "no, in the air";

/// Every case, in the order in which they are printed. The axis alone cannot be met: without an axis
/// nothing is left to cross the normal with. Over a stream no square overflows, since a handed in number
/// is at most 2^20.
const CASES: [(&str, &[&str]); 4] = [
    (READ, &[NEITHER, FORWARD, BOTH, AXIS]),
    (NO_AXIS, &[ZERO, UNDERFLOW, OVERFLOW]),
    (NO_FORWARD, &[ZERO, UNDERFLOW]),
    (BEFORE, &[ON_THE_GROUND, IN_THE_AIR]),
];

/// How often each case was met.
#[derive(Clone, Debug, Default)]
pub struct Directions {
    cases: Cases,
}

impl Directions {
    pub fn add(&mut self, line: &Line) {
        if line.answer != ACCEPTED {
            return;
        }
        if line.code == READ_ALL {
            self.cases.count(READ, said(&line.results[FELL_BACK..]));
        }
        for grip in &line.grips {
            self.add_wheel(grip);
        }
    }

    /// A wheel of an accepted drive.
    fn add_wheel(&mut self, grip: &Grip) {
        let left = grip.axle - grip.normal * grip.axle.dot(grip.normal);
        match grip.fell_back {
            [true, _] => self.cases.count(NO_AXIS, cause(left)),
            [false, true] => {
                let crossed = grip.normal.cross(left.normalize_or_zero());
                self.cases.count(NO_FORWARD, cause(crossed));
            }
            [false, false] if grip.fell_back_before != [false; 2] => {
                self.cases.count(BEFORE, if grip.grounded { ON_THE_GROUND } else { IN_THE_AIR });
            }
            _ => (),
        }
    }

    /// Both together.
    pub fn and(self, other: Directions) -> Directions {
        Directions { cases: self.cases.and(other.cases) }
    }
}

fn said(words: &[u32]) -> &'static str {
    match words {
        [0, 0] => NEITHER,
        [0, _] => FORWARD,
        [_, 0] => AXIS,
        _ => BOTH,
    }
}

/// Why this vector fell back.
fn cause(vector: Vector) -> &'static str {
    if vector == Vector::ZERO {
        ZERO
    } else if vector.dot(vector) == 0.0 {
        UNDERFLOW
    } else {
        OVERFLOW
    }
}

impl fmt::Display for Directions {
    fn fmt(&self, out: &mut fmt::Formatter) -> fmt::Result {
        write!(out, "what fell back\n{}", self.cases.lines(&CASES, 16))
    }
}

#[cfg(test)]
mod tests {
    use super::*;
    use scenarios::{generate, rubbish, Kind, Rubbish};
    use vehicle::program;

    fn over_the_stream(seeds: u64) -> Directions {
        let mut directions = Directions::default();
        for seed in 0..seeds {
            program::run(&generate(Kind::Axle, seed)).iter().for_each(|line| directions.add(line));
        }
        directions
    }

    /// A few hundred seeds meet every case that can be met; an axis alone never falls back.
    #[test]
    fn every_case_is_met() {
        let directions = over_the_stream(900);
        for (group, names) in CASES {
            for name in names {
                let is_met = *name != AXIS && *name != OVERFLOW;
                let count = directions.cases.of(group, name);
                assert_eq!(count > 0, is_met, "{group}, {name}: {directions}");
            }
        }
    }

    /// Tables of rubbish have squares that overflow too, and reads of any stored numbers.
    #[test]
    fn tables_of_rubbish_meet_the_others() {
        let mut directions = Directions::default();
        for seed in 0..4000 {
            let Rubbish { mut table, codes } = rubbish(seed);
            codes.iter().for_each(|code| directions.add(&program::call(&mut table, code)));
        }
        for (group, names) in CASES {
            for name in names {
                assert!(directions.cases.of(group, name) > 0, "{group}, {name}: {directions}");
            }
        }
    }

    /// The other kinds have no code 9, so that what they print is as it was before it. The faults of `broken`
    /// and `roll` put any number in a code's place.
    #[test]
    fn the_other_kinds_have_none() {
        for kind in [Kind::Car, Kind::Edge, Kind::Wild, Kind::Bad, Kind::Roll] {
            for seed in (0..200).filter(|seed| kind != Kind::Roll || seed % 5 != 4) {
                let lines = program::run(&generate(kind, seed));
                assert!(lines.iter().all(|line| line.code != 9), "{} {seed}", kind.name());
            }
        }
    }
}
