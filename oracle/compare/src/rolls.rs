//! Which roll influences code 6 handed in, and where they counted.

use std::fmt;

use vehicle::program::Line;
use vehicle::ranges::may_be_handed_in;
use vehicle::table::{ACCEPTED, BAD_NUMBER, OUT_OF_RANGE};

use crate::cases::Cases;

/// The answers of an add whose roll influence was tested.
const TESTED: [u32; 3] = [ACCEPTED, BAD_NUMBER, OUT_OF_RANGE];

const A_TENTH: f32 = 0.1;

const ROLLS: &str = "roll influences";

const BELOW: &str = "below 0";
const STEP_BELOW: &str = "a step below 0";
const MINUS_ZERO: &str = "-0";
const ZERO: &str = "0";
const STEP_ABOVE_ZERO: &str = "a step above 0";
const TENTH: &str = "0.1";
const BETWEEN: &str = "between";
const STEP_BELOW_ONE: &str = "a step below 1";
const ONE: &str = "1";
const STEP_ABOVE: &str = "a step above 1";
const ABOVE: &str = "above 1";
const NOT_HANDED: &str = "not to be handed in";

/// Every case, in the order in which they are printed.
const CASES: [&str; 12] = [
    BELOW,
    STEP_BELOW,
    MINUS_ZERO,
    ZERO,
    STEP_ABOVE_ZERO,
    TENTH,
    BETWEEN,
    STEP_BELOW_ONE,
    ONE,
    STEP_ABOVE,
    ABOVE,
    NOT_HANDED,
];

/// How often each case was met.
#[derive(Clone, Debug, Default)]
pub struct Rolls {
    cases: Cases,
    /// Wheels of accepted drives with a side demand and a roll influence that is not 0.1.
    wheels: u64,
    /// Accepted drives in which such a wheel stands beside one with another roll influence.
    drives: u64,
}

impl Rolls {
    pub fn add(&mut self, line: &Line) {
        if let (Some(roll), true) = (line.roll_influence, TESTED.contains(&line.answer)) {
            self.cases.count(ROLLS, case_of(roll));
        }
        if line.answer != ACCEPTED {
            return;
        }
        let pushed = || line.grips.iter().filter(|grip| grip.grounded && grip.side != 0.0);
        let others = pushed().filter(|grip| grip.roll_influence != A_TENTH).count() as u64;
        let rolls = || pushed().map(|grip| grip.roll_influence);
        self.wheels += others;
        self.drives += u64::from(rolls().any(|roll| rolls().any(|other| other != roll)));
    }

    /// Both together.
    pub fn and(self, other: Rolls) -> Rolls {
        Rolls {
            cases: self.cases.and(other.cases),
            wheels: self.wheels + other.wheels,
            drives: self.drives + other.drives,
        }
    }
}

fn case_of(roll: f32) -> &'static str {
    let tiny = f32::from_bits(1);
    match roll {
        roll if !may_be_handed_in(roll) => NOT_HANDED,
        roll if roll < -tiny => BELOW,
        roll if roll == -tiny => STEP_BELOW,
        roll if roll == 0.0 && roll.is_sign_negative() => MINUS_ZERO,
        0.0 => ZERO,
        roll if roll == tiny => STEP_ABOVE_ZERO,
        roll if roll == A_TENTH => TENTH,
        roll if roll.to_bits() == 1.0f32.to_bits() - 1 => STEP_BELOW_ONE,
        roll if roll < 1.0 => BETWEEN,
        1.0 => ONE,
        roll if roll.to_bits() == 1.0f32.to_bits() + 1 => STEP_ABOVE,
        _ => ABOVE,
    }
}

impl fmt::Display for Rolls {
    fn fmt(&self, out: &mut fmt::Formatter) -> fmt::Result {
        writeln!(out, "{ROLLS}  {}", self.cases.line(ROLLS, &CASES))?;
        writeln!(
            out,
            "  wheels with a side demand and another than 0.1: {}; drives with two of them: {}",
            self.wheels, self.drives
        )
    }
}

#[cfg(test)]
mod tests {
    use super::*;
    use scenarios::{generate, Kind};
    use vehicle::program;

    /// A few hundred seeds meet every case.
    #[test]
    fn every_case_is_met() {
        let mut rolls = Rolls::default();
        for seed in 0..1000 {
            program::run(&generate(Kind::Roll, seed)).iter().for_each(|line| rolls.add(line));
        }
        for case in CASES {
            assert!(rolls.cases.of(ROLLS, case) > 0, "{case}: {rolls}");
        }
        assert!(rolls.wheels > 1000 && rolls.drives > 100, "{rolls}");
    }

    /// The other kinds have none, so that what they print is as it was before code 6.
    #[test]
    fn the_other_kinds_have_none() {
        for kind in [Kind::Car, Kind::Edge, Kind::Wild, Kind::Bad] {
            for seed in 0..200 {
                let lines = program::run(&generate(kind, seed));
                assert!(lines.iter().all(|line| line.code != 6), "{} {seed}", kind.name());
            }
        }
    }
}
