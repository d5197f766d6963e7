//! Which angles code 10 handed in, what aims made of them, and why some were refused with 17.

use std::collections::BTreeMap;
use std::fmt;

use vehicle::handed::Controls;
use vehicle::math::{Steering, Vector};
use vehicle::program::Line;
use vehicle::ranges::{may_be_handed_in, MOST_ANGLE};
use vehicle::table::{Steer, ACCEPTED, BAD_NUMBER, BAD_TURN, OUT_OF_RANGE};

use crate::cases::Cases;
use crate::normals::{place_of, PLACES};

/// The answers of a control whose angle was tested.
const TESTED: [u32; 3] = [ACCEPTED, BAD_NUMBER, OUT_OF_RANGE];

const HANDED: &str = "handed in";
const WHEEL: &str = "one wheel";
const ANGLE: &str = "aimed with";
const DIRECTION: &str = "aimed along";
const SINCE: &str = "since the control";
const MADE: &str = "sums of squares";
const REFUSED: &str = "refused with 17";

const BELOW: &str = "below -2";
const STEP_BELOW: &str = "a step below -2";
const LEAST: &str = "-2";
const NEGATIVE: &str = "above -2";
const MINUS_ZERO: &str = "-0";
const ZERO: &str = "0";
const SUBNORMAL: &str = "subnormal";
const NO_UNIT: &str = "its half below 2^-30";
const POSITIVE: &str = "below 2";
const MOST: &str = "2";
const STEP_ABOVE: &str = "a step above 2";
const ABOVE: &str = "above 2";
const NOT_HANDED: &str = "not to be handed in";

/// The angles that an aim may meet, and those that only a control does.
const STORED: [&str; 8] = [LEAST, NEGATIVE, MINUS_ZERO, ZERO, SUBNORMAL, NO_UNIT, POSITIVE, MOST];
const NOT_STORED: [&str; 5] = [BELOW, STEP_BELOW, STEP_ABOVE, ABOVE, NOT_HANDED];

/// What an accepted control took the place of.
const ANGLE_AGAIN: &str = "an angle after an angle";
const ANGLE_AFTER: &str = "an angle after a rotation";
const ROTATION_AFTER: &str = "a rotation after an angle";

/// How long the world direction is.
const UNIT: &str = "unit length";
const LONGER: &str = "longer";
const SHORTER: &str = "shorter";
const TINY: &str = "its square below 2^-100";

/// What the chassis did since the wheel was first aimed with this control.
const FIRST: &str = "the first aim";
const SAME: &str = "the direction stayed";
const TURNED: &str = "the chassis turned";

/// Why an aim was refused with 17.
const NO_DIRECTION: &str = "a zero direction";
const UNDERFLOW: &str = "its squares underflow";
const SHORT: &str = "the rotation too short";
const LONG: &str = "the rotation too long";

/// Every case, in the order in which they are printed.
const CASES: [(&str, &[&str]); 8] = [
    (HANDED, &STORED),
    (HANDED, &NOT_STORED),
    (WHEEL, &[ANGLE_AGAIN, ANGLE_AFTER, ROTATION_AFTER]),
    (ANGLE, &STORED),
    (DIRECTION, &[UNIT, LONGER, SHORTER, TINY]),
    (SINCE, &[FIRST, SAME, TURNED]),
    (MADE, &PLACES),
    (REFUSED, &[NO_DIRECTION, UNDERFLOW, SHORT, LONG]),
];

/// How often each case was met.
#[derive(Clone, Debug, Default)]
pub struct Angles {
    cases: Cases,
}

/// Of the wheels of one scenario: the last control accepted, and the direction at the first aim with it.
#[derive(Default)]
struct Wheels {
    steered: BTreeMap<u32, Steering>,
    first: BTreeMap<u32, Vector>,
}

impl Angles {
    /// The lines of one scenario.
    pub fn add(&mut self, lines: &[Line]) {
        let mut wheels = Wheels::default();
        for line in lines {
            if let Some((wheel, controls)) = line.controls {
                self.add_controls(&mut wheels, wheel, &controls, line.answer);
            }
            for steer in &line.steers {
                match line.answer {
                    ACCEPTED => self.add_aimed(&mut wheels, steer),
                    BAD_TURN => self.add_refused(steer),
                    _ => (),
                }
                if !steer.fell_back() {
                    self.cases.count(MADE, place_of(steer.rotation.sum_of_squares()));
                }
            }
        }
    }

    fn add_controls(&mut self, wheels: &mut Wheels, wheel: u32, controls: &Controls, answer: u32) {
        if let (Steering::Angle(angle), true) = (controls.steering, TESTED.contains(&answer)) {
            self.cases.count(HANDED, case_of(angle));
        }
        if answer != ACCEPTED {
            return;
        }
        let before = wheels.steered.insert(wheel, controls.steering);
        wheels.first.remove(&wheel);
        let was_angle = matches!(before, Some(Steering::Angle(_)));
        match (controls.steering, was_angle) {
            (Steering::Angle(_), true) => self.cases.count(WHEEL, ANGLE_AGAIN),
            (Steering::Angle(_), false) => self.cases.count(WHEEL, ANGLE_AFTER),
            (Steering::Rotation(_), true) => self.cases.count(WHEEL, ROTATION_AFTER),
            (Steering::Rotation(_), false) => (),
        }
    }

    /// A wheel of an accepted aim.
    fn add_aimed(&mut self, wheels: &mut Wheels, steer: &Steer) {
        self.cases.count(ANGLE, case_of(steer.angle));
        self.cases.count(DIRECTION, length_of(steer.direction));
        let since = match wheels.first.get(&steer.wheel) {
            None => FIRST,
            Some(first) if *first == steer.direction => SAME,
            Some(_) => TURNED,
        };
        self.cases.count(SINCE, since);
        wheels.first.entry(steer.wheel).or_insert(steer.direction);
    }

    /// A wheel of an aim that was refused with 17, perhaps for another wheel.
    fn add_refused(&mut self, steer: &Steer) {
        if steer.fell_back() {
            let is_zero = steer.direction == Vector::ZERO;
            self.cases.count(REFUSED, if is_zero { NO_DIRECTION } else { UNDERFLOW });
        } else if !steer.in_band() {
            let is_short = steer.rotation.sum_of_squares() < 1.0;
            self.cases.count(REFUSED, if is_short { SHORT } else { LONG });
        }
    }

    /// Both together.
    pub fn and(self, other: Angles) -> Angles {
        Angles { cases: self.cases.and(other.cases) }
    }
}

fn case_of(angle: f32) -> &'static str {
    let step = f32::from_bits(MOST_ANGLE.to_bits() + 1);
    let unit = f32::from_bits((127 - 29) << 23);
    match angle {
        angle if !may_be_handed_in(angle) => NOT_HANDED,
        angle if angle == -step => STEP_BELOW,
        angle if angle == step => STEP_ABOVE,
        angle if angle < -MOST_ANGLE => BELOW,
        angle if angle > MOST_ANGLE => ABOVE,
        angle if angle == -MOST_ANGLE => LEAST,
        angle if angle == MOST_ANGLE => MOST,
        angle if angle == 0.0 && angle.is_sign_negative() => MINUS_ZERO,
        0.0 => ZERO,
        angle if angle.is_subnormal() => SUBNORMAL,
        angle if angle.abs() < unit => NO_UNIT,
        angle if angle < 0.0 => NEGATIVE,
        _ => POSITIVE,
    }
}

/// Of unit length but for a few roundings.
fn length_of(direction: Vector) -> &'static str {
    match direction.dot(direction) {
        square if square < f32::from_bits((127 - 100) << 23) => TINY,
        square if (square - 1.0).abs() < 1e-5 => UNIT,
        square if square < 1.0 => SHORTER,
        _ => LONGER,
    }
}

impl fmt::Display for Angles {
    fn fmt(&self, out: &mut fmt::Formatter) -> fmt::Result {
        write!(out, "steered by angle\n{}", self.cases.lines(&CASES, 17))
    }
}

#[cfg(test)]
mod tests {
    use super::*;
    use scenarios::{generate, rubbish, Kind, Rubbish};
    use vehicle::program;

    /// A few hundred seeds meet every case.
    #[test]
    fn every_case_is_met() {
        let mut angles = Angles::default();
        for seed in 0..800 {
            angles.add(&program::run(&generate(Kind::Steer, seed)));
        }
        for (group, cases) in CASES {
            for case in cases {
                assert!(angles.cases.of(group, case) > 0, "{group}, {case}: {angles}");
            }
        }
    }

    /// Tables of rubbish are refused with 17 for each of its causes.
    #[test]
    fn tables_of_rubbish_meet_every_cause() {
        let mut angles = Angles::default();
        for seed in 0..4000 {
            let Rubbish { mut table, codes } = rubbish(seed);
            let lines: Vec<Line> =
                codes.iter().map(|code| program::call(&mut table, code)).collect();
            angles.add(&lines);
        }
        for case in [NO_DIRECTION, UNDERFLOW, SHORT, LONG] {
            assert!(angles.cases.of(REFUSED, case) > 0, "{case}: {angles}");
        }
    }

    /// The other kinds have no code 10, so that what they print is as it was before it. The faults of
    /// `broken`, `roll` and `axle` put any number in a code's place.
    #[test]
    fn the_other_kinds_have_none() {
        let has_a_fault = |kind, seed: u64| match kind {
            Kind::Roll => seed % 5 == 4,
            Kind::Axle => seed % 6 == 5,
            _ => false,
        };
        for kind in [Kind::Car, Kind::Edge, Kind::Wild, Kind::Bad, Kind::Roll, Kind::Axle] {
            for seed in (0..200).filter(|seed| !has_a_fault(kind, *seed)) {
                let lines = program::run(&generate(kind, seed));
                assert!(lines.iter().all(|line| line.code != 10), "{} {seed}", kind.name());
            }
        }
    }
}
