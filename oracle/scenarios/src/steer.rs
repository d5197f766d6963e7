//! Steering by angle: scenarios of the other kinds in which most controls are set by code 10 and a wheel
//! keeps its angle over aims of other chassis, with suspension directions that have no unit length or no
//! length at all; and some scripts of its own, for the ends of the band and for the order of the refusals.
//!
//! Every frame hands its chassis in, so that a frame after another axle is the one that the other kind
//! made.

use vehicle::handed::{Chassis, Controls, Drive, Hit, NewWheel};
use vehicle::math::{Pose, Rotation, Steering, Vector};
use vehicle::program;
use vehicle::row;
use vehicle::stream::{bytes_of, Code, Token};
use vehicle::table::{Steer, Table, ACCEPTED, BAD_TURN};

use crate::axle::{a_read, axle_base, long, tiny};
use crate::broken::with_a_fault;
use crate::parts::{a_zero, along_an_axis, rotation, unit_vector, Size, MOST};
use crate::random::Random;
use crate::roll::codes_of;
use crate::script::{stream_of, Script};
use crate::{generate, Kind};

/// The kinds whose scenarios are changed, one after the other by seed; `Broken` stands for a stream
/// with a fault and `Steer` for a script of this file alone.
const BASES: [Kind; 8] = [
    Kind::Car,
    Kind::Edge,
    Kind::Wild,
    Kind::Bad,
    Kind::Roll,
    Kind::Axle,
    Kind::Broken,
    Kind::Steer,
];

/// From -2 to 2. Half of 2^-29 is one unit of the library's sums, that of 2^-30 is less.
const GOOD: [f32; 20] = [
    0.0,
    -0.0,
    f32::from_bits(1), // half of it is a tie, and goes to 0
    -f32::from_bits(3),
    f32::MIN_POSITIVE,
    1e-20,
    f32::from_bits((127 - 30) << 23),
    f32::from_bits((127 - 29) << 23),
    -f32::from_bits((127 - 14) << 23),
    f32::from_bits((127 - 10) << 23),
    0.5,
    -1.0,
    f32::from_bits(0x3FCA_C469), // one term more would round the cosine otherwise, here and at the next
    f32::from_bits(0xBFAC_E2B4),
    f32::from_bits(0x3FFF_FFFF), // the next below 2
    f32::from_bits(0xBFFF_FFFF),
    2.0,
    2.0,
    -2.0,
    -2.0,
];

/// Refused with 10, and from the fifth last on with 2.
const BAD: [f32; 13] = [
    f32::from_bits(0x4000_0001), // the next above 2
    f32::from_bits(0x4000_0001),
    f32::from_bits(0xC000_0001),
    f32::from_bits(0xC000_0001),
    2.5,
    -3.0,
    MOST,
    -MOST,
    f32::from_bits(0x4980_0001), // the next above 2^20
    f32::from_bits(0xC980_0001),
    f32::NAN,
    f32::INFINITY,
    f32::NEG_INFINITY,
];

pub fn scenario(random: &mut Random, seed: u64) -> Vec<u8> {
    let turn = seed / BASES.len() as u64;
    match BASES[(seed % BASES.len() as u64) as usize] {
        Kind::Broken if turn % 2 == 1 => code_10_broken(random, turn / 32),
        Kind::Broken => with_a_fault(random, turn / 2, steer_base),
        Kind::Steer if turn % 3 == 1 => stream_of(&too_large_as_well(random)),
        Kind::Steer => stream_of(&ends_of_the_band(random)),
        // Of the seeds of `roll` and `axle` the last of each round has a fault, and the codes of before it
        // may be none.
        Kind::Roll => changed(random, Kind::Roll, turn / 4 * 5 + turn % 4),
        Kind::Axle => changed(random, Kind::Axle, turn / 5 * 6 + turn % 5),
        kind => changed(random, kind, turn),
    }
}

fn changed(random: &mut Random, kind: Kind, seed: u64) -> Vec<u8> {
    stream_of(&with_angles(random, codes_of(&generate(kind, seed))))
}

/// The stream that the first run of its faults breaks: every code stands in it.
pub fn unbroken() -> Vec<u8> {
    stream_of(&steer_base(0))
}

/// The codes that the kind `axle` breaks, with an angle for the second wheel behind its rotation.
fn steer_base(run: u64) -> Vec<Code> {
    let mut codes = axle_base(run);
    let last = codes.iter().rposition(|code| matches!(code, Code::Controls(..)));
    if let Some(place) = last {
        let steering = Steering::Angle(good_angle(&mut Random::new(97, run)));
        let controls = Controls { engine: 0.5, brake: 0.25, steering };
        codes.insert(place + 1, Code::Controls(1, controls));
    }
    codes
}

/// The stream up to a place in its code 10, or with an unknown code in its place.
fn code_10_broken(random: &mut Random, run: u64) -> Vec<u8> {
    let codes = steer_base(run);
    let place = codes.iter().position(is_by_angle).unwrap_or(0);
    let mut tokens = codes[place].tokens();
    let before = stream_of(&codes[..place]);
    if random.once_in(3) {
        tokens[0] = Token::Whole(random.pick(&[7, 11, 12, 138]));
        return [before, bytes_of(&tokens), stream_of(&codes[place + 1..])].concat();
    }
    let whole = bytes_of(&tokens);
    [&before, &whole[..random.below(whole.len() + 1)]].concat()
}

fn is_by_angle(code: &Code) -> bool {
    matches!(code, Code::Controls(_, controls) if is_angle(controls.steering))
}

fn is_angle(steering: Steering) -> bool {
    matches!(steering, Steering::Angle(_))
}

/// From -2 to 2, often an end, a zero or a tiny one; the others often near an end, where each term of the
/// sums is largest.
pub fn good_angle(random: &mut Random) -> f32 {
    match random.below(6) {
        0 | 1 => random.pick(&GOOD),
        2 => random.between(-0.6, 0.6),
        3 => random.between(1.6, 2.0) * random.pick(&[1.0, -1.0]),
        _ => random.between(-2.0, 2.0),
    }
}

/// One that is never stored by a call.
pub fn bad_angle(random: &mut Random) -> f32 {
    random.pick(&BAD)
}

/// The codes so far, and the table after them.
struct Made<'a> {
    random: &'a mut Random,
    codes: Vec<Code>,
    table: Table,
}

/// Angles in most controls, other directions in the adds, other poses in some aims, code 9 in most reads.
fn with_angles(random: &mut Random, codes: Vec<Code>) -> Vec<Code> {
    let mut made = Made { random, codes: Vec::new(), table: Table::new() };
    for code in codes {
        match code {
            Code::Add(wheel) => {
                let wheel = other_wheel(made.random, wheel);
                made.push(Code::Add(wheel));
            }
            Code::Controls(wheel, controls) => made.controls(wheel, controls),
            Code::Aim(chassis) => made.aim(chassis),
            Code::Read(wheel) | Code::ReadSettled(wheel) => {
                let read = a_read(made.random, wheel);
                made.push(read);
            }
            other => made.push(other),
        }
    }
    made.codes
}

impl Made<'_> {
    fn push(&mut self, code: Code) {
        program::call(&mut self.table, &code);
        self.codes.push(code);
    }

    fn by_angle(&mut self, wheel: u32, controls: Controls, angle: f32) {
        self.push(Code::Controls(wheel, Controls { steering: Steering::Angle(angle), ..controls }));
    }

    /// Two in eight are left out where the wheel has an angle already, so that it keeps it; two set both,
    /// one after the other.
    fn controls(&mut self, wheel: u32, controls: Controls) {
        let angle = good_angle(self.random);
        let has_an_angle =
            wheel < self.table.count && is_angle(self.table.row(wheel as usize).steering());
        match self.random.below(8) {
            0 => self.push(Code::Controls(wheel, controls)),
            1 => {
                let (bad, angle_then) = spoilt(self.random, controls, angle);
                self.by_angle(wheel, bad, angle_then);
                self.by_angle(wheel, controls, angle);
            }
            2 => {
                self.push(Code::Controls(wheel, controls));
                self.by_angle(wheel, controls, angle);
            }
            3 => {
                self.by_angle(wheel, controls, angle);
                self.push(Code::Controls(wheel, controls));
            }
            4 | 5 if has_an_angle => (),
            _ => self.by_angle(wheel, controls, angle),
        }
    }

    /// Before some aims one wheel gets an angle more, and some have another rotation. An aim that is
    /// refused with 17 may be tried with a chassis that is refused with 10 before; then the wheels are
    /// steered otherwise, or most of them.
    fn aim(&mut self, chassis: Chassis) {
        if self.table.count > 0 && self.random.once_in(4) {
            let wheel = self.random.below(self.table.count as usize) as u32;
            let angle = good_angle(self.random);
            let controls = self.kept_controls(wheel);
            self.by_angle(wheel, controls, angle);
        }
        let chassis = if self.random.once_in(4) { turned(self.random, chassis) } else { chassis };
        let trial = self.table.clone().aim(&chassis);
        if trial.answer != BAD_TURN {
            self.push(Code::Aim(chassis));
            return;
        }
        if self.random.once_in(2) {
            let unfit = unfit(self.random, chassis);
            self.push(Code::Aim(unfit));
        }
        self.push(Code::Aim(chassis));
        for steer in trial.steers.iter().filter(|steer| !steer.is_fit()) {
            self.steer_otherwise(steer);
        }
        self.push(Code::Aim(chassis));
    }

    /// By a rotation, or by an angle that turns nothing; that helps where there is an axis.
    fn steer_otherwise(&mut self, steer: &Steer) {
        let controls = self.kept_controls(steer.wheel);
        if self.random.once_in(3) {
            self.by_angle(steer.wheel, controls, 0.0);
        } else {
            self.push(Code::Controls(steer.wheel, controls));
        }
    }

    /// The wheel's engine force and brake as they are, beside a rotation.
    fn kept_controls(&mut self, wheel: u32) -> Controls {
        let row = self.table.row(wheel as usize);
        let (engine, brake) = (row.0[row::ENGINE], row.0[row::BRAKE]);
        Controls { engine, brake, steering: Steering::Rotation(rotation(self.random)) }
    }
}

/// Controls with an angle of which one number is refused, mostly the angle.
fn spoilt(random: &mut Random, controls: Controls, angle: f32) -> (Controls, f32) {
    match random.below(8) {
        0 => (Controls { brake: -1.0, ..controls }, angle),
        1 => (Controls { brake: -f32::from_bits(1), ..controls }, angle),
        2 => (Controls { engine: bad_engine(random), ..controls }, angle),
        _ => (controls, bad_angle(random)),
    }
}

/// Refused with 2.
fn bad_engine(random: &mut Random) -> f32 {
    random.pick(&[f32::NAN, f32::INFINITY, 2.0 * MOST])
}

fn turned(random: &mut Random, chassis: Chassis) -> Chassis {
    Chassis { pose: Pose { rotation: rotation(random), ..chassis.pose }, ..chassis }
}

/// A chassis that is refused with 10.
fn unfit(random: &mut Random, chassis: Chassis) -> Chassis {
    if random.once_in(2) {
        return Chassis { inverse_mass: 0.0, ..chassis };
    }
    let [x, y, z, w] = chassis.pose.rotation.parts().map(|part| part * 1.01);
    Chassis { pose: Pose { rotation: Rotation::new(x, y, z, w), ..chassis.pose }, ..chassis }
}

/// Half of the wheels with another direction: of another length, tiny, zero.
fn other_wheel(random: &mut Random, wheel: NewWheel) -> NewWheel {
    let direction = match random.below(20) {
        0 => a_zero(random),
        1 => tiny(random),
        2 | 3 => with_a_rounded_square(random),
        4 | 5 => wheel.direction * random.pick(&[2.0, 4.0, 0.5, 0.001, 1024.0]),
        6 => long(random),
        7 => along_an_axis(random),
        8 | 9 => unit_vector(random),
        _ => wheel.direction,
    };
    NewWheel { direction, ..wheel }
}

/// Parts of some 2^-75 whose squares are a few of the smallest float and are rounded to whole ones: what is
/// made of it is not of unit length.
pub fn with_a_rounded_square(random: &mut Random) -> Vector {
    let unit = f32::from_bits((127 - 75) << 23);
    let mut part = || match random.below(3) {
        0 => 0.0,
        _ => unit * random.between(0.9, 4.0) * random.pick(&[1.0, -1.0]),
    };
    Vector::new(part(), part(), part())
}

/// A wheel whose rotation leaves the band at some angle, brought to that very angle: the last one that is
/// accepted, and the first that is not.
fn ends_of_the_band(random: &mut Random) -> Vec<Code> {
    let size = Size::TAME;
    let mut script = Script::new();
    let direction = with_a_rounded_square(random);
    script.add(NewWheel { direction, ..size.wheel(random) });
    for _ in 0..4 {
        let chassis = size.chassis(random);
        let chassis = turned(random, chassis);
        let controls = size.controls(random);
        let by = |angle: f32| Controls { steering: Steering::Angle(angle), ..controls };
        let Some((last, first)) = last_and_first(random, &script.table, chassis, by) else {
            continue;
        };
        for angle in [last, first, last] {
            script.controls(0, by(angle));
            script.aim(chassis);
        }
        let drive = size.drive(random, 1);
        script.drive(drive);
        script.codes.push(Code::ReadAll(0));
    }
    script.finished()
}

/// Neighbouring angles of which the first is accepted and the second is not.
fn last_and_first(
    random: &mut Random,
    table: &Table,
    chassis: Chassis,
    by: impl Fn(f32) -> Controls,
) -> Option<(f32, f32)> {
    let sign = random.pick(&[1.0, -1.0]);
    let answer = |bits: u32| {
        let mut trial = table.clone();
        trial.set_controls(0, &by(sign * f32::from_bits(bits)));
        trial.aim(&chassis).answer
    };
    let (mut good, mut bad) = (0.0f32.to_bits(), 2.0f32.to_bits());
    if answer(good) != ACCEPTED || answer(bad) != BAD_TURN {
        return None;
    }
    while bad - good > 1 {
        let middle = good + (bad - good) / 2;
        *if answer(middle) == ACCEPTED { &mut good } else { &mut bad } = middle;
    }
    Some((sign * f32::from_bits(good), sign * f32::from_bits(bad)))
}

/// A wheel whose centre lies beyond 2^40 once the chassis has turned, beside one without an axis: 17 comes
/// before 8, whichever stands first. Steered by rotation it leaves the 8.
fn too_large_as_well(random: &mut Random) -> Vec<Code> {
    let size = Size::TAME;
    let mut script = Script::new();
    let far = NewWheel {
        direction: Vector::new(0.0, -MOST, MOST),
        rest_length: 0.0,
        radius: MOST,
        travel: MOST,
        stiffness: 0.0,
        ..size.wheel(random)
    };
    let flat = NewWheel { direction: a_zero(random), ..size.wheel(random) };
    let far_is_first = random.once_in(2);
    let wheels = if far_is_first { [far, flat] } else { [flat, far] };
    for wheel in wheels {
        script.add(wheel);
    }
    let at_rest = Chassis {
        pose: Pose::IDENTITY,
        linear: Vector::ZERO,
        angular: Vector::ZERO,
        ..size.chassis(random)
    };
    script.aim(at_rest);
    let inside =
        Hit { time: 0.0, normal: Vector::new(0.0, 1.0, 0.0), upward_normal: None, body: None };
    let hits = if far_is_first { [Some(inside), None] } else { [None, Some(inside)] };
    script.drive(Drive { dt: 0.0, bodies: Vec::new(), answers: hits.to_vec() });
    // An eighth of a turn about x.
    let eighth = Rotation::new(0.382_683_43, 0.0, 0.0, 0.923_879_5);
    let turned = Chassis { pose: Pose { rotation: eighth, ..Pose::IDENTITY }, ..at_rest };
    let flat_wheel = u32::from(far_is_first);
    let controls = size.controls(random);
    let by_angle = Controls { steering: Steering::Angle(good_angle(random)), ..controls };
    script.controls(flat_wheel, by_angle);
    script.aim(turned);
    script.aim(at_rest);
    script.controls(flat_wheel, controls);
    script.controls(1 - flat_wheel, by_angle);
    script.aim(turned);
    script.aim(at_rest);
    script.drive(Drive { dt: 0.5, bodies: Vec::new(), answers: vec![None; 2] });
    script.read_all();
    script.finished()
}

#[cfg(test)]
mod tests {
    use super::*;

    /// Every code stands in it, and every call is accepted: a cut may fall in each of them.
    #[test]
    fn the_unbroken_stream_has_every_code() {
        let lines = program::run(&unbroken());
        assert!(lines.iter().all(|line| line.answer == 0));
        for code in [0, 1, 2, 3, 4, 5, 6, 8, 9, 10] {
            assert!(lines.iter().any(|line| line.code == code), "code {code}");
        }
    }

    /// What would be refused with 8 is refused with 17 first, and with 8 once it is steered by rotation.
    #[test]
    fn both_refusals_are_reached() {
        for seed in 0..40 {
            let mut table = Table::new();
            let codes = too_large_as_well(&mut Random::new(0, seed));
            let answers: Vec<u32> =
                codes.iter().map(|code| program::call(&mut table, code).answer).collect();
            assert_eq!(answers[..9], [0, 0, 0, 0, 0, 17, 17, 0, 0], "{seed}");
            assert_eq!(answers[9..11], [8, 0], "{seed}");
        }
    }
}
