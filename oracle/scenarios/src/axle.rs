//! Wheels without a rolling direction: scenarios of the other kinds in which axles and normals meet, or
//! are too short to have a direction, with most reads by code 9.
//!
//! Every frame hands its chassis in, so that a frame after a drive on other normals is the one that the
//! other kind made.

use vehicle::handed::{Controls, Drive, Hit, NewWheel, RayAnswer};
use vehicle::math::Vector;
use vehicle::program;
use vehicle::row;
use vehicle::stream::Code;
use vehicle::table::{Table, MARK_DRIVEN};

use crate::broken::with_a_fault;
use crate::parts::{a_zero, along_an_axis, MOST};
use crate::random::Random;
use crate::roll::{codes_of, rolled_base};
use crate::script::stream_of;
use crate::{generate, Kind};

/// The kinds whose scenarios are changed, one after the other by seed; `Broken` stands for a stream
/// with a fault.
const BASES: [Kind; 6] = [Kind::Car, Kind::Edge, Kind::Wild, Kind::Bad, Kind::Roll, Kind::Broken];

/// Its square is the tie between 0 and the smallest float, and goes to 0; that of the next float does not.
const LAST_WITHOUT_A_SQUARE: f32 = f32::from_bits((127 - 75) << 23);

/// Lengths of a normal within refusal 12's band, and not 1.
const LENGTHS: [f32; 6] = [
    0.9998,
    1.0002,
    0.9996,
    1.0004,
    f32::from_bits(0x3F7F_FFFF), // the next below 1
    f32::from_bits(0x3F80_0001),
];

pub fn scenario(random: &mut Random, seed: u64) -> Vec<u8> {
    let turn = seed / BASES.len() as u64;
    match BASES[(seed % BASES.len() as u64) as usize] {
        Kind::Broken => with_a_fault(random, turn, axle_base),
        // Of five seeds of `roll` the last has a fault, and the codes of before it may be none.
        Kind::Roll => changed(random, Kind::Roll, turn / 4 * 5 + turn % 4),
        kind => changed(random, kind, turn),
    }
}

fn changed(random: &mut Random, kind: Kind, seed: u64) -> Vec<u8> {
    stream_of(&with_axles(random, codes_of(&generate(kind, seed))))
}

/// The codes that the kind `roll` breaks, with an axle of length zero in the first wheel, and both wheels
/// read by code 9 too.
pub fn axle_base(run: u64) -> Vec<Code> {
    let mut codes = rolled_base(run);
    if let Some(Code::Add(wheel)) = codes.first_mut() {
        wheel.axle = Vector::ZERO;
    }
    let end = codes.pop();
    codes.extend([Code::ReadAll(0), Code::ReadAll(1)]);
    codes.extend(end);
    codes
}

/// Other axles in the adds, other hits in the drives, code 9 in most reads.
fn with_axles(random: &mut Random, codes: Vec<Code>) -> Vec<Code> {
    let mut table = Table::new();
    let mut made = Vec::new();
    for code in codes {
        let code = match code {
            Code::Add(wheel) => Code::Add(other_wheel(random, wheel)),
            Code::Drive(drive) => Code::Drive(other_drive(random, &table, drive)),
            Code::Read(wheel) | Code::ReadSettled(wheel) => a_read(random, wheel),
            other => other,
        };
        if matches!(code, Code::ReadAll(_)) && random.once_in(8) {
            // Controls between a drive and a read leave what the read gives.
            made.extend(same_controls(random, &table));
        }
        program::call(&mut table, &code);
        made.push(code);
    }
    made
}

/// The controls that one wheel of a driven vehicle has, set once more.
fn same_controls(random: &mut Random, table: &Table) -> Option<Code> {
    let wheel = random.below(table.count.max(1) as usize);
    let row = table.row(wheel);
    let (engine, brake) = (row.0[row::ENGINE], row.0[row::BRAKE]);
    let controls = Controls { engine, brake, steering: row.steering() };
    let is_driven = table.mark == MARK_DRIVEN && table.count > 0;
    is_driven.then_some(Code::Controls(wheel as u32, controls))
}

pub fn a_read(random: &mut Random, wheel: u32) -> Code {
    match random.below(8) {
        0 => Code::Read(wheel),
        1 => Code::ReadSettled(wheel),
        _ => Code::ReadAll(wheel),
    }
}

/// Two wheels in three with another axle, one in eight with another direction, which stands in for a zero
/// normal.
fn other_wheel(random: &mut Random, wheel: NewWheel) -> NewWheel {
    let direction = match random.below(24) {
        0 => a_zero(random),
        1 => tiny(random),
        2 => long(random),
        _ => wheel.direction,
    };
    let axle = match random.below(12) {
        0..=3 => wheel.axle,
        4 | 5 => Vector::new(0.0, random.pick(&[1.0, -1.0]), 0.0),
        6 => nearly(random, Vector::new(0.0, 1.0, 0.0)),
        7 => along_an_axis(random) * random.pick(&[MOST, 1024.0, 1.0 / 1024.0, 1.0 / MOST]),
        8 => random.pick(&[direction, -direction]),
        9 => a_zero(random),
        10 => tiny(random),
        _ => long(random),
    };
    NewWheel { axle, direction, ..wheel }
}

/// Parts around the border below which a square underflows: none, some or all of them do.
pub fn tiny(random: &mut Random) -> Vector {
    let mut part = || {
        let border = LAST_WITHOUT_A_SQUARE.to_bits();
        let size = match random.below(6) {
            0 => 0.0,
            1 => f32::from_bits(1 + random.below(0x007F_FFFF) as u32),
            2 | 3 => f32::from_bits(border + random.below(3) as u32 - 1),
            _ => f32::from_bits(border - (5 << 23) + random.below(20 << 23) as u32),
        };
        random.pick(&[size, -size])
    };
    Vector::new(part(), part(), part())
}

/// Parts at the bound of what is handed in, and smaller ones.
pub fn long(random: &mut Random) -> Vector {
    let mut part = || random.pick(&[MOST, -MOST, MOST, MOST / 2.0, 1.0, 0.0]);
    Vector::new(part(), part(), part())
}

/// The vector with one part off by a float or two, by 2^-12 or by about 2^-70.
fn nearly(random: &mut Random, vector: Vector) -> Vector {
    let mut parts = vector.parts();
    let part = &mut parts[random.below(3)];
    *part = match random.below(3) {
        0 if part.abs() > 0.5 => f32::from_bits(part.to_bits() - 2 + random.below(5) as u32),
        1 => *part + random.pick(&[1.0, -1.0]) / 4096.0,
        _ => *part + tiny(random).x,
    };
    Vector::new(parts[0], parts[1], parts[2])
}

/// The drive with other hits for about half of its wheels, so that a wheel without a direction has one in
/// the next frame, or is in the air.
fn other_drive(random: &mut Random, table: &Table, mut drive: Drive) -> Drive {
    for (wheel, answer) in drive.answers.iter_mut().enumerate() {
        let axle = table.row(wheel).vector(row::WORLD_AXLE);
        *answer = other_answer(random, axle, *answer);
    }
    drive
}

fn other_answer(random: &mut Random, axle: Vector, answer: RayAnswer) -> RayAnswer {
    let hit = answer?;
    match random.below(20) {
        0 => None,
        1 | 2 => {
            let time = random.pick(&[0.0, -0.0]);
            Some(Hit { time, normal: a_zero(random), upward_normal: None, ..hit })
        }
        3..=8 => Some(along(random, axle, hit)),
        9 | 10 => Some(Hit { normal: Vector::new(0.0, 1.0, 0.0), ..hit }),
        _ => Some(hit),
    }
}

/// The hit with a normal along the axle or nearly so, of length one or not quite. At time 0 the upward
/// normal is the one that counts.
fn along(random: &mut Random, axle: Vector, hit: Hit) -> Hit {
    let unit = axle.normalize_or_zero();
    if unit == Vector::ZERO {
        return hit;
    }
    let unit = if random.once_in(2) { unit } else { -unit };
    let normal = match random.below(5) {
        0 | 1 => unit,
        2 => nearly(random, unit),
        _ => unit * random.pick(&LENGTHS),
    };
    match hit.upward_normal {
        Some(_) if hit.time == 0.0 => Hit { upward_normal: Some(-normal), ..hit },
        _ => Hit { normal, ..hit },
    }
}
