//! Tables of any contents with a few calls on them: demand 2 holds from every stored state.

use vehicle::handed::{Controls, Drive, Hit};
use vehicle::math::{Steering, Vector};
use vehicle::row::{self, Row, ROW, TABLE, WHEELS};
use vehicle::stream::{bytes_of, table_tokens, Code};
use vehicle::table::{Table, MARK_AIMED};

use crate::axle::{a_read, long, tiny};
use crate::parts::{a_zero, along_an_axis, rotation, Size, MOST};
use crate::random::Random;
use crate::roll::{bad_roll, good_roll, rolled};
use crate::steer::{bad_angle, good_angle, with_a_rounded_square};

/// 2^40: the greatest number that may be stored.
const MOST_STORED: f32 = 1_099_511_627_776.0;

/// A ray that starts inside the ground.
const INSIDE: Hit = Hit { time: 0.0, normal: Vector::ZERO, upward_normal: None, body: None };

/// A table and the codes to run on it.
pub struct Rubbish {
    pub table: Table,
    pub codes: Vec<Code>,
}

/// The table and codes of this seed.
pub fn rubbish(seed: u64) -> Rubbish {
    let mut random = Random::new(77, seed);
    if seed % 4 == 3 {
        return driven_at_once(&mut random);
    }
    if seed % 8 == 1 {
        return aimed_twice(&mut random);
    }
    let table = table(&mut random);
    let codes = codes(&mut random, &table);
    Rubbish { table, codes }
}

/// Transforms of any kind, which a drive works on where no aim came before it, and reads of what it said.
fn driven_at_once(random: &mut Random) -> Rubbish {
    let mut table = filled(random, Size::TAME);
    table.mark = MARK_AIMED;
    let wheels = table.count as usize;
    let mut drive = Size::TAME.drive(random, wheels);
    for answer in &mut drive.answers {
        if !random.once_in(8) {
            *answer = Some(INSIDE);
        }
    }
    let mut codes = vec![Code::Drive(drive)];
    codes.extend((0..table.count).map(Code::ReadAll));
    codes.push(Code::End);
    Rubbish { table, codes }
}

/// Steering of any kind, which two aims of other chassis work on, with a drive and reads behind them.
fn aimed_twice(random: &mut Random) -> Rubbish {
    let size = Size::TAME;
    let table = filled(random, size);
    let mut codes = vec![Code::Aim(size.chassis(random)), Code::Aim(size.chassis(random))];
    codes.push(Code::Drive(size.drive(random, table.count as usize)));
    codes.extend((0..table.count).map(Code::ReadAll));
    codes.push(Code::End);
    Rubbish { table, codes }
}

impl Rubbish {
    /// Both as `oracle --state` reads them.
    pub fn stream(&self) -> Vec<u8> {
        let mut tokens = table_tokens(&self.table);
        tokens.extend(self.codes.iter().flat_map(Code::tokens));
        bytes_of(&tokens)
    }
}

fn table(random: &mut Random) -> Table {
    let size = Size::any(random);
    let mut table = filled(random, size);
    if random.once_in(3) {
        spoil(random, &mut table);
    }
    table
}

/// A table of numbers of this size that most calls accept.
fn filled(random: &mut Random, size: Size) -> Table {
    let mut table = Table::new();
    table.count = random.below(5) as u32;
    table.mark = random.pick(&[0, 1, 1, 1, 2, 2]);
    table.up = random.below(3) as u32;
    table.forward = random.below(3) as u32;
    table.numbers = (0..TABLE).map(|_| size.number(random)).collect();
    let chassis = size.chassis(random).numbers();
    table.numbers[..chassis.len()].copy_from_slice(&chassis);
    for wheel in 0..table.count as usize {
        fit_settings(random, size, &mut table, wheel);
    }
    for wheel in 0..WHEELS {
        let mut row = table.row(wheel);
        fill_fall_backs(random, &mut row);
        table.set_row(wheel, &row);
    }
    table
}

/// Settings in their ranges, so that most calls get past refusal 10.
fn fit_settings(random: &mut Random, size: Size, table: &mut Table, wheel: usize) {
    let mut row = table.row(wheel);
    for place in (row::REST_LENGTH..=row::MAX_FORCE).chain([row::BRAKE]) {
        row.0[place] = row.0[place].abs();
    }
    if row.0[row::RADIUS] == 0.0 {
        row.0[row::RADIUS] = 1.0;
    }
    if random.once_in(3) {
        // Stored numbers may be larger than any that is handed in.
        let place = random.below(ROW);
        row.0[place] = size.number(random) * 65_536.0;
    }
    row.0[row::ROLL_INFLUENCE] =
        if random.once_in(24) { bad_roll(random) } else { good_roll(random) };
    fill_steering(random, size, &mut row);
    if random.once_in(4) {
        odd_direction(random, &mut row);
    }
    if random.once_in(2) {
        odd_transforms(random, &mut row);
    }
    table.set_row(wheel, &row);
}

/// A rotation or an angle, most of them in their range, as no control stores them: any number but 0 says
/// that it is an angle, and the other of the two may hold anything.
fn fill_steering(random: &mut Random, size: Size, row: &mut Row) {
    let least = f32::from_bits(1);
    let is_bad = random.once_in(24);
    if random.once_in(2) {
        let kept = rotation(random).parts();
        let factor = if is_bad { random.pick(&[1.01, 0.99, 0.0]) } else { 1.0 };
        row.0[row::STEERING..row::ANGLE].copy_from_slice(&kept.map(|part| part * factor));
        row.0[row::ANGLE] = random.pick(&[0.0, 1.0, 3.0, -MOST, MOST_STORED]);
        row.0[row::KIND] = random.pick(&[0.0, -0.0]);
    } else {
        for part in &mut row.0[row::STEERING..row::ANGLE] {
            let number = size.number(random);
            *part = random.pick(&[0.0, number, -MOST_STORED]);
        }
        row.0[row::ANGLE] = if is_bad { bad_angle(random) } else { good_angle(random) };
        row.0[row::KIND] = random.pick(&[1.0, 1.0, -1.0, -3.5, 0.5, least, -least, MOST_STORED]);
    }
    if random.once_in(48) {
        row.0[row::STEERED][random.below(6)] = f32::NAN;
    }
}

/// A direction that an angle may have no axis along.
fn odd_direction(random: &mut Random, row: &mut Row) {
    let direction = match random.below(6) {
        0 => a_zero(random),
        1 => tiny(random),
        2 => long(random) * (MOST_STORED / MOST),
        3 => along_an_axis(random),
        _ => with_a_rounded_square(random),
    };
    row.0[row::DIRECTION..][..3].copy_from_slice(&direction.parts());
}

/// What fell back, as no drive stores it: a read takes any number but 0 for a yes.
fn fill_fall_backs(random: &mut Random, row: &mut Row) {
    for place in [row::NO_AXIS, row::NO_FORWARD] {
        let least = f32::from_bits(1);
        row.0[place] =
            random.pick(&[0.0, -0.0, 1.0, 1.0, -1.0, 7.0, 0.5, least, -least, MOST_STORED]);
    }
}

/// A world direction, which stands in for a zero normal, and a world axle that may have no direction beside
/// it. No aim stores the long ones: what is left of the axle has squares that overflow.
fn odd_transforms(random: &mut Random, row: &mut Row) {
    let mut odd = || match random.below(4) {
        0 => tiny(random),
        1 => along_an_axis(random),
        2 => Vector::ZERO,
        _ => long(random) * (MOST_STORED / MOST),
    };
    let direction = odd();
    let axle = odd();
    let axle = if random.once_in(4) { direction } else { axle };
    row.0[row::WORLD_DIRECTION..][..3].copy_from_slice(&direction.parts());
    row.0[row::WORLD_AXLE..][..3].copy_from_slice(&axle.parts());
}

/// A whole number that is not known, or a stored number that is bad.
fn spoil(random: &mut Random, table: &mut Table) {
    match random.below(8) {
        0 => table.count = random.pick(&[16, 17, 255, u32::MAX]),
        1 => table.mark = random.pick(&[3, 4, u32::MAX]),
        2 => table.up = random.pick(&[3, u32::MAX]),
        3 => table.forward = random.pick(&[3, u32::MAX]),
        _ => {
            let place = random.below(row::CHASSIS + ROW * 4);
            table.numbers[place] = random.pick(&[
                f32::NAN,
                f32::INFINITY,
                MOST_STORED,
                -MOST_STORED,
                f32::from_bits(MOST_STORED.to_bits() + 1),
                -1.0,
                0.0,
            ]);
        }
    }
}

/// The drive with about half of its rays cast from inside the ground: the direction stands in for the
/// normal.
fn from_inside(random: &mut Random, mut drive: Drive) -> Drive {
    for hit in drive.answers.iter_mut().flatten() {
        if random.once_in(2) {
            *hit = Hit { body: hit.body, ..INSIDE };
        }
    }
    drive
}

/// Half of them by angle.
fn controls(random: &mut Random, size: Size) -> Controls {
    let controls = size.controls(random);
    let steering = match random.below(8) {
        0..=3 => controls.steering,
        4 => Steering::Angle(bad_angle(random)),
        _ => Steering::Angle(good_angle(random)),
    };
    Controls { steering, ..controls }
}

fn codes(random: &mut Random, table: &Table) -> Vec<Code> {
    let size = Size::any(random);
    let mut codes = Vec::new();
    for _ in 0..1 + random.below(3) {
        let wheel = random.below(5) as u32;
        let wheels = (table.count as usize).min(row::WHEELS);
        codes.push(match random.below(9) {
            0 => {
                let wheel = size.wheel(random);
                Code::Add(rolled(random, wheel))
            }
            1 => Code::Controls(wheel, controls(random, size)),
            2 | 3 => Code::Aim(size.chassis(random)),
            4 => Code::Drive(size.drive(random, wheels)),
            5 => {
                let drive = size.drive(random, wheels);
                Code::Drive(from_inside(random, drive))
            }
            6 => Code::Drive(Drive { dt: 0.0, bodies: vec![], answers: vec![None; wheels] }),
            _ => a_read(random, wheel),
        });
    }
    codes.push(Code::End);
    codes
}
