//! The calls of document 01 over a lent table, with their refusals, written from 01's text.
//!
//! A refusal answers its number, zeros elsewhere, and changes nothing. The tests stand in 01's
//! order, with those of change requests 2026-03 and 2026-11: 1, 3, 4, 5, 6, 2, 12, 10, 17, 7, 8. The
//! steps themselves come from running the Rust source.

use crate::geometry::Ray;
use crate::handed::{Chassis, Controls, Drive, Hit, NewWheel, RayAnswer};
use crate::math::{turn_about, Real, Rotation, Steering, Vector};
use crate::ranges::{
    body_in_range, chassis_in_range, controls_in_range, dt_in_range, lies_between,
    may_be_handed_in, may_be_stored, new_wheel_in_range, normals_in_range, rotation_in_range,
    row_in_range,
};
use crate::row::{self, Row, CHASSIS, ROW, TABLE, WHEELS};
use crate::step::{self, Outcome, Step};

pub const ACCEPTED: u32 = 0;
/// Wrong size, count above 16, unknown mark, axis above 2.
pub const MISSHAPEN: u32 = 1;
/// A number handed in or stored that is not finite or too large.
pub const BAD_NUMBER: u32 = 2;
/// 16 wheels already.
pub const FULL: u32 = 3;
/// Wheel number not below the count.
pub const NO_SUCH_WHEEL: u32 = 4;
/// Drive when not aimed; read when not driven.
pub const WRONG_MOMENT: u32 = 5;
/// Wrong number of answers, over 64 bodies, a bad time, an unlisted body.
pub const BAD_ANSWERS: u32 = 6;
/// A demand or grip limit of a grounded wheel that is NaN or too large.
pub const BAD_DEMAND: u32 = 7;
/// A new stored number or chassis velocity that is NaN or too large.
pub const BAD_RESULT: u32 = 8;
/// Scenario stream malformed.
pub const MALFORMED: u32 = 9;
/// A setting out of its range.
pub const OUT_OF_RANGE: u32 = 10;
/// A normal of the wrong length.
pub const BAD_NORMAL: u32 = 12;
/// An angle with no axis to turn about, or whose rotation lies outside the band.
pub const BAD_TURN: u32 = 17;

/// Ground bodies that a drive may list.
pub const BODIES: usize = 64;

pub const MARK_NEW: u32 = 0;
pub const MARK_AIMED: u32 = 1;
pub const MARK_DRIVEN: u32 = 2;

/// A lent table: the numbers, and beside them the whole numbers. Any contents may be loaded by
/// filling the fields in; `TABLE` numbers are the right size.
#[derive(Clone, Debug, PartialEq)]
pub struct Table {
    /// The kept chassis, then the rows.
    pub numbers: Vec<Real>,
    pub count: u32,
    pub mark: u32,
    pub up: u32,
    pub forward: u32,
}

/// What an aim answers.
#[derive(Clone, Debug, Default, PartialEq)]
pub struct Aimed {
    pub answer: u32,
    pub speed: Real,
    /// Each wheel's hard point and ray.
    pub rays: Vec<(Vector, Vector)>,
    /// No part of the answer: for the tally, of an aim that got as far as refusal 17.
    pub steers: Vec<Steer>,
}

/// What an aim made of a wheel's angle.
#[derive(Copy, Clone, Debug, PartialEq)]
pub struct Steer {
    pub wheel: u32,
    pub angle: Real,
    /// The world direction that the aim worked out.
    pub direction: Vector,
    /// Minus the direction, normalised, and the rotation about it.
    pub axis: Vector,
    pub rotation: Rotation,
}

impl Steer {
    /// Nothing for a wheel that is steered by rotation.
    fn of((wheel, row): (usize, &Row)) -> Option<Steer> {
        let Steering::Angle(angle) = row.steering() else { return None };
        let direction = row.vector(row::WORLD_DIRECTION);
        let axis = (-direction).normalize_or_zero();
        let rotation = turn_about(-direction, angle);
        Some(Steer { wheel: wheel as u32, angle, direction, axis, rotation })
    }

    /// The axis is zero exactly where the normalising fell back, as of rule 7's directions.
    pub fn fell_back(&self) -> bool {
        self.axis == Vector::ZERO
    }

    pub fn in_band(&self) -> bool {
        rotation_in_range(self.rotation)
    }

    /// Refusal 17 has nothing against it.
    pub fn is_fit(&self) -> bool {
        !self.fell_back() && self.in_band()
    }
}

/// What a drive answers, and how it went for each wheel.
#[derive(Clone, Debug, Default, PartialEq)]
pub struct Driven {
    pub answer: u32,
    pub linear: Vector,
    pub angular: Vector,
    pub wake: bool,
    /// No part of the answer: for the tally, and to find the edge of a tyre's grip.
    pub grips: Vec<Grip>,
}

/// A wheel's demand, limit, skid and roll influence in an accepted drive, and what rule 7's directions
/// were made of.
#[derive(Copy, Clone, Debug, Default, PartialEq)]
pub struct Grip {
    pub grounded: bool,
    pub forward: Real,
    pub side: Real,
    pub limit: Real,
    pub skid: Real,
    pub roll_influence: Real,
    pub axle: Vector,
    pub normal: Vector,
    /// Of the axis and of the forward direction, in this drive and as stored before it.
    pub fell_back: [bool; 2],
    pub fell_back_before: [bool; 2],
}

impl Grip {
    /// The slide test: (forward × 0.5)² + side² > limit².
    pub fn slides(&self) -> bool {
        let half = self.forward * 0.5;
        self.grounded && half * half + self.side * self.side > self.limit * self.limit
    }
}

/// What reading a wheel answers.
#[derive(Copy, Clone, Debug, Default, PartialEq)]
pub struct WheelRead {
    pub answer: u32,
    pub center: Vector,
    pub world_direction: Vector,
    pub world_axle: Vector,
    pub suspension_length: Real,
    pub suspension_force: Real,
    pub forward_impulse: Real,
    pub side_impulse: Real,
    pub skid: Real,
    pub rotation: Real,
    /// Change request 2026-02: the source has no such number.
    pub settled: Vector,
    /// Change request 2026-05: rule 7's axis fell back to zero in the last drive.
    pub no_axis: bool,
    /// Its forward direction did.
    pub no_forward: bool,
}

impl Default for Table {
    fn default() -> Self {
        Table::new()
    }
}

impl Table {
    /// A table of the right size, set up with the default axes.
    pub fn new() -> Self {
        Table { numbers: vec![0.0; TABLE], count: 0, mark: MARK_NEW, up: 1, forward: 0 }
    }

    /// Set up: the axes, count 0 and zeros over any contents; mark new.
    pub fn set_up(&mut self, up: u32, forward: u32) -> u32 {
        if self.numbers.len() != TABLE || up > 2 || forward > 2 {
            return MISSHAPEN;
        }
        *self = Table { up, forward, ..Table::new() };
        ACCEPTED
    }

    /// Add a wheel: the mark becomes new.
    pub fn add_wheel(&mut self, wheel: &NewWheel) -> u32 {
        let refusal = self.refuse_add(wheel);
        if refusal == ACCEPTED {
            let row = step::new_row(wheel);
            self.set_row(self.count as usize, &row);
            self.count += 1;
            self.mark = MARK_NEW;
        }
        refusal
    }

    /// Set controls: an aimed mark becomes new; others stay.
    pub fn set_controls(&mut self, wheel: u32, controls: &Controls) -> u32 {
        let refusal = self.refuse_controls(wheel, controls);
        if refusal == ACCEPTED {
            let mut row = self.row(wheel as usize);
            row.0[row::ENGINE] = controls.engine;
            row.0[row::BRAKE] = controls.brake;
            row.set_steering(controls.steering);
            self.set_row(wheel as usize, &row);
            if self.mark == MARK_AIMED {
                self.mark = MARK_NEW;
            }
        }
        refusal
    }

    /// Aim: keeps the chassis, works out the transforms; mark aimed.
    pub fn aim(&mut self, chassis: &Chassis) -> Aimed {
        let refused = |answer| Aimed { answer, ..Aimed::default() };
        let refusal = self.refuse_aim(chassis);
        if refusal != ACCEPTED {
            return refused(refusal);
        }
        let rows = self.rows();
        let Some(aimed) = self.transforms(&rows, chassis) else {
            return refused(BAD_RESULT);
        };
        let steers: Vec<Steer> = aimed.rows.iter().enumerate().filter_map(Steer::of).collect();
        if !steers.iter().all(Steer::is_fit) {
            return Aimed { steers, ..refused(BAD_TURN) };
        }
        let new_rows: Vec<Row> = rows.iter().zip(&aimed.rows).map(with_transforms).collect();
        if !new_rows.iter().all(row_may_be_stored) {
            return Aimed { steers, ..refused(BAD_RESULT) };
        }
        self.store(chassis, &new_rows, MARK_AIMED);
        let ray = |ray: &Ray| (ray.origin, ray.dir);
        let rays = aimed.rays.iter().map(ray).collect();
        Aimed { answer: ACCEPTED, speed: aimed.speed, rays, steers }
    }

    /// Drive: works on the kept chassis and stores its new velocities; mark driven.
    pub fn drive(&mut self, drive: &Drive) -> Driven {
        let refused = |answer| Driven { answer, ..Driven::default() };
        let refusal = self.refuse_drive(drive);
        if refusal != ACCEPTED {
            return refused(refusal);
        }
        let rows = self.rows();
        let chassis = self.chassis();
        let step = Step {
            rows: &rows,
            up: self.up as usize,
            forward: self.forward as usize,
            chassis: &chassis,
            dt: drive.dt,
            bodies: &drive.bodies,
            answers: &drive.answers,
        };
        // The source's one assertion fails exactly where a limit is NaN.
        let Some(demanded) = step::run_demands(&step) else {
            return refused(BAD_DEMAND);
        };
        let mut grips: Vec<Grip> =
            demanded.rows.iter().zip(&drive.answers).map(|wheel| grip(wheel, drive.dt)).collect();
        if !grips.iter().all(grip_is_fit) {
            return refused(BAD_DEMAND);
        }
        let Some(driven) = self.driven(&step) else {
            return refused(BAD_DEMAND);
        };
        let new = Chassis { linear: driven.linear, angular: driven.angular, ..chassis };
        let fit = new.numbers().into_iter().all(may_be_stored);
        if !fit || !driven.rows.iter().all(row_may_be_stored) {
            return refused(BAD_RESULT);
        }
        for ((grip, row), before) in grips.iter_mut().zip(&driven.rows).zip(&rows) {
            grip.skid = row.0[row::SKID];
            grip.fell_back_before = before.fell_back();
        }
        self.store(&new, &driven.rows, MARK_DRIVEN);
        let Outcome { linear, angular, woken, .. } = driven;
        Driven { answer: ACCEPTED, linear, angular, wake: woken, grips }
    }

    /// Read a wheel: only when driven.
    pub fn read_wheel(&self, wheel: u32) -> WheelRead {
        let answer = self.refuse_read(wheel);
        if answer != ACCEPTED {
            return WheelRead { answer, ..WheelRead::default() };
        }
        let row = self.row(wheel as usize);
        let hard_point = row.vector(row::HARD_POINT);
        let along = row.vector(row::WORLD_DIRECTION) * row.0[row::SUSPENSION_LENGTH];
        let [no_axis, no_forward] = row.fell_back();
        WheelRead {
            answer,
            center: row.vector(row::CENTER),
            world_direction: row.vector(row::WORLD_DIRECTION),
            world_axle: row.vector(row::WORLD_AXLE),
            suspension_length: row.0[row::SUSPENSION_LENGTH],
            suspension_force: row.0[row::SUSPENSION_FORCE],
            forward_impulse: row.0[row::FORWARD_IMPULSE],
            side_impulse: row.0[row::SIDE_IMPULSE],
            skid: row.0[row::SKID],
            rotation: row.0[row::ROTATION],
            settled: hard_point + along,
            no_axis,
            no_forward,
        }
    }

    fn refuse_add(&self, wheel: &NewWheel) -> u32 {
        if self.is_misshapen() {
            MISSHAPEN
        } else if self.count as usize >= WHEELS {
            FULL
        } else if !self.numbers_are_fit(&wheel.handed_in()) {
            BAD_NUMBER
        } else if !new_wheel_in_range(wheel) {
            OUT_OF_RANGE
        } else {
            ACCEPTED
        }
    }

    fn refuse_controls(&self, wheel: u32, controls: &Controls) -> u32 {
        if self.is_misshapen() {
            MISSHAPEN
        } else if wheel >= self.count {
            NO_SUCH_WHEEL
        } else if !self.numbers_are_fit(&controls.handed_in()) {
            BAD_NUMBER
        } else if !controls_in_range(controls) {
            OUT_OF_RANGE
        } else {
            ACCEPTED
        }
    }

    fn refuse_aim(&self, chassis: &Chassis) -> u32 {
        if self.is_misshapen() {
            MISSHAPEN
        } else if !self.numbers_are_fit(&chassis.numbers()) {
            BAD_NUMBER
        } else if !chassis_in_range(chassis) || !self.settings_in_range() {
            OUT_OF_RANGE
        } else {
            ACCEPTED
        }
    }

    fn refuse_drive(&self, drive: &Drive) -> u32 {
        if self.is_misshapen() {
            MISSHAPEN
        } else if self.mark != MARK_AIMED {
            WRONG_MOMENT
        } else if !self.answers_are_fit(drive) {
            BAD_ANSWERS
        } else if !self.numbers_are_fit(&numbers_of_drive(drive)) {
            BAD_NUMBER
        } else if !drive.answers.iter().flatten().all(normals_in_range) {
            BAD_NORMAL
        } else if !dt_in_range(drive.dt)
            || !drive.bodies.iter().all(body_in_range)
            || !chassis_in_range(&self.chassis())
            || !self.settings_in_range()
        {
            OUT_OF_RANGE
        } else {
            ACCEPTED
        }
    }

    fn refuse_read(&self, wheel: u32) -> u32 {
        if self.is_misshapen() {
            MISSHAPEN
        } else if wheel >= self.count {
            NO_SUCH_WHEEL
        } else if self.mark != MARK_DRIVEN {
            WRONG_MOMENT
        } else if !self.numbers_are_fit(&[]) {
            BAD_NUMBER
        } else {
            ACCEPTED
        }
    }

    /// Refusal 1 of every call but set-up.
    fn is_misshapen(&self) -> bool {
        self.numbers.len() != TABLE
            || self.count as usize > WHEELS
            || self.mark > MARK_DRIVEN
            || self.up > 2
            || self.forward > 2
    }

    /// Refusal 6 of a drive.
    fn answers_are_fit(&self, drive: &Drive) -> bool {
        let is_listed = |body: u32| (body as usize) < drive.bodies.len();
        let is_fit = |hit: &Hit| lies_between(0.0, hit.time, 1.0) && hit.body.is_none_or(is_listed);
        drive.answers.len() == self.count as usize
            && drive.bodies.len() <= BODIES
            && drive.answers.iter().flatten().all(is_fit)
    }

    /// Refusal 2: the numbers handed in, the kept chassis and the used rows.
    fn numbers_are_fit(&self, handed_in: &[Real]) -> bool {
        let used = CHASSIS + ROW * self.count as usize;
        handed_in.iter().all(|number| may_be_handed_in(*number))
            && self.numbers.iter().take(used).all(|number| may_be_stored(*number))
    }

    /// Refusal 10: every stored setting of the used rows.
    fn settings_in_range(&self) -> bool {
        self.rows().iter().all(row_in_range)
    }

    /// Runs the source on the chassis with rays that hit nothing, for the transforms, speed and
    /// rays of an aim.
    fn transforms(&self, rows: &[Row], chassis: &Chassis) -> Option<Outcome> {
        step::run_as_sent(&Step {
            rows,
            up: self.up as usize,
            forward: self.forward as usize,
            chassis,
            dt: 0.0,
            bodies: &[],
            answers: &vec![None; rows.len()],
        })
    }

    /// Runs the source for a drive. It works the transforms out again; in a table that an aim
    /// wrote they come out as stored, and the file runs as sent. A table of rubbish may hold
    /// others; a drive uses the stored ones, so then the copy runs that leaves them alone.
    fn driven(&self, step: &Step) -> Option<Outcome> {
        let aimed = self.transforms(step.rows, step.chassis)?;
        let as_stored =
            |(row, again): (&Row, &Row)| row.0[row::TRANSFORMS] == again.0[row::TRANSFORMS];
        if step.rows.iter().zip(&aimed.rows).all(as_stored) {
            step::run_as_sent(step)
        } else {
            step::run_stored(step)
        }
    }

    /// The kept chassis. A number that a table of the wrong size does not have reads as 0.
    pub fn chassis(&self) -> Chassis {
        Chassis::from_numbers(self.part(0))
    }

    /// One wheel's row.
    pub fn row(&self, wheel: usize) -> Row {
        Row(self.part(row_start(wheel)))
    }

    fn part<const N: usize>(&self, start: usize) -> [Real; N] {
        std::array::from_fn(|place| self.numbers.get(start + place).copied().unwrap_or(0.0))
    }

    /// Writes one wheel's row.
    pub fn set_row(&mut self, wheel: usize, row: &Row) {
        self.set_part(row_start(wheel), &row.0);
    }

    fn set_part(&mut self, start: usize, numbers: &[Real]) {
        for (kept, number) in self.numbers.iter_mut().skip(start).zip(numbers) {
            *kept = *number;
        }
    }

    fn rows(&self) -> Vec<Row> {
        (0..self.count as usize).map(|wheel| self.row(wheel)).collect()
    }

    fn store(&mut self, chassis: &Chassis, rows: &[Row], mark: u32) {
        self.set_part(0, &chassis.numbers());
        for (wheel, row) in rows.iter().enumerate() {
            self.set_row(wheel, row);
        }
        self.mark = mark;
    }
}

/// Where a wheel's row begins.
fn row_start(wheel: usize) -> usize {
    CHASSIS + ROW * wheel
}

/// The row with the transforms of another: what an aim stores.
fn with_transforms((row, aimed): (&Row, &Row)) -> Row {
    let mut new = *row;
    new.0[row::TRANSFORMS].copy_from_slice(&aimed.0[row::TRANSFORMS]);
    new
}

fn row_may_be_stored(row: &Row) -> bool {
    row.0.iter().all(|number| may_be_stored(*number))
}

/// A wheel's demand and limit, from its row in the copy without a rescale.
fn grip((row, answer): (&Row, &RayAnswer), dt: Real) -> Grip {
    Grip {
        grounded: answer.is_some(),
        forward: row.0[row::FORWARD_IMPULSE],
        side: row.0[row::SIDE_IMPULSE],
        limit: row.0[row::SUSPENSION_FORCE] * dt * row.0[row::SLIP],
        skid: row.0[row::SKID],
        roll_influence: row.0[row::ROLL_INFLUENCE],
        axle: row.vector(row::WORLD_AXLE),
        normal: row.vector(row::CONTACT_NORMAL),
        fell_back: row.fell_back(),
        fell_back_before: [false; 2],
    }
}

/// Refusal 7 looks at grounded wheels.
fn grip_is_fit(grip: &Grip) -> bool {
    !grip.grounded || [grip.forward, grip.side, grip.limit].into_iter().all(may_be_stored)
}

/// Every float that a drive hands in.
fn numbers_of_drive(drive: &Drive) -> Vec<Real> {
    let mut numbers = vec![drive.dt];
    for body in &drive.bodies {
        numbers.extend(body.numbers());
    }
    for hit in drive.answers.iter().flatten() {
        numbers.push(hit.time);
        numbers.extend(hit.normal.parts());
        numbers.extend(hit.upward_normal.unwrap_or(Vector::ZERO).parts());
    }
    numbers
}
