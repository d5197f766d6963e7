//! Rules 1 to 10 once more, written from document 01's text alone, against the Rust source's own
//! steps: where the two differed, the text and the source would not say the same.

use scenarios::{generate, rubbish, Kind};
use vehicle::handed::{Chassis, Controls, Drive, GroundBody, Hit, NewWheel};
use vehicle::math::{Inertia, Rotation, Steering, Vector};
use vehicle::program::call;
use vehicle::row::{self, Row};
use vehicle::stream::{Code, Reader};
use vehicle::table::{Table, ACCEPTED, BAD_RESULT, BAD_TURN};
use vehicle::utils::inv;

/// The table after a call that is accepted.
fn by_the_rules(table: &Table, code: &Code) -> Option<Table> {
    match code {
        Code::Add(wheel) => Some(add(table, wheel)),
        Code::Controls(wheel, controls) => Some(set(table, *wheel as usize, controls)),
        Code::Aim(chassis) => Some(aim(table, chassis)),
        Code::Drive(drive) => Some(Driving::new(table, drive).run()),
        _ => None,
    }
}

fn put(row: &mut Row, place: usize, vector: Vector) {
    row.0[place..place + 3].copy_from_slice(&vector.parts());
}

/// "A new row holds what was handed in, direction and axle also as the world ones, identity steering,
/// 0 elsewhere." Change request 2026-07: code 1 means 0.1. Change request 2026-11: the angle and its kind
/// are 0 too.
fn add(table: &Table, wheel: &NewWheel) -> Table {
    let mut row = Row::ZERO;
    let first = row::CONNECTION_POINT;
    row.0[first..first + NewWheel::NUMBERS].copy_from_slice(&wheel.numbers());
    row.0[first + NewWheel::NUMBERS] = wheel.roll_influence.unwrap_or(0.1);
    put(&mut row, row::WORLD_DIRECTION, wheel.direction);
    put(&mut row, row::WORLD_AXLE, wheel.axle);
    row.0[row::STEERING + 3] = 1.0;
    let mut after = table.clone();
    after.set_row(table.count as usize, &row);
    after.count += 1;
    after.mark = 0;
    after
}

/// "Set controls (engine, brake, steering): an aimed mark becomes new; others stay." Change request 2026-11:
/// "The row keeps the last control given, angle or rotation."
fn set(table: &Table, wheel: usize, controls: &Controls) -> Table {
    let mut row = table.row(wheel);
    let steered = match controls.steering {
        Steering::Rotation(Rotation { x, y, z, w }) => [x, y, z, w, 0.0, 0.0],
        Steering::Angle(angle) => [0.0, 0.0, 0.0, 1.0, angle, 1.0],
    };
    row.0[row::ENGINE] = controls.engine;
    row.0[row::BRAKE] = controls.brake;
    row.0[row::BRAKE + 1..row::RELATIVE_VELOCITY].copy_from_slice(&steered);
    let mut after = table.clone();
    after.set_row(wheel, &row);
    after.mark = if table.mark == 1 { 0 } else { table.mark };
    after
}

/// One in the units of the Taylor sums of change request 2026-11.
const UNIT: u128 = 1 << 30;

/// 1 − s/(k·(k+1)) · (the same for k + 2), up to the twelfth power, each time up to the next whole unit.
fn taylor(square: u128, k: u128) -> u128 {
    if k > 11 {
        return UNIT;
    }
    let below = UNIT * k * (k + 1);
    (UNIT * below - square * taylor(square, k + 2)).div_ceil(below)
}

/// The same as the nearest float. The half angle's units come from its bits: it is its fraction times a
/// power of two.
fn taylor_of(half: f32, k: u128) -> f32 {
    let exponent = half.abs().to_bits() >> 23;
    let fraction = u128::from(half.to_bits() & 0x7F_FFFF | u32::from(exponent > 0) << 23);
    // The fraction counts in 2^(exponent − 150), a unit is 2^-30; the exponent of 1 is 127.
    let units = (fraction << 7) >> (127 - exponent.max(1));
    taylor(units * units / UNIT, k) as f32 / UNIT as f32
}

/// Change request 2026-11: "turn about minus the wheel's world direction, made unit length, at each aim".
/// Nothing where the normalising falls back.
fn by_angle(angle: f32, direction: Vector) -> Option<Rotation> {
    let half = angle * 0.5;
    let r = 1.0 / direction.dot(direction).sqrt();
    let axis = if falls_back(direction) { None } else { Some(-direction * r) };
    let Vector { x, y, z } = axis? * (half * taylor_of(half, 2));
    Some(Rotation::new(x, y, z, taylor_of(half, 1)))
}

/// Change request 2026-11: "at aim, an axis whose normalising falls back to zero, or a rotation so made
/// outside 01's band, is 17".
fn has_a_bad_turn(table: &Table, chassis: &Chassis) -> bool {
    let rows = (0..table.count as usize).map(|wheel| table.row(wheel));
    rows.filter(|row| row.0[row::KIND] != 0.0).any(|row| {
        let direction = chassis.pose.rotation * row.vector(row::DIRECTION);
        by_angle(row.0[row::ANGLE], direction).is_none_or(|Rotation { x, y, z, w }| {
            let sum = x * x + y * y + z * z + w * w;
            !(1.0 - 1.0 / 1024.0..=1.0 + 1.0 / 1024.0).contains(&sum)
        })
    })
}

/// The rotation that counts. Only an aim that is refused has an angle and no axis.
fn steering(row: &Row, direction: Vector) -> Rotation {
    let [x, y, z, w] = [0, 1, 2, 3].map(|part| row.0[row::STEERING + part]);
    if row.0[row::KIND] == 0.0 {
        return Rotation::new(x, y, z, w);
    }
    by_angle(row.0[row::ANGLE], direction).unwrap_or(Rotation::IDENTITY)
}

/// Rule 1.
fn aim(table: &Table, chassis: &Chassis) -> Table {
    let mut after = table.clone();
    after.mark = 1;
    after.numbers[..row::CHASSIS].copy_from_slice(&chassis.numbers());
    for wheel in 0..table.count as usize {
        let mut row = table.row(wheel);
        let turn = chassis.pose.rotation;
        let hard_point = &chassis.pose * row.vector(row::CONNECTION_POINT);
        let direction = turn * row.vector(row::DIRECTION);
        let axle = steering(&row, direction) * (turn * row.vector(row::AXLE));
        let center = hard_point + direction * row.0[row::SUSPENSION_LENGTH];
        put(&mut row, row::HARD_POINT, hard_point);
        put(&mut row, row::CENTER, center);
        put(&mut row, row::WORLD_DIRECTION, direction);
        put(&mut row, row::WORLD_AXLE, axle);
        after.set_row(wheel, &row);
    }
    after
}

/// A body as rules 7 and 9 see it.
#[derive(Copy, Clone)]
struct Body {
    center: Vector,
    linear: Vector,
    angular: Vector,
    inverse_mass: f32,
    inertia: Inertia,
}

impl Body {
    fn of_chassis(chassis: &Chassis) -> Body {
        Body {
            center: chassis.center_of_mass,
            linear: chassis.linear,
            angular: chassis.angular,
            inverse_mass: chassis.inverse_mass,
            inertia: chassis.inertia(),
        }
    }

    fn of_ground(body: &GroundBody) -> Body {
        Body {
            center: body.center_of_mass,
            linear: body.linear,
            angular: body.angular,
            inverse_mass: body.inverse_mass,
            inertia: Inertia::from_parts(body.inverse_inertia),
        }
    }

    fn velocity_at(&self, point: Vector) -> Vector {
        self.linear + self.angular.cross(point - self.center)
    }

    /// |I(d × axis)|².
    fn turn_square(&self, point: Vector, axis: Vector) -> f32 {
        let turned = self.inertia * (point - self.center).cross(axis);
        turned.dot(turned)
    }

    /// Inverse mass + n·((I(d×n))×d).
    fn denominator(&self, point: Vector, n: Vector) -> f32 {
        let d = point - self.center;
        self.inverse_mass + n.dot((self.inertia * d.cross(n)).cross(d))
    }
}

struct Driving<'a> {
    drive: &'a Drive,
    table: Table,
    rows: Vec<Row>,
    kept: Chassis,
    chassis: Body,
}

impl<'a> Driving<'a> {
    fn new(table: &Table, drive: &'a Drive) -> Self {
        let kept = table.chassis();
        Driving {
            drive,
            table: table.clone(),
            rows: (0..table.count as usize).map(|wheel| table.row(wheel)).collect(),
            kept,
            chassis: Body::of_chassis(&kept),
        }
    }

    fn run(mut self) -> Table {
        for wheel in 0..self.rows.len() {
            self.contact(wheel);
        }
        for wheel in 0..self.rows.len() {
            self.force(wheel);
        }
        for wheel in 0..self.rows.len() {
            self.spring_impulse(wheel);
        }
        let directions: Vec<(Vector, Vector)> =
            (0..self.rows.len()).map(|wheel| self.directions(wheel)).collect();
        for wheel in 0..self.rows.len() {
            self.fall_backs(wheel);
        }
        for (wheel, directions) in directions.iter().enumerate() {
            self.demands(wheel, *directions);
        }
        for wheel in 0..self.rows.len() {
            self.slide(wheel);
        }
        for (wheel, directions) in directions.iter().enumerate() {
            self.friction_impulses(wheel, *directions);
        }
        for wheel in 0..self.rows.len() {
            self.spin(wheel);
        }
        let Body { linear, angular, .. } = self.chassis;
        let new = Chassis { linear, angular, ..self.kept };
        let mut table = self.table;
        table.numbers[..row::CHASSIS].copy_from_slice(&new.numbers());
        for (wheel, row) in self.rows.iter().enumerate() {
            table.set_row(wheel, row);
        }
        table.mark = 2;
        table
    }

    /// Rules 3 to 5.
    fn contact(&mut self, wheel: usize) {
        let row = &mut self.rows[wheel];
        let direction = row.vector(row::WORLD_DIRECTION);
        let source = row.vector(row::HARD_POINT);
        let (rest, radius) = (row.0[row::REST_LENGTH], row.0[row::RADIUS]);
        let travel = row.0[row::TRAVEL];
        let ray = direction * (rest + radius);
        let Some(hit) = self.drive.answers[wheel] else {
            put(row, row::CONTACT_POINT, source + ray);
            put(row, row::CONTACT_NORMAL, -direction);
            row.0[row::SUSPENSION_LENGTH] = rest;
            row.0[row::RELATIVE_VELOCITY] = 0.0;
            row.0[row::CLIPPED_INVERSE] = 1.0;
            return;
        };
        let normal = ground_normal(&hit, direction);
        let length = hit.time * (rest + radius) - radius;
        let length = length.max(rest - travel).min(rest + travel);
        let point = source + ray * hit.time;
        let dot = normal.dot(direction);
        let (velocity, inverse) = if dot >= -0.1 {
            (0.0, 1.0 / 0.1)
        } else {
            let inverse = -1.0 / dot;
            (normal.dot(self.chassis.velocity_at(point)) * inverse, inverse)
        };
        put(row, row::CONTACT_POINT, point);
        put(row, row::CONTACT_NORMAL, normal);
        row.0[row::SUSPENSION_LENGTH] = length;
        row.0[row::RELATIVE_VELOCITY] = velocity;
        row.0[row::CLIPPED_INVERSE] = inverse;
    }

    /// Rule 6, the force.
    fn force(&mut self, wheel: usize) {
        let grounded = self.grounded(wheel);
        let row = &mut self.rows[wheel];
        let velocity = row.0[row::RELATIVE_VELOCITY];
        let damping = if velocity < 0.0 { row.0[row::COMPRESSION] } else { row.0[row::RELAXATION] };
        let pressed = row.0[row::REST_LENGTH] - row.0[row::SUSPENSION_LENGTH];
        let spring = row.0[row::STIFFNESS] * pressed * row.0[row::CLIPPED_INVERSE];
        let force = (spring - damping * velocity) * inv(self.chassis.inverse_mass);
        row.0[row::SUSPENSION_FORCE] = if grounded && force > 0.0 { force } else { 0.0 };
    }

    /// Rule 6, the impulse.
    fn spring_impulse(&mut self, wheel: usize) {
        let row = self.rows[wheel];
        let force = row.0[row::SUSPENSION_FORCE];
        let most = row.0[row::MAX_FORCE];
        let cut = if force > most { most } else { force };
        let impulse = row.vector(row::CONTACT_NORMAL) * cut * self.drive.dt;
        self.apply(impulse, row.vector(row::CONTACT_POINT));
    }

    /// Rule 7: the axis and the forward direction.
    fn directions(&self, wheel: usize) -> (Vector, Vector) {
        let row = &self.rows[wheel];
        let axle = row.vector(row::WORLD_AXLE);
        let normal = row.vector(row::CONTACT_NORMAL);
        let axis = (axle - normal * axle.dot(normal)).normalize_or_zero();
        (axis, normal.cross(axis).normalize_or_zero())
    }

    /// Change request 2026-05: "Yes holds exactly where the fall-back was used; both are no for an airborne
    /// wheel. The row keeps them as 1 or 0".
    fn fall_backs(&mut self, wheel: usize) {
        let grounded = self.grounded(wheel);
        let row = &mut self.rows[wheel];
        let axle = row.vector(row::WORLD_AXLE);
        let normal = row.vector(row::CONTACT_NORMAL);
        let left = axle - normal * axle.dot(normal);
        let crossed = normal.cross(left.normalize_or_zero());
        let kept = |vector| if grounded && falls_back(vector) { 1.0 } else { 0.0 };
        row.0[row::NO_AXIS] = kept(left);
        row.0[row::NO_FORWARD] = kept(crossed);
    }

    /// Rule 7: both demands.
    fn demands(&mut self, wheel: usize, (axis, forward): (Vector, Vector)) {
        let demands = self.drive.answers[wheel].map(|hit| {
            (self.rolling_demand(wheel, forward, &hit), self.side_demand(wheel, axis, &hit))
        });
        let (rolling, side) = demands.unwrap_or((0.0, 0.0));
        self.rows[wheel].0[row::FORWARD_IMPULSE] = rolling;
        self.rows[wheel].0[row::SIDE_IMPULSE] = side;
    }

    fn named(&self, hit: &Hit) -> Option<&GroundBody> {
        hit.body.and_then(|body| self.drive.bodies.get(body as usize))
    }

    fn side_demand(&self, wheel: usize, axis: Vector, hit: &Hit) -> f32 {
        let row = &self.rows[wheel];
        let point = row.vector(row::CONTACT_POINT);
        let ground = self.named(hit).filter(|body| body.dynamic).map(Body::of_ground);
        let mut u = self.chassis.velocity_at(point);
        let mut sum = self.chassis.inverse_mass;
        if let Some(ground) = &ground {
            u -= ground.velocity_at(point);
            sum += ground.inverse_mass;
        }
        sum += self.chassis.turn_square(point, axis);
        if let Some(ground) = &ground {
            sum += ground.turn_square(point, axis);
        }
        (-0.2 * axis.dot(u)) * inv(sum) * row.0[row::SIDE_STIFFNESS]
    }

    fn rolling_demand(&self, wheel: usize, forward: Vector, hit: &Hit) -> f32 {
        let row = &self.rows[wheel];
        let engine = row.0[row::ENGINE];
        if engine != 0.0 {
            return engine * self.drive.dt;
        }
        let point = row.vector(row::CONTACT_POINT);
        let mut u = self.chassis.velocity_at(point);
        let mut sum = self.chassis.denominator(point, forward);
        if let Some(ground) = self.named(hit).map(Body::of_ground) {
            u -= ground.velocity_at(point);
            sum += ground.denominator(point, forward);
        }
        let grounded = self.drive.answers.iter().flatten().count() as f32;
        let brake = row.0[row::BRAKE];
        let uncut = -forward.dot(u) * (1.0 / sum) / grounded;
        uncut.clamp(-brake.abs(), brake.abs())
    }

    /// Rule 8.
    fn slide(&mut self, wheel: usize) {
        let grounded = self.grounded(wheel);
        let dt = self.drive.dt;
        let row = &mut self.rows[wheel];
        row.0[row::SKID] = 1.0;
        if !grounded {
            return;
        }
        let (forward, side) = (row.0[row::FORWARD_IMPULSE], row.0[row::SIDE_IMPULSE]);
        let limit = row.0[row::SUSPENSION_FORCE] * dt * row.0[row::SLIP];
        let left = (forward * 0.5) * (forward * 0.5) + side * side;
        if left > limit * limit {
            let skid = limit * inv(left.sqrt());
            row.0[row::SKID] = skid;
            if skid < 1.0 {
                row.0[row::FORWARD_IMPULSE] = forward * skid;
                row.0[row::SIDE_IMPULSE] = side * skid;
            }
        }
    }

    /// Rule 9.
    fn friction_impulses(&mut self, wheel: usize, (axis, forward): (Vector, Vector)) {
        if !self.grounded(wheel) {
            return;
        }
        let row = self.rows[wheel];
        let point = row.vector(row::CONTACT_POINT);
        self.apply(forward * row.0[row::FORWARD_IMPULSE], point);
        let mut up_axis = [0.0; 3];
        up_axis[self.table.up as usize] = 1.0;
        let up = self.kept.pose.rotation * Vector::new(up_axis[0], up_axis[1], up_axis[2]);
        let lift = up.dot(point - self.chassis.center) * (1.0 - row.0[row::ROLL_INFLUENCE]);
        self.apply(axis * row.0[row::SIDE_IMPULSE], point - up * lift);
    }

    /// Rule 10.
    fn spin(&mut self, wheel: usize) {
        let grounded = self.grounded(wheel);
        let row = &mut self.rows[wheel];
        let mut spin = row.0[row::DELTA_ROTATION];
        if grounded {
            let normal = row.vector(row::CONTACT_NORMAL);
            let rolling = normal.cross(row.vector(row::WORLD_AXLE)).normalize_or_zero();
            let velocity = self.chassis.velocity_at(row.vector(row::HARD_POINT));
            spin = rolling.dot(velocity) * self.drive.dt / row.0[row::RADIUS];
        }
        row.0[row::ROTATION] += spin;
        row.0[row::DELTA_ROTATION] = spin * 0.99;
    }

    fn grounded(&self, wheel: usize) -> bool {
        self.drive.answers[wheel].is_some()
    }

    fn apply(&mut self, impulse: Vector, point: Vector) {
        let turn = self.chassis.inertia * (point - self.chassis.center).cross(impulse);
        let masses = self.kept.effective_inverse_masses;
        self.chassis.linear += impulse.times_parts(masses);
        self.chassis.angular += turn;
    }
}

/// "Normalise: r = 1/length; the vector times r if r is finite and above 0, else zero": whether it is the
/// latter. The source's vectors do not say so but by being zero.
fn falls_back(vector: Vector) -> bool {
    let r = 1.0 / vector.dot(vector).sqrt();
    !(r.is_finite() && r > 0.0)
}

/// Rule 3.
fn ground_normal(hit: &Hit, direction: Vector) -> Vector {
    if hit.time != 0.0 {
        return hit.normal;
    }
    let normal = hit.upward_normal.map_or(hit.normal, |upward| -upward);
    if normal == Vector::ZERO {
        -direction
    } else {
        normal
    }
}

/// Bits with both zeros equal.
fn bits(table: &Table) -> Vec<u32> {
    let whole = [table.count, table.mark, table.up, table.forward];
    let numbers = table.numbers.iter().map(|number| (number + 0.0).to_bits());
    whole.into_iter().chain(numbers).collect()
}

/// Runs the codes and holds every accepted add, control, aim and drive against the rules, and of each aim
/// that was tested for it whether it is refused with 17. Gives the number of those accepted.
fn hold(mut table: Table, codes: &[Code], what: &str) -> usize {
    let mut held = 0;
    for code in codes {
        let before = table.clone();
        let answer = call(&mut table, code).answer;
        if let (Code::Aim(chassis), ACCEPTED | BAD_TURN | BAD_RESULT) = (code, answer) {
            let is_bad = has_a_bad_turn(&before, chassis);
            assert_eq!(answer == BAD_TURN, is_bad, "{what}: {code:?}");
        }
        if answer != ACCEPTED {
            continue;
        }
        if let Some(expected) = by_the_rules(&before, code) {
            assert_eq!(bits(&table), bits(&expected), "{what}: {code:?}");
            held += 1;
        }
    }
    held
}

fn codes_of(stream: &[u8]) -> Vec<Code> {
    let mut reader = Reader::new(stream);
    std::iter::from_fn(|| reader.code().ok().filter(|code| *code != Code::End)).collect()
}

#[test]
fn scenarios_follow_the_rules() {
    let mut held = 0;
    for kind in Kind::ALL {
        for seed in 0..300 {
            let codes = codes_of(&generate(kind, seed));
            held += hold(Table::new(), &codes, &format!("{} {seed}", kind.name()));
        }
    }
    assert!(held > 10_000, "{held}");
}

#[test]
fn tables_of_rubbish_follow_the_rules() {
    let mut held = 0;
    for seed in 0..4000 {
        let scenarios::Rubbish { table, codes } = rubbish(seed);
        held += hold(table, &codes, &format!("rubbish {seed}"));
    }
    assert!(held > 1000, "{held}");
}

/// What the accepted drives of these codes said of their wheels: neither direction fell back, the forward
/// one alone, both, the axis alone.
fn said(mut table: Table, codes: &[Code]) -> [usize; 4] {
    let mut counts = [0; 4];
    for code in codes {
        let line = call(&mut table, code);
        let (Code::Drive(_), ACCEPTED) = (code, line.answer) else { continue };
        for wheel in 0..table.count as usize {
            let place = match table.row(wheel).0[row::NO_AXIS..] {
                [0.0, 0.0] => 0,
                [0.0, 1.0] => 1,
                [1.0, 1.0] => 2,
                [1.0, 0.0] => 3,
                ref other => panic!("a drive stored {other:?}"),
            };
            counts[place] += 1;
        }
    }
    counts
}

/// What is held above is held of each answer, and an axis alone never falls back: the normal crossed with
/// zero is zero.
#[test]
fn drives_say_what_fell_back() {
    let streams = (0..300).map(|seed| (Table::new(), codes_of(&generate(Kind::Axle, seed))));
    let tables = (0..4000).map(rubbish).map(|scenarios::Rubbish { table, codes }| (table, codes));
    let total = |counts: [usize; 4], (table, codes): (Table, Vec<Code>)| {
        let more = said(table, &codes);
        [0, 1, 2, 3].map(|place| counts[place] + more[place])
    };
    for counts in [streams.fold([0; 4], total), tables.fold([0; 4], total)] {
        assert!(counts[..3].iter().all(|count| *count > 100), "{counts:?}");
        assert_eq!(counts[3], 0);
    }
}

/// What is held above is held of many angles: those of accepted aims, and those of aims that were refused
/// with 17.
#[test]
fn aims_by_angle_are_held() {
    let streams = (0..300).map(|seed| (Table::new(), codes_of(&generate(Kind::Steer, seed))));
    let tables = (0..4000).map(rubbish).map(|scenarios::Rubbish { table, codes }| (table, codes));
    let total = |counts: [usize; 2], (mut table, codes): (Table, Vec<Code>)| {
        let lines = codes.iter().map(|code| call(&mut table, code));
        lines.fold(counts, |[aimed, refused], line| match line.answer {
            ACCEPTED => [aimed + line.steers.len(), refused],
            BAD_TURN => [aimed, refused + 1],
            _ => [aimed, refused],
        })
    };
    for counts in [streams.fold([0; 2], total), tables.fold([0; 2], total)] {
        assert!(counts.iter().all(|count| *count > 100), "{counts:?}");
    }
}

/// Change request 2026-02 from rule 1's text: in a table that the calls wrote, the settled centre is
/// the centre that an aim at the kept chassis would give now, at the length of the drive.
#[test]
fn settled_centres_follow_rule_1() {
    let mut held = 0;
    for kind in Kind::ALL {
        for seed in 0..100 {
            let mut table = Table::new();
            for code in codes_of(&generate(kind, seed)) {
                let line = call(&mut table, &code);
                let (Code::ReadSettled(wheel) | Code::ReadAll(wheel)) = &code else { continue };
                if line.answer == ACCEPTED {
                    let kept = table.numbers[..row::CHASSIS].try_into().expect("a chassis");
                    let aimed = aim(&table, &Chassis::from_numbers(kept));
                    let center = aimed.row(*wheel as usize).vector(row::CENTER);
                    let settled = line.results[15..18].iter().map(|word| f32::from_bits(*word));
                    let settled: Vec<f32> = settled.collect();
                    assert_eq!(settled, center.parts(), "{} {seed}: {code:?}", kind.name());
                    held += 1;
                }
            }
        }
    }
    assert!(held > 1000, "{held}");
}
