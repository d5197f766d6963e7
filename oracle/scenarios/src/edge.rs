//! Numbers, counts and demands at the ends of what is accepted.

use vehicle::handed::{Chassis, Controls, Drive, GroundBody, Hit, NewWheel};
use vehicle::math::{Pose, Rotation, Steering, Vector};
use vehicle::program;
use vehicle::stream::{Code, Token};
use vehicle::table::{Table, ACCEPTED};

use crate::parts::{a_zero, at_an_end, near_upright, rotation, Size, MOST};
use crate::random::Random;
use crate::script::{float_places, recoded, stream_of, Script};
use crate::turning::turn_over;

/// One after the other by seed, so that a few seeds see them all.
const TEMPLATES: [fn(&mut Random) -> Vec<Code>; 18] = [
    special_numbers,
    boundary,
    grip_at_the_limit,
    counts,
    boundary,
    range_ends,
    odd_normals,
    boundary,
    normal_lengths,
    bound_ends,
    denominators,
    marks,
    boundary,
    far_away,
    range_ends,
    fast,
    bound_ends,
    normal_lengths,
];

pub fn scenario(random: &mut Random, seed: u64) -> Vec<u8> {
    let template = TEMPLATES[(seed % TEMPLATES.len() as u64) as usize];
    stream_of(&template(random))
}

const UP: Vector = Vector::new(0.0, 1.0, 0.0);

/// A wheel of plain numbers: with a hit at time 0.5 its spring is pressed together by 1.
fn plain_wheel() -> NewWheel {
    NewWheel {
        connection_point: Vector::ZERO,
        direction: Vector::new(0.0, -1.0, 0.0),
        axle: Vector::new(0.0, 0.0, 1.0),
        rest_length: 1.0,
        radius: 1.0,
        stiffness: 5.0,
        compression: 2.0,
        damping: 3.0,
        travel: 8.0,
        side_stiffness: 1.0,
        slip: 1.0,
        max_force: 1000.0,
        roll_influence: None,
    }
}

fn plain_controls() -> Controls {
    Controls { engine: 0.0, brake: 2.0, steering: Steering::Rotation(Rotation::IDENTITY) }
}

fn plain_chassis() -> Chassis {
    Chassis {
        pose: Pose::IDENTITY,
        center_of_mass: Vector::ZERO,
        linear: Vector::new(1.0, 0.0, 0.5),
        angular: Vector::ZERO,
        inverse_mass: 1.0,
        effective_inverse_masses: Vector::new(1.0, 1.0, 1.0),
        inverse_inertia: [1.0, 0.0, 0.0, 1.0, 0.0, 1.0],
    }
}

fn plain_body() -> GroundBody {
    GroundBody {
        center_of_mass: Vector::new(0.0, -3.0, 0.0),
        linear: Vector::new(0.25, 0.0, 0.0),
        angular: Vector::ZERO,
        inverse_mass: 0.5,
        inverse_inertia: [0.5, 0.0, 0.0, 0.5, 0.0, 0.5],
        dynamic: true,
    }
}

fn plain_hit() -> Hit {
    Hit { time: 0.5, normal: UP, upward_normal: None, body: None }
}

fn plain_drive(wheels: usize) -> Drive {
    Drive { dt: 0.5, bodies: Vec::new(), answers: vec![Some(plain_hit()); wheels] }
}

/// The next float of greater magnitude.
fn out(number: f32) -> f32 {
    f32::from_bits(number.to_bits() + 1)
}

/// The next float of smaller magnitude; not for a zero.
fn inward(number: f32) -> f32 {
    f32::from_bits(number.to_bits() - 1)
}

/// Zeros of both signs, subnormals and powers of two in every place.
fn special_numbers(random: &mut Random) -> Vec<Code> {
    let size = Size { spread: 3, special_once_in: random.pick(&[1, 2, 3]) };
    let mut script = Script::new();
    for _ in 0..1 + random.below(4) {
        let wheel = size.wheel(random);
        script.add(wheel);
    }
    for _ in 0..1 + random.below(4) {
        for wheel in 0..script.count() {
            if random.once_in(2) {
                let controls = size.controls(random);
                script.controls(wheel as u32, controls);
            }
        }
        let chassis = size.chassis(random);
        script.aim(chassis);
        let drive = size.drive(random, script.count());
        script.drive(drive);
        script.read_all();
    }
    script.finished()
}

/// Demands exactly at the limit and one step to both sides of it, at many sizes.
fn grip_at_the_limit(random: &mut Random) -> Vec<Code> {
    let mut script = Script::new();
    let wheels = 1 + random.below(4);
    let mut controls = Vec::new();
    let mut chassis = plain_chassis();
    chassis.inverse_inertia = [0.0; 6];
    // With no inertia and an inverse mass of 1 the side demand is −0.2 times this velocity.
    let is_tiny = random.once_in(4);
    let side_velocity = if is_tiny { 0.0 } else { random.pick(&[0.0, -20.0, -40.0, 20.0, -5.0]) };
    chassis.linear = Vector::new(0.0, 0.0, side_velocity);
    for _ in 0..wheels {
        // A limit of 5 times a power of two; 10 times it is the forward demand that is at the
        // limit with no side demand. At 2^-70 the squares are subnormal.
        let exponent = if is_tiny {
            random.pick(&[-40, -41, -50, -60, -68, -69, -70, -71, -72, -73, -74])
        } else {
            random.pick(&[0, 0, 0, 1, 3, 10, -1, -20, -40, -42, -45])
        };
        let size = f32::from_bits(((exponent + 127) as u32) << 23);
        let slip = random.pick(&[size, size, size, 0.0]);
        script.add(NewWheel { slip, ..plain_wheel() });
        let forward = random.pick(&[10.0, 6.0, 12.0, 12.0, 8.0]) * size;
        let engine = random.pick(&[forward, out(forward), inward(forward), -forward]);
        controls.push(Controls { engine, ..plain_controls() });
    }
    for (wheel, controls) in controls.iter().enumerate() {
        script.controls(wheel as u32, *controls);
    }
    script.aim(chassis);
    script.drive(Drive { dt: 1.0, ..plain_drive(wheels) });
    script.read_all();
    script.finished()
}

/// 0 and 16 wheels, 0 to 64 bodies, wheel and body numbers and answers around their counts.
fn counts(random: &mut Random) -> Vec<Code> {
    let mut script = Script::new();
    let wheels = random.pick(&[0, 1, 2, 15, 16, 16]);
    for wheel in 0..wheels {
        let connection_point = Vector::new(wheel as f32, 0.0, (wheel % 2) as f32);
        script.add(NewWheel { connection_point, ..plain_wheel() });
    }
    if wheels == 16 {
        script.add(plain_wheel());
        script.add(NewWheel { radius: -1.0, ..plain_wheel() });
        script.add(NewWheel { slip: f32::NAN, ..plain_wheel() });
    }
    let past = wheels as u32;
    let around = [past.saturating_sub(1), past, past + 1, 16, 255, u32::MAX];
    script.controls(random.pick(&around), plain_controls());
    script.read(random.pick(&around));
    script.aim(plain_chassis());
    let bodies = random.pick(&[0, 1, 2, 63, 64]);
    let mut drive = plain_drive(wheels);
    drive.bodies =
        (0..bodies).map(|body| GroundBody { dynamic: body % 3 > 0, ..plain_body() }).collect();
    let list = bodies as u32;
    for answer in &mut drive.answers {
        let named = random.pick(&[0, list.saturating_sub(1), list / 2]);
        let body = (bodies > 0 && random.below(4) > 0).then_some(named);
        *answer = (random.below(8) > 0).then_some(Hit { body, ..plain_hit() });
    }
    let mut wrong = drive.clone();
    match random.below(4) {
        0 if wheels > 0 => drop(wrong.answers.pop()),
        1 if wheels < 16 => wrong.answers.push(None),
        2 if wheels > 0 => {
            let body = Some(random.pick(&[list, list + 1, 64, 65, u32::MAX - 1]));
            let place = random.below(wheels);
            wrong.answers[place] = Some(Hit { body, ..plain_hit() });
        }
        _ => wrong.dt = 1.5,
    }
    script.drive(wrong);
    script.drive(drive);
    script.read(random.pick(&around));
    script.read_all();
    script.finished()
}

/// The codes of a short drive: two wheels, controls, an aim, a drive over one body, two reads.
fn short_drive(random: &mut Random) -> Vec<Code> {
    let mut drive = plain_drive(2);
    drive.bodies = vec![plain_body(), GroundBody { dynamic: false, ..plain_body() }];
    let upward_normal = random.once_in(2).then_some(-near_upright(random));
    let body = random.pick(&[None, Some(0), Some(1)]);
    let time = random.pick(&[0.0, 0.5, 0.25]);
    drive.answers[1] = Some(Hit { time, upward_normal, body, ..plain_hit() });
    vec![
        Code::Add(plain_wheel()),
        Code::Add(NewWheel { connection_point: Vector::new(1.0, 0.0, 1.0), ..plain_wheel() }),
        Code::Controls(0, plain_controls()),
        Code::Controls(1, Controls { engine: 3.0, ..plain_controls() }),
        Code::Aim(plain_chassis()),
        Code::Drive(drive),
        Code::Read(0),
        Code::ReadSettled(1),
    ]
}

/// The short drive with one code changed. If the changed code is refused the plain one follows,
/// so that the rest shows that the refusal left the table alone.
fn with_changed(codes: Vec<Code>, place: usize, changed: Code) -> Vec<Code> {
    let mut table = Table::new();
    let mut made = Vec::new();
    for (here, code) in codes.into_iter().enumerate() {
        if here == place {
            let answer = program::call(&mut table, &changed).answer;
            made.push(changed.clone());
            if answer == ACCEPTED {
                continue;
            }
        }
        program::call(&mut table, &code);
        made.push(code);
    }
    made.push(Code::End);
    made
}

/// Where codes of the short drive stand, and where some of their numbers do; the code is number 0.
const ADD: usize = 0;
const CONTROLS: usize = 2;
const AIM: usize = 4;
const DRIVE: usize = 5;
const ADD_RADIUS: usize = 11;
/// Rest length, then stiffness to maximum force.
const ADD_AT_LEAST_ZERO: [usize; 8] = [10, 12, 13, 14, 15, 16, 17, 18];
const CONTROLS_BRAKE: usize = 3;
const AIM_INVERSE_MASS: usize = 17;
const DRIVE_DT: usize = 1;
const DRIVE_INVERSE_MASS: usize = 12;

/// One setting just outside or just inside its range.
fn range_ends(random: &mut Random) -> Vec<Code> {
    let codes = short_drive(random);
    let tiny = f32::from_bits(1);
    let at_least_zero = [-tiny, -1.0, -f32::MIN_POSITIVE, 0.0, -0.0, tiny, MOST];
    let least_mass = 1.0 / MOST;
    let masses = [least_mass, inward(least_mass), 0.75 * least_mass, 0.0, -1.0, MOST, out(MOST)];
    let times = [0.0, -0.0, tiny, -tiny, 1.0, out(1.0), inward(1.0), 2.0, -1.0, MOST, out(MOST)];
    let (place, token, value) = match random.below(8) {
        0 => (ADD, ADD_RADIUS, random.pick(&[0.0, -0.0, tiny, -tiny, -1.0, MOST])),
        1 => (ADD, random.pick(&ADD_AT_LEAST_ZERO), random.pick(&at_least_zero)),
        2 => (CONTROLS, CONTROLS_BRAKE, random.pick(&at_least_zero)),
        3 => return with_rotation(random, codes),
        4 => (AIM, AIM_INVERSE_MASS, random.pick(&masses)),
        5 => (DRIVE, DRIVE_DT, random.pick(&times)),
        6 => (DRIVE, DRIVE_INVERSE_MASS, random.pick(&at_least_zero)),
        _ => return with_time(random, codes, &times),
    };
    let mut tokens = codes[place].tokens();
    tokens[token] = Token::Float(value);
    let changed = recoded(&tokens, &codes[place]);
    with_changed(codes, place, changed)
}

fn with_time(random: &mut Random, codes: Vec<Code>, times: &[f32]) -> Vec<Code> {
    let mut changed = codes[DRIVE].clone();
    if let Code::Drive(drive) = &mut changed {
        let time = match random.below(4) {
            0 => random.pick(&[f32::NAN, f32::INFINITY, f32::NEG_INFINITY]),
            _ => random.pick(times),
        };
        let wheel = random.below(drive.answers.len());
        drive.answers[wheel] = Some(Hit { time, ..plain_hit() });
    }
    with_changed(codes, DRIVE, changed)
}

/// A rotation whose sum of squares is at an end of its band or next to it.
fn with_rotation(random: &mut Random, codes: Vec<Code>) -> Vec<Code> {
    let end = random.pick(&[1.0 - 1.0 / 1024.0, 1.0 + 1.0 / 1024.0]);
    let parts = random.pick(&[
        [0.0, 0.0, 0.0, 1.0],
        [1.0, 0.0, 0.0, 0.0],
        [0.5, -0.5, 0.5, 0.5],
        [0.1, 0.2, -0.3, 0.9],
        [-0.0, 0.6, 0.0, -0.8],
    ]);
    let factor = end / Rotation::new(parts[0], parts[1], parts[2], parts[3]).sum_of_squares();
    let mut scaled = parts.map(|part: f32| part * factor.sqrt());
    let place = parts.iter().position(|part| *part != 0.0).unwrap_or(3);
    let shift = random.below(9) as u32;
    scaled[place] = f32::from_bits((scaled[place].to_bits() + shift).wrapping_sub(4));
    let rotation = Rotation::new(scaled[0], scaled[1], scaled[2], scaled[3]);
    if random.once_in(2) {
        let chassis = plain_chassis();
        let pose = Pose { rotation, ..chassis.pose };
        with_changed(codes, AIM, Code::Aim(Chassis { pose, ..chassis }))
    } else {
        let steering = Steering::Rotation(rotation);
        let controls = Controls { steering, ..plain_controls() };
        with_changed(codes, CONTROLS, Code::Controls(0, controls))
    }
}

/// Any one number at ±2^20 or just above.
fn bound_ends(random: &mut Random) -> Vec<Code> {
    let codes = short_drive(random);
    let place = random.below(DRIVE + 1);
    let mut tokens = codes[place].tokens();
    let floats = float_places(&tokens);
    let value = random.pick(&[MOST, -MOST, out(MOST), -out(MOST), inward(MOST)]);
    tokens[random.pick(&floats)] = Token::Float(value);
    let changed = recoded(&tokens, &codes[place]);
    with_changed(codes, place, changed)
}

/// Zero normals, upward normals, normals along the axle, normals about 0.1 off the suspension's
/// right angle, and now and then tiny and huge ones.
fn odd_normals(random: &mut Random) -> Vec<Code> {
    let mut script = Script::new();
    let wheels = 1 + random.below(3);
    for _ in 0..wheels {
        script.add(NewWheel { travel: random.pick(&[0.0, 0.25, 8.0]), ..plain_wheel() });
    }
    for _ in 0..3 {
        for wheel in 0..wheels {
            let engine = random.pick(&[0.0, 0.0, 2.0, -2.0]);
            let brake = random.pick(&[0.0, 1.0, 100.0]);
            script.controls(wheel as u32, Controls { engine, brake, ..plain_controls() });
        }
        let mut chassis = plain_chassis();
        chassis.linear = Vector::new(random.between(-3.0, 3.0), random.between(-2.0, 2.0), 1.0);
        script.aim(chassis);
        let mut drive = plain_drive(wheels);
        for answer in &mut drive.answers {
            let time = random.pick(&[0.0, -0.0, 0.0, 0.5, 0.75, 1.0]);
            let is_zero = time == 0.0 && random.once_in(3);
            let normal = if is_zero { a_zero(random) } else { odd_normal(random) };
            let upward_normal = random.once_in(2).then(|| odd_normal(random));
            *answer = Some(Hit { time, normal, upward_normal, body: None });
        }
        script.drive(drive);
        script.read_all();
    }
    script.finished()
}

fn odd_normal(random: &mut Random) -> Vector {
    let step = random.below(5) as u32;
    let tenth = f32::from_bits((0.1f32).to_bits() + step - 2);
    // With it and a tenth the sum of squares is 1.
    let rest = 0.994_987_4;
    let slope = near_upright(random);
    let usual = random.pick(&[
        UP,
        -UP,
        Vector::new(0.0, 0.0, 1.0),
        Vector::new(0.0, 0.0, -1.0),
        Vector::new(rest, tenth, 0.0),
        Vector::new(0.0, tenth, rest),
        Vector::new(rest, -tenth, 0.0),
        slope,
    ]);
    if random.once_in(16) {
        odd_length(random)
    } else {
        usual
    }
}

/// A normal that is far too short or too long.
fn odd_length(random: &mut Random) -> Vector {
    let small = random.pick(&[f32::from_bits(1), 1e-30, 1e-23, 1e-19, 1e-12]);
    random.pick(&[
        Vector::new(small, 0.0, 0.0),
        Vector::new(0.0, small, small),
        Vector::new(0.0, MOST, 0.0),
        Vector::new(MOST, MOST, MOST),
        UP * 0.5,
        UP * 2.0,
    ])
}

/// One hit at an end of the band of refusal 12, a step past it or far off, or a zero normal at
/// time 0 and at others; sometimes with a fault of another number beside it.
fn normal_lengths(random: &mut Random) -> Vec<Code> {
    let codes = short_drive(random);
    let mut changed = codes[DRIVE].clone();
    if let Code::Drive(drive) = &mut changed {
        let wheel = random.below(drive.answers.len());
        drive.answers[wheel] = Some(hit_at_the_band(random));
        if random.once_in(2) {
            another_fault(random, drive);
        }
    }
    with_changed(codes, DRIVE, changed)
}

fn hit_at_the_band(random: &mut Random) -> Hit {
    let time = random.pick(&[0.0, -0.0, f32::from_bits(1), 0.5, 1.0]);
    let up = random.once_in(2).then_some(-UP);
    let hit = Hit { time, upward_normal: up, ..plain_hit() };
    match random.below(8) {
        0 | 1 => Hit { normal: at_an_end(random), ..hit },
        2 | 3 => Hit { upward_normal: Some(at_an_end(random)), ..hit },
        4 | 5 => Hit { normal: a_zero(random), ..hit },
        6 => Hit { upward_normal: Some(a_zero(random)), ..hit },
        _ => {
            let odd = odd_length(random);
            let own = random.pick(&[odd, UP, Vector::ZERO]);
            let upward = random.pick(&[odd, -UP]);
            Hit { normal: own, upward_normal: random.once_in(2).then_some(upward), ..hit }
        }
    }
}

/// A fault that refusal 12 comes before, of 10, or after, of 2 and 6: then the order shows.
fn another_fault(random: &mut Random, drive: &mut Drive) {
    match random.below(10) {
        0..=2 => drive.dt = random.pick(&[2.0, -1.0]),
        3..=5 => drive.bodies[0].inverse_mass = -1.0,
        6 => drive.dt = random.pick(&[f32::NAN, out(MOST)]),
        7 => drive.bodies[1].inverse_mass = f32::INFINITY,
        8 => drop(drive.answers.pop()),
        _ => drive.answers[0] = Some(Hit { time: 2.0, ..plain_hit() }),
    }
}

/// Inverse inertias at which the sum of denominators is zero, tiny or below zero.
fn denominators(random: &mut Random) -> Vec<Code> {
    let mut script = Script::new();
    let wheels = 1 + random.below(2);
    for wheel in 0..wheels {
        script.add(plain_wheel());
        let brake = random.pick(&[0.0, 1.0, 50.0]);
        script.controls(wheel as u32, Controls { brake, ..plain_controls() });
    }
    let mut chassis = plain_chassis();
    // The contact point is (0, −1, 0): with a zz of −1 the denominator is 1 − 1.
    let zz = random.pick(&[-1.0, -1.0, -1.0, out(-1.0), inward(-1.0), -2.0]);
    let xx = random.pick(&[0.0, 1.0, -1.0]);
    chassis.inverse_inertia = [xx, 0.0, 0.0, 0.0, 0.0, zz];
    chassis.linear = Vector::new(random.pick(&[0.0, 0.0, 1.0, -1.0, 1e-30]), 0.0, 0.5);
    script.aim(chassis);
    let mut drive = plain_drive(wheels);
    let inverse_mass = random.pick(&[0.0, 0.25, 1.0, 1e-38, f32::from_bits(1)]);
    let inertia = random.pick(&[0.0, -0.25, -0.0625, 0.5]);
    drive.bodies = vec![GroundBody {
        inverse_mass,
        inverse_inertia: [inertia; 6],
        dynamic: random.once_in(2),
        ..plain_body()
    }];
    for answer in &mut drive.answers {
        let body = random.once_in(2).then_some(0);
        *answer = Some(Hit { body, ..plain_hit() });
    }
    script.drive(drive);
    script.read_all();
    script.finished()
}

/// Directions and lengths near 2^20: centres and contact points near 2^40, where 8 begins.
fn far_away(random: &mut Random) -> Vec<Code> {
    let mut script = Script::new();
    let part = |random: &mut Random| random.pick(&[MOST, -MOST, inward(MOST), MOST / 2.0, 1.0]);
    let direction = Vector::new(part(random), part(random), part(random));
    // The ray is as long as both together: 2^20 is accepted here, 2^21 is too long for most.
    let (rest_length, radius) = random.pick(&[
        (MOST, 1.0 / 64.0),
        (MOST, f32::MIN_POSITIVE),
        (0.0, MOST),
        (MOST / 2.0, MOST / 2.0),
        (MOST, MOST),
        (1.0, MOST),
    ]);
    // With a hit at time 0 the wheel settles up to 2^40 away from its hard point, and where that one
    // lies on the same side beyond 2^40: a place that is given and could not be stored.
    let height = random.pick(&[0.0, 0.0, MOST, -MOST]);
    let connection_point = Vector::new(0.0, height, 0.0);
    let wheel = NewWheel { connection_point, direction, rest_length, radius, ..plain_wheel() };
    let soft = NewWheel { stiffness: 0.0, compression: 0.0, damping: 0.0, ..wheel };
    script.add(NewWheel { travel: MOST, ..soft });
    for _ in 0..3 {
        let mut chassis = plain_chassis();
        chassis.pose.rotation = rotation(random);
        script.aim(chassis);
        let mut drive = plain_drive(1);
        let time = random.pick(&[0.0, 0.0, 1.0, 0.5, f32::from_bits(1)]);
        let normal = if time == 0.0 { random.pick(&[UP, Vector::ZERO]) } else { UP };
        drive.answers[0] = random.once_in(2).then_some(Hit { time, normal, ..plain_hit() });
        script.drive(drive);
        script.read(0);
    }
    let mut codes = script.codes;
    let place = random.below(codes.len());
    if let Some(turned) = turn_over(random, &codes, place) {
        codes[place] = turned;
    }
    codes.push(Code::End);
    codes
}

/// Impulses near 2^20 on a chassis whose effective inverse masses are near 2^20: velocities near
/// 2^40, where 8 begins.
fn fast(random: &mut Random) -> Vec<Code> {
    let mut script = Script::new();
    // A radius of 4: the spin stays below the bound when the velocity passes it.
    script.add(NewWheel { slip: MOST, rest_length: 4.0, radius: 4.0, ..plain_wheel() });
    let near = |random: &mut Random| random.pick(&[MOST, MOST, inward(MOST), MOST / 2.0]);
    let engine = near(random) * random.pick(&[1.0, -1.0]);
    script.controls(0, Controls { engine, ..plain_controls() });
    let mut chassis = plain_chassis();
    chassis.effective_inverse_masses = Vector::new(near(random), near(random), near(random));
    let velocity = random.pick(&[0.0, 1.0, 65_536.0, 131_072.0, -131_072.0, MOST]);
    chassis.linear = Vector::new(velocity, 0.0, 0.0);
    chassis.inverse_inertia = [0.0, 0.0, 0.0, 0.0, 0.0, near(random)];
    script.aim(chassis);
    script.drive(Drive { dt: 1.0, ..plain_drive(1) });
    script.read(0);
    let mut codes = script.codes;
    let place = random.below(codes.len());
    if let Some(turned) = turn_over(random, &codes, place) {
        codes[place] = turned;
    }
    codes.push(Code::End);
    codes
}

/// Calls of plain numbers in any order, to see every mark before every call.
fn marks(random: &mut Random) -> Vec<Code> {
    let mut script = Script::new();
    script.add(plain_wheel());
    for _ in 0..12 + random.below(20) {
        let wheel = random.below(script.count() + 1) as u32;
        match random.below(12) {
            0 => drop(script.add(plain_wheel())),
            1 => drop(script.add(NewWheel { radius: 0.0, ..plain_wheel() })),
            2 | 3 => {
                let engine = random.pick(&[0.0, 1.0, -1.0]);
                script.controls(wheel, Controls { engine, ..plain_controls() });
            }
            4..=6 => drop(script.aim(plain_chassis())),
            7..=9 => drop(script.drive(plain_drive(script.count()))),
            _ => script.read(wheel),
        }
    }
    script.finished()
}

/// A scenario with one number at the very place where an answer or a slide test turns over.
fn boundary(random: &mut Random) -> Vec<Code> {
    let size = Size { spread: random.pick(&[2, 4, 8, 20]), special_once_in: 12 };
    let mut codes = lively_codes(random, size);
    for _ in 0..12 {
        let place = random.below(codes.len());
        if let Some(turned) = turn_over(random, &codes, place) {
            codes[place] = turned;
            break;
        }
    }
    codes.push(Code::End);
    codes
}

fn lively_codes(random: &mut Random, size: Size) -> Vec<Code> {
    let mut script = Script::new();
    let wheels = 1 + random.below(3);
    for wheel in 0..wheels {
        let new = size.wheel(random);
        script.add(new);
        let controls = size.controls(random);
        script.controls(wheel as u32, controls);
    }
    for _ in 0..2 {
        let chassis = size.chassis(random);
        script.aim(chassis);
        let drive = size.drive(random, wheels);
        script.drive(drive);
        script.read_all();
    }
    script.codes
}
