//! The small car of host/c/hand_worked.c through the typed calls: two frames worked out by hand, and the moments at which nothing can be read.

use vehicle_controller::{
    Axis, Chassis, Controls, GroundBody, Inertia, Mount, RayAnswer, Refusal, Refused, Rotation,
    Steering, Vector, Vehicle, Velocity, WheelSettings,
};

const UP: Vector = Vector::new(0.0, 1.0, 0.0);
const FLOOR: RayAnswer = RayAnswer::Hit { time: 0.75, normal: UP, body: None };

/// A reply without the words of its refusal.
fn plain<T, E: Into<Refused>>(reply: Result<T, E>) -> Result<T, Refusal> {
    reply.map_err(|refused| refused.into().refusal)
}

fn wheel(x: f32, z: f32, slip: f32) -> WheelSettings {
    WheelSettings {
        connection: Vector::new(x, 0.0, z),
        direction: Vector::new(0.0, -1.0, 0.0),
        axle: Vector::new(0.0, 0.0, 1.0),
        rest_length: 1.0,
        radius: 1.0,
        stiffness: 8.0,
        compression: 2.0,
        damping: 2.0,
        travel: 0.5,
        side_stiffness: 1.0,
        slip,
        most_force: 1024.0,
        roll_influence: WheelSettings::ROLL_INFLUENCE,
    }
}

fn car() -> Result<Vehicle, Refused> {
    let mut car = Vehicle::new(Axis::Y, Axis::X)?;
    for (x, z, slip) in
        [(1.0, 1.0, 0.3125), (1.0, -1.0, 0.3125), (-1.0, 1.0, 0.3125), (-1.0, -1.0, 8.0)]
    {
        car.add_wheel(&wheel(x, z, slip))?;
    }
    car.set_controls(0, &Controls { engine: 12.0, ..Controls::default() })?;
    car.set_controls(1, &Controls { brake: 6.0, ..Controls::default() })?;
    Ok(car)
}

/// Mass 4 and no inverse inertia, so that impulses only push.
fn chassis(linear_velocity: Vector) -> Chassis {
    Chassis { linear_velocity, ..Chassis::at_rest(0.25, Inertia::default()) }
}

#[test]
fn a_frame_on_the_ground() -> Result<(), Refused> {
    let mut car = car()?;
    let aimed = car.aim(&chassis(Vector::new(12.0, 0.0, 5.0)))?;
    assert_eq!(aimed.speed(), 13.0);
    assert_eq!(aimed.sights().len(), 4);
    assert_eq!(aimed.sights()[0].start, Vector::new(1.0, 0.0, 1.0));
    assert_eq!(aimed.sights()[0].ray, Vector::new(0.0, -2.0, 0.0));
    let driven = aimed.drive(0.5, &[], &[FLOOR; 4])?;
    let expected =
        Velocity { linear: Vector::new(12.0, 8.0, 2.375), angular: Vector::ZERO, wake: true };
    assert_eq!(driven.velocity(), expected);
    let tyre = driven.read(0)?;
    // The settled centre is at this drive's length, the old one at the length 0 of a new wheel.
    assert_eq!(tyre.settled, Vector::new(1.0, -0.5, 1.0));
    assert_eq!(tyre.centre, Vector::new(1.0, 0.0, 1.0));
    assert_eq!((tyre.length, tyre.force), (0.5, 16.0));
    assert_eq!((tyre.forward, tyre.side, tyre.skid, tyre.rotation), (3.0, -2.0, 0.5, 6.0));
    assert_eq!(driven.read(3)?.skid, 1.0);
    assert_eq!(plain(driven.read(4)), Err(Refusal::NoSuchWheel));
    Ok(())
}

#[test]
fn a_frame_in_the_air_after_it() -> Result<(), Refused> {
    let mut car = car()?;
    car.aim(&chassis(Vector::new(12.0, 0.0, 5.0)))?.drive(0.5, &[], &[FLOOR; 4])?;
    let aimed = car.aim(&chassis(Vector::new(-12.0, 0.0, 5.0)))?;
    assert_eq!(aimed.speed(), -13.0);
    let driven = aimed.drive(0.5, &[], &[RayAnswer::Nothing; 4])?;
    assert_eq!(driven.velocity().linear, Vector::new(-12.0, 0.0, 5.0));
    let tyre = driven.read(0)?;
    // The old centre has the length of the drive before; the wheel spins on.
    assert_eq!((tyre.centre, tyre.length), (Vector::new(1.0, -0.5, 1.0), 1.0));
    assert_eq!(tyre.settled, Vector::new(1.0, -1.0, 1.0));
    assert_eq!(tyre.rotation, 6.0 + 6.0 * 0.99);
    Ok(())
}

#[test]
fn a_wheel_on_a_moving_body() -> Result<(), Refused> {
    let mut car = car()?;
    let raft = GroundBody {
        linear_velocity: Vector::new(0.0, 0.0, 5.0),
        inverse_mass: 0.25,
        dynamic: true,
        ..Default::default()
    };
    let on_raft = RayAnswer::Hit { time: 0.75, normal: UP, body: Some(0) };
    let driven =
        car.aim(&chassis(Vector::new(0.0, 0.0, 5.0)))?.drive(0.5, &[raft], &[on_raft; 4])?;
    assert_eq!(driven.read(2)?.side, 0.0, "the raft moves along");
    Ok(())
}

#[test]
fn a_hit_from_inside_takes_the_upward_normal() -> Result<(), Refused> {
    let mut car = car()?;
    let down = Vector::new(0.0, -1.0, 0.0);
    let inside = RayAnswer::HitUp { time: 0.0, normal: Vector::ZERO, upward: down, body: None };
    let outside = RayAnswer::Hit { time: 0.0, normal: UP, body: None };
    let start = chassis(Vector::ZERO);
    let one = car.clone().aim(&start)?.drive(0.5, &[], &[inside; 4])?.velocity();
    let other = car.aim(&start)?.drive(0.5, &[], &[outside; 4])?.velocity();
    assert_eq!(one, other);
    Ok(())
}

/// Two wheels at one place, pushed sideways by 2 each, 1 below the centre of mass: each turns the chassis about x by its own roll influence.
/// Worked out in host/c/hand_worked.c.
#[test]
fn each_wheel_leans_by_its_own_roll_influence() -> Result<(), Refused> {
    let leaned = |first: f32, second: f32| {
        let mut car = Vehicle::new(Axis::Y, Axis::X)?;
        for roll_influence in [first, second] {
            car.add_wheel(&WheelSettings { roll_influence, ..wheel(0.0, 0.0, 8.0) })?;
        }
        let chassis = Chassis {
            centre_of_mass: Vector::new(0.0, -0.5, 0.0),
            linear_velocity: Vector::new(0.0, 0.0, 5.0),
            ..Chassis::at_rest(0.25, Inertia { xx: 0.5, ..Inertia::default() })
        };
        Ok::<f32, Refused>(car.aim(&chassis)?.drive(0.5, &[], &[FLOOR; 2])?.velocity().angular.x)
    };
    assert_eq!(leaned(0.0, 0.0), Ok(0.0));
    assert_eq!(leaned(1.0, 0.25), Ok(1.25));
    assert_eq!(leaned(0.25, 1.0), Ok(1.25));
    for wrong in [-f32::from_bits(1), 1.0 + f32::EPSILON] {
        assert_eq!(plain(leaned(0.5, wrong)), Err(Refusal::OutOfRange), "{wrong}");
    }
    assert_eq!(plain(leaned(f32::NAN, 0.5)), Err(Refusal::BadNumber));
    let mount = Mount { connection: UP, direction: UP, axle: UP, rest_length: 1.0, radius: 1.0 };
    assert_eq!(mount.wheel().roll_influence.to_bits(), 0x3DCC_CCCD, "the Rust source's 0.1");
    Ok(())
}

/// One wheel with this axle that brakes, on a chassis that moves by (12, 0, 5), and its ground. Worked out in host/c/hand_worked.c.
#[test]
fn a_tyre_without_a_direction_says_so() -> Result<(), Refused> {
    let read = |axle: Vector, controls: Controls, ground: RayAnswer| {
        let mut car = Vehicle::new(Axis::Y, Axis::X)?;
        car.add_wheel(&WheelSettings { axle, ..wheel(0.0, 0.0, 8.0) })?;
        car.set_controls(0, &controls)?;
        let driven = car.aim(&chassis(Vector::new(12.0, 0.0, 5.0)))?.drive(0.5, &[], &[ground])?;
        Ok::<_, Refused>((driven.velocity().linear, driven.read(0)?))
    };
    let brake = Controls { brake: 6.0, ..Controls::default() };
    let floor_of =
        |length| RayAnswer::Hit { time: 0.75, normal: Vector::new(0.0, length, 0.0), body: None };
    let (_, rolls) = read(Vector::new(0.0, 0.0, 1.0), brake, FLOOR)?;
    assert_eq!((rolls.no_axis, rolls.no_forward, rolls.forward), (false, false, -6.0));
    // The axle is the normal: neither direction, and no impulse but the spring's.
    let (moved, dead) = read(UP, brake, FLOOR)?;
    assert_eq!((dead.no_axis, dead.no_forward), (true, true));
    assert_eq!((dead.forward, dead.side, dead.force), (0.0, 0.0, 16.0));
    assert_eq!(moved, Vector::new(12.0, 2.0, 5.0));
    // An engine's impulse is a number, and pushes nothing.
    let engine = Controls { engine: 12.0, ..Controls::default() };
    let (moved, dead) = read(UP, engine, FLOOR)?;
    assert_eq!((dead.no_axis, dead.no_forward, dead.forward), (true, true, 6.0));
    assert_eq!(moved, Vector::new(12.0, 2.0, 5.0));
    // A normal of 1 - 2^-13: what is left of the axle points along it.
    let (_, left) = read(UP, brake, floor_of(1.0 - 1.0 / 8192.0))?;
    assert_eq!((left.no_axis, left.no_forward, left.forward), (false, true, 0.0));
    let (_, short) = read(Vector::new(1e-30, 0.0, 0.0), brake, FLOOR)?;
    assert_eq!((short.no_axis, short.no_forward), (true, true));
    let (_, air) = read(UP, brake, RayAnswer::Nothing)?;
    assert_eq!((air.no_axis, air.no_forward), (false, false));
    Ok(())
}

fn steered_by(angle: f32) -> Controls {
    Controls { steering: Steering::Angle(angle), ..Controls::default() }
}

/// Takes x to y, y to z and z to x, and nothing is rounded.
const THIRD: Rotation = Rotation { x: 0.5, y: 0.5, z: 0.5, w: 0.5 };

/// A car of one wheel that hangs by this direction.
fn unicycle(direction: Vector) -> Result<Vehicle, Refused> {
    let mut car = Vehicle::new(Axis::Y, Axis::X)?;
    car.add_wheel(&WheelSettings { direction, ..wheel(0.0, 0.0, 8.0) })?;
    Ok(car)
}

/// The axle after a frame in the air.
fn axle_of(car: &mut Vehicle, rotation: Rotation) -> Result<Vector, Refused> {
    let chassis = Chassis { rotation, ..chassis(Vector::ZERO) };
    Ok(car.aim(&chassis)?.drive(0.5, &[], &[RayAnswer::Nothing])?.read(0)?.axle)
}

fn is_near(vector: Vector, x: f32, y: f32, z: f32) -> bool {
    let near = |a: f32, b: f32| (a - b).abs() < 1e-6;
    near(vector.x, x) && near(vector.y, y) && near(vector.z, z)
}

/// The example of docs/NUMBERS.md, and the same angle the other way.
#[test]
fn a_positive_angle_turns_toward_minus_z() -> Result<(), Refused> {
    for (angle, sine) in [(0.5, 0.479_426), (-0.5, -0.479_426)] {
        let mut car = unicycle(Vector::new(0.0, -1.0, 0.0))?;
        car.set_controls(0, &Controls { engine: 12.0, ..steered_by(angle) })?;
        let driven = car.aim(&chassis(Vector::ZERO))?.drive(0.5, &[], &[FLOOR])?;
        let axle = driven.read(0)?.axle;
        assert!(is_near(axle, sine, 0.0, 0.877_583), "{axle:?}");
        // An engine of 12 over 0.5 on a mass of 4 is 1.5 along the rolling direction; the spring gives 2 upward.
        let Vector { x, y, z } = driven.velocity().linear;
        assert!(is_near(Vector::new(x / 1.5, y, z / 1.5), 0.877_583, 2.0, -sine), "{x} {y} {z}");
    }
    Ok(())
}

/// How long the direction is does not matter, and angle 0 leaves the axle as it is.
#[test]
fn an_angle_turns_by_itself_alone() -> Result<(), Refused> {
    let turned = |length: f32, angle: f32| {
        let mut car = unicycle(Vector::new(0.0, -length, 0.0))?;
        car.set_controls(0, &steered_by(angle))?;
        axle_of(&mut car, Rotation::IDENTITY)
    };
    for angle in [2.0, -2.0, 1.0, 1.0 / 1024.0] {
        for length in [2.0, 1024.0, 1.0 / 1024.0] {
            assert_eq!(turned(length, angle)?, turned(1.0, angle)?, "{length} {angle}");
        }
    }
    assert_eq!(turned(1.0, 0.0)?, Vector::new(0.0, 0.0, 1.0));
    // Worked out in host/c/hand_worked.c.
    let one = [0x3F57_6AA5, 0, 0x3F0A_5140].map(f32::from_bits);
    assert_eq!(turned(1.0, 1.0)?, Vector::new(one[0], one[1], one[2]));
    Ok(())
}

/// The wheel stays steered with no new control; a rotation stays in the world.
#[test]
fn a_chassis_that_turns_takes_an_angle_along() -> Result<(), Refused> {
    let mut car = unicycle(Vector::new(0.0, -1.0, 0.0))?;
    car.set_controls(0, &steered_by(1.0))?;
    let Vector { x, y, z } = axle_of(&mut car, Rotation::IDENTITY)?;
    assert_eq!(axle_of(&mut car, THIRD)?, Vector::new(z, x, y));
    assert_eq!(axle_of(&mut car, Rotation::IDENTITY)?, Vector::new(x, y, z));
    car.set_controls(0, &Controls { steering: Steering::Rotation(THIRD), ..Controls::default() })?;
    assert_eq!(axle_of(&mut car, Rotation::IDENTITY)?, Vector::new(1.0, 0.0, 0.0));
    assert_eq!(axle_of(&mut car, THIRD)?, Vector::new(0.0, 1.0, 0.0));
    car.set_controls(0, &Controls::default())?;
    assert_eq!(axle_of(&mut car, THIRD)?, Vector::new(1.0, 0.0, 0.0), "straight on");
    Ok(())
}

/// What a refusal must leave as it was.
fn shown(car: &Vehicle) -> String {
    format!("{car:?}")
}

#[test]
fn an_angle_is_from_minus_two_to_two() -> Result<(), Refused> {
    let mut car = car()?;
    car.set_controls(0, &steered_by(-2.0))?;
    car.set_controls(0, &steered_by(2.0))?;
    let before = shown(&car);
    let next = f32::from_bits(2.0f32.to_bits() + 1);
    for (angle, refusal) in [
        (next, Refusal::OutOfRange),
        (-next, Refusal::OutOfRange),
        (30.0, Refusal::OutOfRange),
        (f32::NAN, Refusal::BadNumber),
        (f32::NEG_INFINITY, Refusal::BadNumber),
        (2_097_152.0, Refusal::BadNumber),
    ] {
        assert_eq!(plain(car.set_controls(0, &steered_by(angle))), Err(refusal), "{angle}");
        assert_eq!(shown(&car), before, "{angle}");
    }
    assert_eq!(plain(car.set_controls(4, &steered_by(0.0))), Err(Refusal::NoSuchWheel));
    car.aim(&chassis(Vector::ZERO))?;
    Ok(())
}

#[test]
fn an_angle_needs_a_direction() -> Result<(), Refused> {
    for direction in [Vector::ZERO, Vector::new(0.0, -1e-30, 0.0)] {
        let mut car = unicycle(direction)?;
        car.aim(&chassis(Vector::ZERO))?;
        for angle in [0.0, 1.0] {
            car.set_controls(0, &steered_by(angle))?;
            let before = shown(&car);
            let refusal = plain(car.aim(&chassis(Vector::new(12.0, 0.0, 5.0)))).err();
            assert_eq!(refusal, Some(Refusal::BadTurn));
            assert_eq!(shown(&car), before);
        }
        car.set_controls(0, &Controls::default())?;
        car.aim(&chassis(Vector::ZERO))?;
    }
    Ok(())
}

#[test]
fn the_plain_calls_refuse_at_a_wrong_moment() -> Result<(), Refused> {
    let mut car = car()?;
    assert_eq!(plain(car.read_wheel(0)), Err(Refusal::WrongMoment));
    assert_eq!(plain(car.drive(0.5, &[], &[FLOOR; 4])), Err(Refusal::WrongMoment));
    car.aim(&chassis(Vector::ZERO))?;
    assert_eq!(plain(car.read_wheel(0)), Err(Refusal::WrongMoment));
    car.set_controls(0, &Controls::default())?;
    assert_eq!(
        plain(car.drive(0.5, &[], &[FLOOR; 4])),
        Err(Refusal::WrongMoment),
        "controls ask for a new aim"
    );
    car.aim(&chassis(Vector::ZERO))?;
    car.drive(0.5, &[], &[FLOOR; 4])?;
    car.read_wheel(0)?;
    car.set_controls(0, &Controls::default())?;
    car.read_wheel(0)?;
    car.add_wheel(&wheel(0.0, 0.0, 1.0))?;
    assert_eq!(
        plain(car.read_wheel(0)),
        Err(Refusal::WrongMoment),
        "a new wheel asks for a new drive"
    );
    Ok(())
}

#[test]
fn refusals_through_the_typed_calls() -> Result<(), Refused> {
    let mut car = car()?;
    assert_eq!(
        plain(car.add_wheel(&WheelSettings { radius: 0.0, ..wheel(0.0, 0.0, 1.0) })),
        Err(Refusal::OutOfRange)
    );
    assert_eq!(plain(car.set_controls(4, &Controls::default())), Err(Refusal::NoSuchWheel));
    assert_eq!(
        plain(car.set_controls(0, &Controls { engine: f32::NAN, ..Controls::default() })),
        Err(Refusal::BadNumber)
    );
    let start = chassis(Vector::ZERO);
    let over = |answers: &[RayAnswer], bodies: &[GroundBody]| {
        let mut car = car.clone();
        let refusal = plain(car.aim(&start)?.drive(0.5, bodies, answers)).err();
        Ok::<_, Refused>(refusal)
    };
    let unlisted = |body| RayAnswer::Hit { time: 0.5, normal: UP, body: Some(body) };
    assert_eq!(over(&[FLOOR; 3], &[])?, Some(Refusal::BadLists));
    assert_eq!(over(&[FLOOR; 17], &[])?, Some(Refusal::BadLists));
    assert_eq!(over(&[FLOOR; 4], &[GroundBody::default(); 65])?, Some(Refusal::BadLists));
    assert_eq!(over(&[FLOOR; 4], &[GroundBody::default(); 64])?, None);
    assert_eq!(over(&[unlisted(0); 4], &[])?, Some(Refusal::BadLists));
    assert_eq!(over(&[unlisted(u32::MAX); 4], &[GroundBody::default()])?, Some(Refusal::BadLists));
    let long = RayAnswer::Hit { time: 0.75, normal: Vector::new(0.0, 2.0, 0.0), body: None };
    assert_eq!(over(&[FLOOR, FLOOR, FLOOR, long], &[])?, Some(Refusal::BadNormal));
    for _ in 4..16 {
        car.add_wheel(&wheel(0.0, 0.0, 1.0))?;
    }
    assert_eq!(plain(car.add_wheel(&wheel(0.0, 0.0, 1.0))), Err(Refusal::Full));
    Ok(())
}

#[test]
fn each_refusal_has_its_number_and_words() {
    for number in [1, 2, 3, 4, 5, 6, 7, 8, 10, 12, 17, 99] {
        let refusal = Refusal::unless_accepted(number).expect_err("a refusal");
        assert_eq!(refusal.number(), number);
        let words = refusal.to_string();
        assert!(
            words.starts_with(&format!("refused ({number}): ")) && words.ends_with('.'),
            "{words}"
        );
    }
    assert_eq!(Refusal::unless_accepted(0), Ok(()));
}

/// Half a radian in steps of 2^-24, as worked out in host/c/hand_worked.c.
#[test]
fn the_sine_and_cosine_of_half_a_radian() {
    let step = 1.0 / 16_777_216.0;
    assert_eq!(vehicle_controller::ffi::cosine(0.5), 14_723_392.0 * step);
    assert_eq!(vehicle_controller::ffi::sine(0.5), 8_043_426.0 * step);
    assert_eq!(vehicle_controller::ffi::sine(-0.5), -8_043_426.0 * step);
}

#[test]
fn the_root_of_two() {
    assert_eq!(vehicle_controller::ffi::root(2.0).to_bits(), 0x3FB5_04F3);
}
