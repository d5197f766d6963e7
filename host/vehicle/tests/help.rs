//! What stands around the calls: makers, words of refusals, the strict mode, a vehicle as bytes, and an aim that is given back.

use std::sync::{Arc, Mutex};

use vehicle_controller::ffi::{help, len};
use vehicle_controller::{
    Axis, Chassis, Controls, Finding, GroundBody, Inertia, Mount, RayAnswer, Refusal, Refused,
    RigidBody, Rotation, Sight, Steering, Vector, Vehicle, WheelSettings,
};

const UP: Vector = Vector::new(0.0, 1.0, 0.0);
const DOWN: Vector = Vector::new(0.0, -1.0, 0.0);
const ACROSS: Vector = Vector::new(0.0, 0.0, 1.0);
const FLOOR: RayAnswer = RayAnswer::Hit { time: 0.75, normal: UP, body: None };
/// Takes x to y, y to z and z to x, and nothing is rounded.
const THIRD: Rotation = Rotation { x: 0.5, y: 0.5, z: 0.5, w: 0.5 };

fn mount(x: f32, z: f32) -> Mount {
    let connection = Vector::new(x, 0.0, z);
    Mount { connection, direction: DOWN, axle: ACROSS, rest_length: 0.5, radius: 0.5 }
}

fn body() -> RigidBody {
    RigidBody::new(1200.0, Inertia::of_box(1200.0, Vector::new(4.0, 1.2, 1.8)))
}

fn car() -> Result<Vehicle, Refused> {
    let mut car = Vehicle::new(Axis::Y, Axis::X)?;
    for (x, z) in [(1.0, 1.0), (1.0, -1.0), (-1.0, 1.0), (-1.0, -1.0)] {
        car.add_wheel(&WheelSettings { stiffness: 30.0, slip: 0.9, ..mount(x, z).wheel() })?;
    }
    Ok(car)
}

/// What a refused call says.
fn words<T>(reply: Result<T, impl Into<Refused>>) -> String {
    reply.err().map_or("accepted".to_owned(), |refused| refused.into().to_string())
}

#[test]
fn a_turned_body_has_its_masses_in_the_world() {
    let turned = RigidBody {
        local_centre_of_mass: Vector::new(1.0, 2.0, 3.0),
        position: Vector::new(10.0, 20.0, 30.0),
        rotation: THIRD,
        linear_velocity: Vector::new(1.0, 0.0, 0.0),
        angular_velocity: Vector::new(0.0, 2.0, 0.0),
        locked: [false, true, false],
        ..RigidBody::new(4.0, Inertia::diagonal(2.0, 4.0, 8.0))
    };
    // Its x axis points along y, its y along z, its z along x.
    let expected = Chassis {
        translation: Vector::new(10.0, 20.0, 30.0),
        rotation: THIRD,
        centre_of_mass: Vector::new(13.0, 21.0, 32.0),
        linear_velocity: Vector::new(1.0, 0.0, 0.0),
        angular_velocity: Vector::new(0.0, 2.0, 0.0),
        inverse_mass: 0.25,
        effective_inverse_masses: Vector::new(0.25, 0.0, 0.25),
        inverse_inertia: Inertia::diagonal(0.125, 0.5, 0.25),
    };
    assert_eq!(turned.chassis(), expected);
    let GroundBody { centre_of_mass, inverse_mass, inverse_inertia, dynamic, .. } = turned.ground();
    assert_eq!((centre_of_mass, inverse_mass), (expected.centre_of_mass, 0.25));
    assert_eq!((inverse_inertia, dynamic), (expected.inverse_inertia, true));
}

/// b × v, and the rotation of v by (b, w) as v + 2w (b × v) + 2 b × (b × v).
fn cross(b: [f64; 3], v: [f64; 3]) -> [f64; 3] {
    [b[1] * v[2] - b[2] * v[1], b[2] * v[0] - b[0] * v[2], b[0] * v[1] - b[1] * v[0]]
}

fn rotated([x, y, z, w]: [f64; 4], v: [f64; 3]) -> [f64; 3] {
    let once = cross([x, y, z], v);
    let twice = cross([x, y, z], once);
    [0, 1, 2].map(|i| v[i] + 2.0 * (w * once[i] + twice[i]))
}

/// A rotation without symmetry: the world's array is the sum of each inverse times its turned axis, multiplied with itself.
#[test]
fn an_inertia_turns_with_its_axes() {
    let q = [0.1, 0.5, 0.5, 0.7];
    let (inertia, local) = ([2.0, 4.0, 8.0], [1.0, -2.0, 3.0]);
    let body = RigidBody {
        rotation: Rotation::xyzw(q.map(|part| part as f32)),
        local_centre_of_mass: local.map(|part| part as f32).into(),
        ..RigidBody::new(1.0, Inertia::diagonal(2.0, 4.0, 8.0))
    };
    let axes = [[1.0, 0.0, 0.0], [0.0, 1.0, 0.0], [0.0, 0.0, 1.0]].map(|axis| rotated(q, axis));
    let part =
        |i: usize, j: usize| -> f64 { (0..3).map(|k| axes[k][i] * axes[k][j] / inertia[k]).sum() };
    let Chassis { inverse_inertia: given, centre_of_mass: centre, .. } = body.chassis();
    let expected = [part(0, 0), part(0, 1), part(0, 2), part(1, 1), part(1, 2), part(2, 2)];
    let ours = [given.xx, given.xy, given.xz, given.yy, given.yz, given.zz];
    let pairs = ours.into_iter().zip(expected);
    for (ours, expected) in pairs.chain(<[f32; 3]>::from(centre).into_iter().zip(rotated(q, local)))
    {
        assert!((f64::from(ours) - expected).abs() < 1e-6, "{ours} for {expected}");
    }
}

/// A ground body has no rotation that a drive could test: one that was not of unit length makes it no number.
#[test]
fn a_ground_body_of_a_bad_rotation_is_refused() -> Result<(), Refused> {
    let twice = Rotation { w: 2.0, ..Rotation::IDENTITY };
    let raft = RigidBody { rotation: twice, ..body() }.ground();
    let mut car = car()?;
    let said = words(car.aim(&body().chassis())?.drive(0.1, &[raft], &[FLOOR; 4]));
    assert!(said.starts_with("refused (2): ground body 0: inverse_inertia.xx NaN, "), "{said}");
    Ok(())
}

#[test]
fn an_inertia_is_inverted_whole() {
    // The inverse of ((2, 1, 0), (1, 2, 0), (0, 0, 4)).
    let inertia = Inertia { xy: 1.0, ..Inertia::diagonal(2.0, 2.0, 4.0) };
    let third = 1.0 / 3.0;
    let expected = Inertia { xy: -third, ..Inertia::diagonal(2.0 * third, 2.0 * third, 0.25) };
    assert_eq!(RigidBody::new(1.0, inertia).chassis().inverse_inertia, expected);
    // The inverse of ((4, 0, 1), (0, 3, 1), (1, 1, 2)), whose determinant is 17, times 17.
    let inertia = Inertia { xz: 1.0, yz: 1.0, ..Inertia::diagonal(4.0, 3.0, 2.0) };
    let given = RigidBody::new(1.0, inertia).chassis().inverse_inertia;
    let times = [given.xx, given.xy, given.xz, given.yy, given.yz, given.zz].map(|x| x * 17.0);
    for (ours, expected) in times.into_iter().zip([5.0, 1.0, -3.0, 7.0, -4.0, 12.0]) {
        assert!((ours - expected).abs() < 1e-5, "{ours} for {expected}");
    }
    let of_box = Inertia::of_box(12.0, Vector::new(1.0, 2.0, 3.0));
    assert_eq!(of_box, Inertia::diagonal(13.0, 10.0, 5.0));
}

#[test]
fn a_mount_makes_unit_vectors() {
    let of = |direction, axle| Mount { direction, axle, ..mount(1.0, 2.0) }.wheel();
    let wheel = of(Vector::new(0.0, -2.0, 0.0), Vector::new(3.0, 0.0, 4.0));
    assert_eq!((wheel.direction, wheel.axle), (DOWN, Vector::new(0.6, 0.0, 0.8)));
    assert_eq!(wheel.connection, Vector::new(1.0, 0.0, 2.0));
    assert_eq!((wheel.rest_length, wheel.radius), (0.5, 0.5));
    // The default of the Rust source's WheelTuning, and its roll influence.
    let tuning = (wheel.stiffness, wheel.compression, wheel.damping, wheel.travel);
    assert_eq!(tuning, (5.88, 0.83, 0.88, 5.0));
    assert_eq!((wheel.side_stiffness, wheel.slip, wheel.most_force), (1.0, 10.5, 6000.0));
    assert_eq!(wheel.roll_influence, 0.1);
    let tiny = of(Vector::new(0.0, 0.0, -1e-30), Vector::ZERO);
    assert_eq!((tiny.direction, tiny.axle), (Vector::new(0.0, 0.0, -1.0), Vector::ZERO));
}

#[test]
fn a_distance_is_a_fraction_of_the_ray() {
    let sight = Sight { start: Vector::ZERO, ray: Vector::new(0.0, -2.0, 0.0) };
    let at = |distance| RayAnswer::at_distance(&sight, distance, UP, Some(3));
    assert_eq!(at(1.5), RayAnswer::Hit { time: 0.75, normal: UP, body: Some(3) });
    assert_eq!(at(2.0), RayAnswer::Hit { time: 1.0, normal: UP, body: Some(3) });
    assert_eq!(at(2.001), RayAnswer::Nothing);
}

#[test]
fn a_refused_drive_gives_its_aim_back() -> Result<(), Refused> {
    let mut car = car()?;
    let chassis = body().chassis();
    let mut answers = [FLOOR; 4];
    answers[2] = RayAnswer::Hit { time: 1.3, normal: UP, body: None };
    let not = car.aim(&chassis)?.drive(0.5, &[], &answers).expect_err("a time beyond the ray");
    let said = "refused (6): wheel 2: hit time 1.3, times are fractions of the ray from 0 to 1. ";
    assert!(not.to_string().starts_with(said), "{not}");
    assert_eq!(not.refused.refusal, Refusal::BadLists);
    assert_eq!(not.aimed.sights().len(), 4);
    let driven = not.aimed.drive(0.5, &[], &[FLOOR; 4])?;
    driven.read(2)?;
    let velocity = driven.velocity();
    let mut other = self::car()?;
    assert_eq!(other.aim(&chassis)?.drive(0.5, &[], &[FLOOR; 4])?.velocity(), velocity);
    Ok(())
}

/// As few digits as tell the number from every other f32.
#[test]
fn a_value_is_told_in_full() -> Result<(), Refused> {
    let mut car = Vehicle::new(Axis::Y, Axis::X)?;
    car.add_wheel(&mount(0.0, 0.0).wheel())?;
    let next = 1.0 + f32::EPSILON;
    for (time, text) in
        [(next, "1.0000001"), (1.3, "1.3"), (123456.78, "123456.78"), (-0.5, "-0.5")]
    {
        let hit = RayAnswer::Hit { time, normal: UP, body: None };
        let said = words(car.aim(&body().chassis())?.drive(0.5, &[], &[hit]));
        assert!(said.starts_with(&format!("refused (6): wheel 0: hit time {text}, ")), "{said}");
    }
    let said = words(car.set_controls(0, &Controls { engine: 1_048_577.0, ..Controls::default() }));
    assert!(said.starts_with("refused (2): wheel 0: engine 1048577, "), "{said}");
    Ok(())
}

/// The advice fits the call at which it is given.
#[test]
fn each_wrong_moment_has_its_own_advice() -> Result<(), Refused> {
    let mut car = car()?;
    let chassis = body().chassis();
    let early = words(car.read_wheel(0));
    assert!(early.contains("has not been driven. Aim, cast the rays, drive, and then"), "{early}");
    assert!(words(car.drive(0.5, &[], &[FLOOR; 4])).contains("not aimed. Aim"));
    car.aim(&chassis)?;
    assert!(words(car.read_wheel(0)).contains("not driven yet. Drive first"));
    car.set_controls(0, &Controls::default())?;
    let after_controls = words(car.drive(0.5, &[], &[FLOOR; 4]));
    assert!(after_controls.contains("controls were set"), "{after_controls}");
    assert!(after_controls.contains("aim again"), "{after_controls}");
    car.aim(&chassis)?.drive(0.5, &[], &[FLOOR; 4])?;
    let twice = words(car.drive(0.5, &[], &[FLOOR; 4]));
    assert!(twice.contains("this aim has had its drive. Aim again"), "{twice}");
    Ok(())
}

#[test]
fn words_name_the_wheel_the_field_and_the_value() -> Result<(), Refused> {
    let mut car = car()?;
    let said = words(car.add_wheel(&WheelSettings { radius: 0.0, ..mount(0.0, 0.0).wheel() }));
    assert!(said.starts_with("refused (10): wheel 4: radius 0, a radius is above 0. "), "{said}");
    let nan = Vector::new(0.0, f32::NAN, 0.0);
    let said = words(car.add_wheel(&WheelSettings { axle: nan, ..mount(0.0, 0.0).wheel() }));
    assert!(said.starts_with("refused (2): wheel 4: axle.y NaN, "), "{said}");
    let steered = Controls { steering: Steering::Angle(30.0), ..Controls::default() };
    let said = words(car.set_controls(1, &steered));
    assert!(said.starts_with("refused (10): wheel 1: steering angle 30, an angle is"), "{said}");
    let engine = Controls { engine: f32::INFINITY, ..Controls::default() };
    let said = words(car.set_controls(1, &engine));
    assert!(said.starts_with("refused (2): wheel 1: engine infinity, "), "{said}");
    let said = words(car.set_controls(7, &Controls::default()));
    assert!(said.starts_with("refused (4): wheel number 7, this vehicle has 4 wheels, "), "{said}");
    let weightless = RigidBody { mass: 0.0, ..body() };
    let said = words(car.aim(&weightless.chassis()));
    assert!(said.starts_with("refused (2): inverse_mass infinity, "), "{said}");
    let twice = Rotation { w: 2.0, ..Rotation::IDENTITY };
    let said = words(car.aim(&RigidBody { rotation: twice, ..body() }.chassis()));
    let rotation = "refused (10): sum of squares of the chassis' rotation 4, ";
    assert!(said.starts_with(rotation), "{said}");
    let dt = words(car.aim(&body().chassis())?.drive(16.7, &[], &[FLOOR; 4]));
    assert!(dt.starts_with("refused (10): dt 16.7, a time step is in seconds from 0 to 1"), "{dt}");
    let light = GroundBody { inverse_mass: -1.0, ..GroundBody::default() };
    let said = words(car.aim(&body().chassis())?.drive(0.1, &[light], &[FLOOR; 4]));
    assert!(said.starts_with("refused (10): ground body 0: inverse_mass -1, "), "{said}");
    Ok(())
}

#[test]
fn a_finding_is_told_whole() -> Result<(), Refused> {
    let refused = car()?.read_wheel(9).expect_err("a wheel that is not there");
    let found = refused.culprit.as_ref().expect("a culprit");
    let Finding { wheel, body, field, value, bound, advice, words } = found;
    assert_eq!((*wheel, *body, *field, *value), (None, None, "wheel number", 9.0));
    assert_eq!(*words, format!("{field} 9, {bound}. {advice}"));
    assert_eq!(refused.to_string(), format!("refused (4): {words}"));
    assert_eq!(format!("{refused:?}"), refused.to_string(), "what a main that gives it prints");
    Ok(())
}

/// A refused drive goes into any error, as in the usual `main`.
#[test]
fn a_refused_drive_is_any_error() {
    let frame = || -> Result<(), Box<dyn std::error::Error>> {
        let mut car = car()?;
        car.aim(&body().chassis())?.drive(2.0, &[], &[FLOOR; 4])?;
        Ok(())
    };
    let said = frame().expect_err("a time step of two seconds").to_string();
    assert!(said.starts_with("refused (10): dt 2, "), "{said}");
}

/// What a strict vehicle finds while it does this.
fn doubts(
    up: Axis,
    forward: Axis,
    act: impl FnOnce(Vehicle) -> Result<(), Refused>,
) -> Result<Vec<Finding>, Refused> {
    let list = Arc::new(Mutex::new(Vec::new()));
    let kept = Arc::clone(&list);
    let report = move |doubt: &Finding| kept.lock().expect("a list").push(doubt.clone());
    act(Vehicle::new(up, forward)?.strict(report))?;
    let found = list.lock().expect("a list").clone();
    Ok(found)
}

/// The words of it, of a vehicle with y up and x forward.
fn reported(act: impl FnOnce(Vehicle) -> Result<(), Refused>) -> Result<Vec<String>, Refused> {
    words_of(doubts(Axis::Y, Axis::X, act))
}

fn words_of(found: Result<Vec<Finding>, Refused>) -> Result<Vec<String>, Refused> {
    Ok(found?.into_iter().map(|doubt| doubt.words).collect())
}

/// A wheel of a car that nothing is doubted of.
fn wheel() -> WheelSettings {
    WheelSettings { stiffness: 30.0, travel: 0.2, slip: 0.9, ..mount(0.0, 0.0).wheel() }
}

fn one_wheel(settings: WheelSettings) -> Result<Vec<String>, Refused> {
    reported(|mut car| car.add_wheel(&settings).map(|_| ()))
}

fn one_control(controls: Controls) -> Result<Vec<String>, Refused> {
    reported(|mut car| {
        let wheel = car.add_wheel(&wheel())?;
        car.set_controls(wheel, &controls)
    })
}

fn one_aim(chassis: Chassis) -> Result<Vec<String>, Refused> {
    reported(|mut car| car.aim(&chassis).map(|_| ()))
}

fn starts(list: Result<Vec<String>, Refused>, expected: &[&str]) {
    let list = list.expect("accepted");
    let holds = list.len() == expected.len()
        && list.iter().zip(expected).all(|(said, start)| said.starts_with(start));
    assert!(holds, "{list:#?} for {expected:#?}");
}

#[test]
fn a_strict_vehicle_doubts_a_wheel_and_its_controls() {
    let wheel = wheel();
    let along = |length: f32| Vector::new(0.0, -length, 0.0);
    starts(one_wheel(wheel), &[]);
    for (length, number) in [(2.0, "2"), (0.5, "0.5"), (0.0, "0")] {
        let said = format!("wheel 0: length of the direction {number}, ");
        starts(one_wheel(WheelSettings { direction: along(length), ..wheel }), &[&said]);
        let said = format!("wheel 0: length of the axle {number}, ");
        starts(one_wheel(WheelSettings { axle: along(length), ..wheel }), &[&said]);
    }
    starts(one_wheel(WheelSettings { direction: along(1.05), ..wheel }), &[]);
    let stiff = WheelSettings { stiffness: 30_000.0, damping: 3000.0, ..wheel };
    starts(one_wheel(stiff), &["wheel 0: stiffness 30000, ", "wheel 0: damping 3000, "]);
    let untuned = ["wheel 0: travel 5, ", "wheel 0: slip 10.5, "];
    starts(one_wheel(mount(0.0, 0.0).wheel()), &untuned);
    let empty = WheelSettings { stiffness: 0.0, slip: 0.0, most_force: 0.0, ..wheel };
    starts(
        one_wheel(empty),
        &["wheel 0: stiffness 0, ", "wheel 0: slip 0, ", "wheel 0: most_force 0, "],
    );
    starts(one_wheel(WheelSettings { radius: 30.0, ..wheel }), &["wheel 0: radius 30, "]);
    let up = ["wheel 0: part of the direction along up 1, "];
    starts(one_wheel(WheelSettings { direction: UP, ..wheel }), &up);
    let controls = Controls { steering: Steering::Angle(0.5), ..Controls::default() };
    starts(one_control(Controls { engine: 3000.0, ..controls }), &[]);
    starts(one_control(Controls { brake: 60.0, ..controls }), &[]);
    let both = ["wheel 0: brake 60, a wheel whose engine is not 0 ignores its brake. "];
    starts(one_control(Controls { engine: 3000.0, brake: 60.0, ..controls }), &both);
    starts(one_control(Controls { engine: -90_000.0, ..controls }), &["wheel 0: engine -90000, "]);
    starts(one_control(Controls { brake: 5000.0, ..controls }), &["wheel 0: brake 5000, "]);
    let first = Rotation { x: 1.0, w: 0.0, ..Rotation::IDENTITY };
    let steering = Steering::Rotation(first);
    let said = ["wheel 0: up part of up turned by the steering -1, "];
    starts(one_control(Controls { steering, ..controls }), &said);
}

/// Each limit of docs/NUMBERS.md: at it nothing is said, and a little beyond it one thing.
#[test]
fn a_strict_vehicle_doubts_from_its_limits_on() {
    type SetWheel = fn(&mut WheelSettings, f32);
    let wheels: [(f32, SetWheel); 8] = [
        (1000.0, |w, x| w.stiffness = x),
        (100.0, |w, x| w.compression = x),
        (100.0, |w, x| w.damping = x),
        (1.0, |w, x| w.travel = x),
        (3.0, |w, x| w.slip = x),
        (5.0, |w, x| w.radius = x),
        (1.1, |w, x| w.direction = Vector::new(0.0, -x, 0.0)),
        (1.1, |w, x| w.axle = Vector::new(0.0, 0.0, x)),
    ];
    let count = |list: Result<Vec<String>, Refused>| list.expect("accepted").len();
    for (limit, set) in wheels {
        for (value, said) in [(limit, 0), (limit * 1.01, 1)] {
            let mut settings = wheel();
            set(&mut settings, value);
            assert_eq!(count(one_wheel(settings)), said, "{settings:?}");
        }
    }
    for (engine, brake, said) in
        [(50_000.0, 0.0, 0), (50_500.0, 0.0, 1), (0.0, 2000.0, 0), (0.0, 2020.0, 1)]
    {
        let controls = Controls { engine, brake, steering: Steering::Angle(0.0) };
        assert_eq!(count(one_control(controls)), said, "{controls:?}");
    }
    let chassis = body().chassis();
    for (x, said) in [(10.0, 0), (10.1, 1)] {
        let centre_of_mass = Vector::new(x, 0.0, 0.0);
        assert_eq!(count(one_aim(Chassis { centre_of_mass, ..chassis })), said, "{x} m away");
        let inverse_inertia = Inertia { yz: -x, ..chassis.inverse_inertia };
        assert_eq!(count(one_aim(Chassis { inverse_inertia, ..chassis })), said, "inertia {x}");
    }
    for (inverse_mass, said) in [(1.0, 0), (1.01, 1)] {
        let effective_inverse_masses = Vector::new(inverse_mass, inverse_mass, inverse_mass);
        let light = Chassis { inverse_mass, effective_inverse_masses, ..chassis };
        assert_eq!(count(one_aim(light)), said, "{inverse_mass}");
    }
}

/// The whole numbers are the caller's: axes that no set-up takes are read as some axis, and nothing beyond the settings.
#[test]
fn doubts_take_any_whole_numbers() {
    let settings = help::make_wheel(&help::Mount {
        connection: [0.0; 3],
        direction: [0.0, -1.0, 0.0],
        axle: [0.0, 0.0, 1.0],
        rest_length: 1.0,
        radius: 1.0,
    });
    for number in [3, 1000, 1 << 28, u32::MAX] {
        help::doubts_add_wheel(&[number, number, number, number], &settings);
        help::doubts_aim(&[number; len::WHOLE], &[0.0; len::CHASSIS]);
        help::doubts_set_controls(&[number; len::WHOLE], number, &[0.0; len::CONTROLS]);
    }
}

/// A wheel rolls toward up × axle: x for the axle z where y is up, and so on round.
#[test]
fn a_strict_vehicle_doubts_a_wheel_that_does_not_roll_forward() {
    let [x, y, z] = [Vector::new(1.0, 0.0, 0.0), UP, ACROSS];
    let minus = |v: Vector| Vector::new(-v.x, -v.y, -v.z);
    let said = |up: Axis, forward: Axis, axle: Vector| -> Vec<f64> {
        let direction = minus([x, y, z][up as usize]);
        let found = doubts(up, forward, |mut car| {
            car.add_wheel(&WheelSettings { direction, axle, ..wheel() }).map(|_| ())
        });
        found.expect("accepted").iter().map(|doubt| doubt.value).collect()
    };
    // Up, forward, the axle that rolls forward, and one that lies along forward.
    for (up, forward, axle, along) in [
        (Axis::Y, Axis::X, z, x),
        (Axis::Y, Axis::Z, minus(x), z),
        (Axis::Z, Axis::X, minus(y), x),
        (Axis::Z, Axis::Y, x, y),
        (Axis::X, Axis::Y, minus(z), y),
        (Axis::X, Axis::Z, y, z),
    ] {
        assert_eq!(said(up, forward, axle), [], "{up:?} {forward:?}");
        assert_eq!(said(up, forward, minus(axle)), [-1.0], "{up:?} {forward:?}, backward");
        assert_eq!(said(up, forward, along), [0.0], "{up:?} {forward:?}, across");
    }
}

#[test]
fn a_strict_vehicle_doubts_a_normal_along_its_ray() {
    let on = |time: f32, normal: Vector| {
        reported(|mut car| {
            car.add_wheel(&wheel())?;
            let hit = RayAnswer::Hit { time, normal, body: None };
            Ok(car.aim(&body().chassis())?.drive(0.1, &[], &[hit]).map(|_| ())?)
        })
    };
    starts(on(0.75, UP), &[]);
    starts(on(0.75, DOWN), &["wheel 0: part of the normal along the ray 1, "]);
    starts(on(0.0, DOWN), &[]);
    // Each wheel by its own ray, in the world: the second points sideways, and the chassis takes x to y, y to z and z to x.
    let sideways = WheelSettings { direction: Vector::new(1.0, 0.0, 0.0), ..wheel() };
    let turned = RigidBody { rotation: THIRD, ..body() }.chassis();
    let hit_up = |normal: Vector| RayAnswer::HitUp { time: 0.5, normal, upward: DOWN, body: None };
    let said = reported(|mut car| {
        car.add_wheel(&wheel())?;
        car.add_wheel(&sideways)?;
        let answers = [hit_up(Vector::new(0.0, 0.0, 1.0)), hit_up(UP)];
        Ok(car.aim(&turned)?.drive(0.1, &[], &answers).map(|_| ())?)
    });
    let of_normals: Vec<String> =
        said.expect("accepted").into_iter().filter(|said| said.contains("normal along")).collect();
    starts(Ok(of_normals), &["wheel 1: part of the normal along the ray 1, "]);
}

#[test]
fn a_strict_vehicle_doubts_a_chassis_and_a_step() {
    let chassis = body().chassis();
    let same = words_of(doubts(Axis::Y, Axis::Y, |_| Ok(())));
    starts(same, &["forward axis 1, it is the up axis too. "]);
    starts(reported(|_| Ok(())), &[]);
    starts(one_aim(chassis), &[]);
    let heavy = Chassis { inverse_mass: 1200.0, ..chassis };
    let [ex, ey, ez] = ["x", "y", "z"].map(|axis| format!("effective_inverse_masses.{axis} "));
    starts(one_aim(heavy), &["inverse_mass 1200, ", &ex, &ey, &ez]);
    let local = Chassis { translation: Vector::new(100.0, 0.0, 0.0), ..chassis };
    starts(one_aim(local), &["distance from translation to centre_of_mass 100, "]);
    let inertia = Inertia { xx: 500.0, ..chassis.inverse_inertia };
    starts(one_aim(Chassis { inverse_inertia: inertia, ..chassis }), &["inverse_inertia.xx 500, "]);
    let rotation = Rotation { x: 1.0, w: 0.0, ..Rotation::IDENTITY };
    let on_its_head = "up part of the chassis' up -1, upright it is 1, as it would be if ";
    starts(one_aim(Chassis { rotation, ..chassis }), &[on_its_head]);
    // A turn about up, with w first; and with w last, which is upright.
    let turned = |[x, y, z, w]: [f32; 4]| Chassis { rotation: Rotation { x, y, z, w }, ..chassis };
    starts(one_aim(turned([0.8, 0.0, 0.6, 0.0])), &["up part of the chassis' up -1"]);
    starts(one_aim(turned([0.0, 0.6, 0.0, 0.8])), &[]);
    starts(one_aim(turned([0.6, 0.0, 0.0, 0.8])), &[]); // on its side
    let z_up = |rotation: [f32; 4]| {
        let chassis = Chassis { rotation: Rotation::xyzw(rotation), ..chassis };
        words_of(doubts(Axis::Z, Axis::X, |mut car| car.aim(&chassis).map(|_| ())))
    };
    starts(z_up([0.8, 0.0, 0.0, 0.6]), &["up part of the chassis' up -0.2"]);
    starts(z_up([0.0, 0.0, 0.6, 0.8]), &[]);
    let step = |dt: f32, inverse_mass: f32| {
        let raft = GroundBody { inverse_mass, ..GroundBody::default() };
        reported(|mut car| Ok(car.aim(&chassis)?.drive(dt, &[raft], &[]).map(|_| ())?))
    };
    starts(step(0.1, 1.0), &[]);
    starts(step(0.5, 0.0), &["dt 0.5, "]);
    starts(step(0.01, 70.0), &["ground body 0: inverse_mass 70, "]);
    let feather = GroundBody { inverse_mass: 70.0, ..GroundBody::default() };
    let many =
        reported(|mut car| Ok(car.aim(&chassis)?.drive(0.5, &[feather; 64], &[]).map(|_| ())?));
    assert_eq!(many.map(|list| list.len()), Ok(65), "each body, and the time step");
}

/// A crowd is driven on many threads, strict vehicles too.
#[test]
fn vehicles_go_to_other_threads() -> Result<(), Refused> {
    let heard = Arc::new(Mutex::new(0));
    let count = Arc::clone(&heard);
    let car = car()?.strict(move |_| *count.lock().expect("a count") += 1);
    let drive = |mut car: Vehicle| {
        move || car.set_controls(0, &Controls { brake: 5000.0, ..Controls::default() })
    };
    let threads: Vec<_> = (0..4).map(|_| std::thread::spawn(drive(car.clone()))).collect();
    for thread in threads {
        thread.join().expect("a thread that ends")?;
    }
    assert_eq!(*heard.lock().expect("a count"), 4);
    Ok(())
}

#[test]
fn a_restored_vehicle_drives_on() -> Result<(), Refused> {
    let mut car = car()?;
    car.set_controls(1, &Controls { engine: 900.0, brake: 0.0, steering: Steering::Angle(0.2) })?;
    car.aim(&body().chassis())?.drive(0.25, &[], &[FLOOR; 4])?;
    let bytes = car.save();
    let mut again = Vehicle::restore(&bytes).expect("what was saved");
    assert_eq!((again.wheel_count(), again.save()), (4, bytes));
    assert_eq!(again.read_wheel(1)?, car.read_wheel(1)?, "it was driven");
    let moved = RigidBody { linear_velocity: Vector::new(3.0, 0.0, 1.0), ..body() }.chassis();
    let frame = |car: &mut Vehicle| -> Result<_, Refused> {
        let velocity = car.aim(&moved)?.drive(0.25, &[], &[FLOOR; 4])?.velocity();
        Ok((velocity, car.save()))
    };
    assert_eq!(frame(&mut again)?, frame(&mut car)?);
    Ok(())
}

#[test]
fn bytes_that_are_no_vehicle_are_refused() -> Result<(), Refused> {
    let bytes = car()?.save();
    assert_eq!(bytes.len(), help::SAVED);
    let why = |bytes: &[u8]| Vehicle::restore(bytes).err().map(|not| not.to_string());
    let with = |place: usize, byte: u8| {
        let mut changed = bytes.clone();
        changed[place] ^= byte;
        why(&changed).unwrap_or_default()
    };
    assert_eq!(why(&bytes), None);
    for cut in [0, 7, 19, 20, bytes.len() - 1] {
        assert!(why(&bytes[..cut]).is_some(), "the first {cut}");
    }
    assert!(why(&[&bytes[..], &[0]].concat()).is_some(), "one more");
    assert!(with(0, 1).contains("not a saved vehicle"));
    assert!(with(8, 3).contains("in a version"));
    for (place, bit) in [(12, 1), (12, 2), (16, 1), (16, 4)] {
        let said = with(place, bit);
        assert!(said.contains("a table of another size"), "byte {place}: {said}");
    }
    for place in 20..bytes.len() {
        assert!(with(place, 0x40).contains("something has changed"), "byte {place}");
    }
    // Numbers that are no vehicle, saved by the call itself.
    let saved = help::save(&[0.0; len::TABLE], &[17, 0, 1, 0]);
    assert!(why(&saved).is_some_and(|why| why.contains("no vehicle")));
    Ok(())
}
