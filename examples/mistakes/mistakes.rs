//! Each common mistake made on a sound car, and what its author sees: a refusal in words, or, for what is accepted, the doubts of the strict mode.
//! It prints the tables of docs/MISTAKES.md.
use std::cell::RefCell;

use vehicle_controller::{
    Axis, Chassis, Controls, Finding, GroundBody, Inertia, Mount, RayAnswer, Refused, RigidBody, Rotation, Sight, Steering, Vector,
    Vehicle, WheelSettings,
};

const DT: f32 = 1.0 / 60.0;
const UP: Vector = Vector::new(0.0, 1.0, 0.0);
const FLOOR: RayAnswer = RayAnswer::Hit { time: 0.9, normal: UP, body: None };

type Tried = Result<(), Refused>;

thread_local! {
    static DOUBTS: RefCell<Vec<String>> = const { RefCell::new(Vec::new()) };
}

fn mount() -> Mount {
    let (connection, direction, axle) = (Vector::new(1.25, -0.3, 0.75), Vector::new(0.0, -1.0, 0.0), Vector::new(0.0, 0.0, 1.0));
    Mount { connection, direction, axle, rest_length: 0.3, radius: 0.3 }
}

fn wheel() -> WheelSettings {
    WheelSettings { stiffness: 30.0, compression: 2.2, damping: 2.7, travel: 0.2, slip: 1.0, ..mount().wheel() }
}

fn body() -> RigidBody {
    let inertia = Inertia::of_box(1200.0, Vector::new(4.0, 1.2, 1.8));
    RigidBody { position: Vector::new(0.0, 0.8, 0.0), ..RigidBody::new(1200.0, inertia) }
}

/// A strict car of four wheels.
fn car() -> Result<Vehicle, Refused> {
    let mut car = strict(Axis::X)?;
    for _ in 0..4 {
        car.add_wheel(&wheel())?;
    }
    Ok(car)
}

fn strict(forward: Axis) -> Result<Vehicle, Refused> {
    let keep = |doubt: &Finding| DOUBTS.with_borrow_mut(|list| list.push(format!("strict: {doubt}")));
    Ok(Vehicle::new(Axis::Y, forward)?.strict(keep))
}

/// Makes the mistake, and says what is seen.
fn seen(mistake: impl FnOnce() -> Tried) -> String {
    let refused = mistake().err().map(|refused| refused.to_string());
    let doubts = DOUBTS.take();
    match (refused, doubts.is_empty()) {
        (Some(refused), true) => refused,
        (Some(refused), false) => format!("{} Then: {refused}", doubts.join(" ")),
        (None, false) => doubts.join(" "),
        (None, true) => "accepted, and nothing is said".to_owned(),
    }
}

fn row(mistake: &str, act: impl FnOnce() -> Tried) {
    println!("| {mistake} | {} |", seen(act));
}

fn head(of: &str) {
    println!("\n## {of}\n\n| the mistake | what is seen |\n|---|---|");
}

fn add(settings: WheelSettings) -> Tried {
    car()?.add_wheel(&settings).map(|_| ())
}

fn control(controls: Controls) -> Tried {
    car()?.set_controls(2, &controls)
}

fn aim(chassis: Chassis) -> Tried {
    car()?.aim(&chassis).map(|_| ())
}

fn drive(dt: f32, bodies: &[GroundBody], answers: &[RayAnswer]) -> Tried {
    Ok(car()?.aim(&body().chassis())?.drive(dt, bodies, answers).map(|_| ())?)
}

/// The floor for every wheel but the third, which has this.
fn third(answer: RayAnswer) -> Tried {
    drive(DT, &[], &[FLOOR, FLOOR, answer, FLOOR])
}

fn moments() {
    head("At the wrong moment");
    println!("| a wheel is read between aim and drive, through `Aimed` | it does not compile: an `Aimed` has no `read` |");
    row("the same through the plain calls", || {
        let mut car = car()?;
        car.aim(&body().chassis())?;
        car.read_wheel(0).map(|_| ())
    });
    row("a wheel is read before the first frame", || car()?.read_wheel(0).map(|_| ()));
    row("controls are set between aim and drive", || {
        let mut car = car()?;
        car.aim(&body().chassis())?;
        car.set_controls(0, &Controls::default())?;
        car.drive(DT, &[], &[FLOOR; 4]).map(|_| ())
    });
    row("one aim is driven twice", || {
        let mut car = car()?;
        car.aim(&body().chassis())?.drive(DT, &[], &[FLOOR; 4])?;
        car.drive(DT, &[], &[FLOOR; 4]).map(|_| ())
    });
}

fn directions() {
    head("Directions and rotations");
    let turned = |rotation| RigidBody { rotation, ..body() }.chassis();
    row("a quaternion that is not of unit length, (0, 0, 0, 2)", || aim(turned(Rotation::xyzw([0.0, 0.0, 0.0, 2.0]))));
    row("the quaternion that turns nothing with w first, (1, 0, 0, 0)", || aim(turned(Rotation::xyzw([1.0, 0.0, 0.0, 0.0]))));
    row("a normal of length two", || third(RayAnswer::Hit { time: 0.9, normal: Vector::new(0.0, 2.0, 0.0), body: None }));
    let down = |length: f32| Vector::new(0.0, -length, 0.0);
    row("a suspension direction of length two", || add(WheelSettings { direction: down(2.0), ..wheel() }));
    let direction = Mount { direction: down(2.0), ..mount() }.wheel().direction;
    row("the same in a `Mount`, which makes it unit length", || add(WheelSettings { direction, ..wheel() }));
    row("a zero suspension direction, steered by an angle", || {
        let mut car = car()?;
        let wheel = car.add_wheel(&WheelSettings { direction: Vector::ZERO, ..wheel() })?;
        car.set_controls(wheel, &Controls { steering: Steering::Angle(0.1), ..Controls::default() })?;
        car.aim(&body().chassis()).map(|_| ())
    });
    row("a zero axle", || add(WheelSettings { axle: Vector::ZERO, ..wheel() }));
    row("an axle turned round, as for the wheels of the other side", || {
        add(WheelSettings { axle: Vector::new(0.0, 0.0, -1.0), ..wheel() })
    });
    row("a floor's normal turned round", || third(RayAnswer::Hit { time: 0.9, normal: Vector::new(0.0, -1.0, 0.0), body: None }));
    row("up and forward axis the same", || strict(Axis::Y).map(|_| ()));
}

fn units() {
    head("Another number in its place");
    row("three ray answers for four wheels", || drive(DT, &[], &[FLOOR; 3]));
    row("a hit's distance in metres for its time, 1.3", || third(RayAnswer::Hit { time: 1.3, normal: UP, body: None }));
    let short = "a distance in metres below 1 for its time: no call can tell it from a fraction. `RayAnswer::at_distance` takes metres";
    row(short, || third(RayAnswer::Hit { time: 0.54, normal: UP, body: None }));
    let mass = Chassis { inverse_mass: 1200.0, effective_inverse_masses: Vector::new(1200.0, 1200.0, 1200.0), ..body().chassis() };
    row("the mass for the inverse mass", || aim(mass));
    row("a mass of 0", || aim(RigidBody { mass: 0.0, ..body() }.chassis()));
    let far = RigidBody { position: Vector::new(80.0, 0.8, 0.0), ..body() }.chassis();
    row("the local centre of mass for that in the world", || aim(Chassis { centre_of_mass: Vector::ZERO, ..far }));
    row("the time step in milliseconds, 16.7", || drive(16.7, &[], &[FLOOR; 4]));
    row("a time step of a quarter of a second", || drive(0.25, &[], &[FLOOR; 4]));
    row("an infinite engine force", || control(Controls { engine: f32::INFINITY, ..Controls::default() }));
    row("an engine's power, 100 kW, for its force", || control(Controls { engine: 100_000.0, ..Controls::default() }));
    row("a brake's force, 3000 N, for its impulse in a step", || control(Controls { brake: 3000.0, ..Controls::default() }));
    row("a brake on a wheel whose engine still pulls", || control(Controls { engine: 1000.0, brake: 30.0, ..Controls::default() }));
    row("a steering angle of 30 degrees", || control(Controls { steering: Steering::Angle(30.0), ..Controls::default() }));
    row("a spring rate of 36000 N/m, not divided by the mass", || add(WheelSettings { stiffness: 36_000.0, ..wheel() }));
    row("the source's tuning, which `Mount::wheel` gives, left as it is", || add(mount().wheel()));
    row("a body that is not in the list", || third(RayAnswer::Hit { time: 0.9, normal: UP, body: Some(2) }));
}

/// What a NaN in one place is called, or that it is not looked at.
fn named(tried: Tried) -> String {
    let culprit = tried.err().and_then(|refused| refused.culprit);
    culprit.map_or("not looked at".to_owned(), |found| found.words.split(',').next().unwrap_or_default().to_owned())
}

/// Each place of a value whose fields are all floats, as a NaN.
fn each<T: Copy, const N: usize>(call: &str, of: T, set: [fn(&mut T, f32); N], act: impl Fn(T) -> Tried) {
    let names = set.map(|set| {
        let mut spoilt = of;
        set(&mut spoilt, f32::NAN);
        named(act(spoilt))
    });
    println!("| {call} | {} |", names.join("; "));
}

fn nans() {
    println!("\n## NaN in each field\n\nEach is refused with 2, a hit's time with 6, and named:\n\n| in | what is named |\n|---|---|");
    each(
        "a wheel",
        wheel(),
        [
            |w, x| w.connection.x = x,
            |w, x| w.connection.y = x,
            |w, x| w.connection.z = x,
            |w, x| w.direction.x = x,
            |w, x| w.direction.y = x,
            |w, x| w.direction.z = x,
            |w, x| w.axle.x = x,
            |w, x| w.axle.y = x,
            |w, x| w.axle.z = x,
            |w, x| w.rest_length = x,
            |w, x| w.radius = x,
            |w, x| w.stiffness = x,
            |w, x| w.compression = x,
            |w, x| w.damping = x,
            |w, x| w.travel = x,
            |w, x| w.side_stiffness = x,
            |w, x| w.slip = x,
            |w, x| w.most_force = x,
            |w, x| w.roll_influence = x,
        ],
        add,
    );
    let steered: [fn(&mut Controls, f32); 3] = [|c, x| c.engine = x, |c, x| c.brake = x, |c, x| c.steering = Steering::Angle(x)];
    each("controls by angle", Controls { steering: Steering::Angle(0.0), ..Controls::default() }, steered, control);
    each("a steering rotation", Rotation::IDENTITY, [|r, x| r.x = x, |r, x| r.y = x, |r, x| r.z = x, |r, x| r.w = x], |turn| {
        control(Controls { steering: Steering::Rotation(turn), ..Controls::default() })
    });
    nans_of_bodies();
    each("the time step", DT, [|dt, x| *dt = x], |dt| drive(dt, &[], &[FLOOR; 4]));
    let hit = |(time, normal): (f32, Vector)| third(RayAnswer::Hit { time, normal, body: None });
    each("a hit", (0.9, UP), [|h, x| h.0 = x, |h, x| h.1.x = x, |h, x| h.1.y = x, |h, x| h.1.z = x], hit);
    each("an upward normal", UP, [|u, x| u.x = x, |u, x| u.y = x, |u, x| u.z = x], |upward| {
        third(RayAnswer::HitUp { time: 0.9, normal: UP, upward, body: None })
    });
}

fn nans_of_bodies() {
    each(
        "a chassis",
        body().chassis(),
        [
            |c, x| c.translation.x = x,
            |c, x| c.translation.y = x,
            |c, x| c.translation.z = x,
            |c, x| c.rotation.x = x,
            |c, x| c.rotation.y = x,
            |c, x| c.rotation.z = x,
            |c, x| c.rotation.w = x,
            |c, x| c.centre_of_mass.x = x,
            |c, x| c.centre_of_mass.y = x,
            |c, x| c.centre_of_mass.z = x,
            |c, x| c.linear_velocity.x = x,
            |c, x| c.linear_velocity.y = x,
            |c, x| c.linear_velocity.z = x,
            |c, x| c.angular_velocity.x = x,
            |c, x| c.angular_velocity.y = x,
            |c, x| c.angular_velocity.z = x,
            |c, x| c.inverse_mass = x,
            |c, x| c.effective_inverse_masses.x = x,
            |c, x| c.effective_inverse_masses.y = x,
            |c, x| c.effective_inverse_masses.z = x,
            |c, x| c.inverse_inertia.xx = x,
            |c, x| c.inverse_inertia.xy = x,
            |c, x| c.inverse_inertia.xz = x,
            |c, x| c.inverse_inertia.yy = x,
            |c, x| c.inverse_inertia.yz = x,
            |c, x| c.inverse_inertia.zz = x,
        ],
        aim,
    );
    each(
        "a ground body",
        body().ground(),
        [
            |b, x| b.centre_of_mass.x = x,
            |b, x| b.centre_of_mass.y = x,
            |b, x| b.centre_of_mass.z = x,
            |b, x| b.linear_velocity.x = x,
            |b, x| b.linear_velocity.y = x,
            |b, x| b.linear_velocity.z = x,
            |b, x| b.angular_velocity.x = x,
            |b, x| b.angular_velocity.y = x,
            |b, x| b.angular_velocity.z = x,
            |b, x| b.inverse_mass = x,
            |b, x| b.inverse_inertia.xx = x,
            |b, x| b.inverse_inertia.xy = x,
            |b, x| b.inverse_inertia.xz = x,
            |b, x| b.inverse_inertia.yy = x,
            |b, x| b.inverse_inertia.yz = x,
            |b, x| b.inverse_inertia.zz = x,
        ],
        |ground| drive(DT, &[ground], &[FLOOR; 4]),
    );
}

/// The sound car is what every mistake starts from: nothing is to be said of it.
fn sound() -> Tried {
    let mut car = car()?;
    let aimed = car.aim(&body().chassis())?;
    let floor = |sight: &Sight| RayAnswer::at_distance(sight, sight.start.y, UP, None);
    let answers: Vec<_> = aimed.sights().iter().map(floor).collect();
    aimed.drive(DT, &[], &answers)?.read(0).map(|_| ())
}

fn main() {
    assert_eq!(seen(sound), "accepted, and nothing is said");
    moments();
    directions();
    units();
    nans();
}
