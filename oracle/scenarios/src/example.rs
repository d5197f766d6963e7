//! The examples of `examples/`: a small car on flat ground rolls, brakes and steers; and it drops and
//! lands.
//!
//! As in `car`, the chassis is moved between the frames from the oracle's own answers.

use vehicle::handed::{Chassis, Controls, Drive, Hit, NewWheel, RayAnswer};
use vehicle::math::{Pose, Rotation, Steering, Vector};

use crate::car::{turned, turned_inertia, GRAVITY};
use crate::parts::turn;
use crate::script::{stream_of, Script};

const MASS: f32 = 1000.0;
const DT: f32 = 1.0 / 24.0;
const FRAMES: usize = 3;
const REST: f32 = 0.3;
const RADIUS: f32 = 0.35;
const STIFFNESS: f32 = 25.0;
const CONNECTION: f32 = -0.2;
/// How far above its place at rest the car that lands is let go, and for how many frames it is seen.
const DROP: f32 = 0.3;
const LANDING_FRAMES: usize = 16;

/// What the driver does for some frames.
struct Driver {
    /// Force of each rear wheel.
    engine: f32,
    brake: f32,
    /// Tangent of half the angle that the front wheels are turned by.
    steer: f32,
}

const DRIVERS: [Driver; 3] = [
    Driver { engine: 800.0, brake: 0.0, steer: 0.0 },
    Driver { engine: 0.0, brake: 400.0, steer: 0.0 },
    Driver { engine: 0.0, brake: 0.0, steer: 0.15 },
];

/// The example's bytes.
pub fn example() -> Vec<u8> {
    let mut script = with_wheels();
    let mut chassis = standing();
    for driver in &DRIVERS {
        for _ in 0..FRAMES {
            chassis = frame(&mut script, driver, chassis, 4);
        }
    }
    read_too_early(&mut script, chassis);
    stream_of(&script.finished())
}

/// The bytes of the car that drops and lands: its first wheel is read in each frame.
pub fn landing() -> Vec<u8> {
    let mut script = with_wheels();
    let mut chassis = standing();
    chassis.linear = Vector::ZERO;
    chassis.pose.translation.y += DROP;
    chassis = settled(chassis);
    let coasting = Driver { engine: 0.0, brake: 0.0, steer: 0.0 };
    for _ in 0..LANDING_FRAMES {
        chassis = frame(&mut script, &coasting, chassis, 1);
    }
    stream_of(&script.finished())
}

/// A long stream in three parts: the first once, the second for each drive, the last once.
pub fn drives() -> [Vec<u8>; 3] {
    let mut script = with_wheels();
    let start = script.codes.len();
    let answers = script.aim(standing()).rays.iter().map(|ray| ground(*ray)).collect();
    script.drive(Drive { dt: DT, bodies: Vec::new(), answers });
    let end = script.codes.len();
    let codes = script.finished();
    [stream_of(&codes[..start]), stream_of(&codes[start..end]), stream_of(&codes[end..])]
}

fn with_wheels() -> Script {
    let mut script = Script::new();
    for x in [1.25, -1.25] {
        for z in [0.75, -0.75] {
            script.add(wheel(Vector::new(x, CONNECTION, z)));
        }
    }
    script
}

/// A wheel read between aim and drive: refused.
fn read_too_early(script: &mut Script, chassis: Chassis) {
    script.aim(chassis);
    script.read_settled(0);
}

fn wheel(connection_point: Vector) -> NewWheel {
    NewWheel {
        connection_point,
        direction: Vector::new(0.0, -1.0, 0.0),
        axle: Vector::new(0.0, 0.0, 1.0),
        rest_length: REST,
        radius: RADIUS,
        stiffness: STIFFNESS,
        compression: 2.0,
        damping: 2.5,
        travel: 0.25,
        side_stiffness: 1.0,
        slip: 0.8,
        max_force: 6000.0,
        roll_influence: None,
    }
}

/// At rest on its springs, at 12 m/s along the forward axis.
fn standing() -> Chassis {
    let sag = GRAVITY / (4.0 * STIFFNESS);
    let height = REST - sag + RADIUS - CONNECTION;
    let inverse = 1.0 / MASS;
    settled(Chassis {
        pose: Pose { rotation: Rotation::IDENTITY, translation: Vector::new(0.0, height, 0.0) },
        center_of_mass: Vector::ZERO,
        linear: Vector::new(12.0, 0.0, 0.0),
        angular: Vector::ZERO,
        inverse_mass: inverse,
        effective_inverse_masses: Vector::new(inverse, inverse, inverse),
        inverse_inertia: [0.0; 6],
    })
}

/// What follows from the pose: centre of mass and inverse inertia in the world.
fn settled(chassis: Chassis) -> Chassis {
    let local = Vector::new(2.0 / MASS, 0.6 / MASS, 0.7 / MASS);
    Chassis {
        center_of_mass: chassis.pose.translation,
        inverse_inertia: turned_inertia(chassis.pose.rotation, local),
        ..chassis
    }
}

/// Controls, aim, drive, and the first wheels read; the chassis of the next frame.
fn frame(script: &mut Script, driver: &Driver, chassis: Chassis, reads: u32) -> Chassis {
    let up = chassis.pose.rotation * Vector::new(0.0, 1.0, 0.0);
    for wheel in 0..4 {
        let is_front = wheel < 2;
        let steering = if is_front { turn(up, driver.steer) } else { Rotation::IDENTITY };
        script.controls(
            wheel,
            Controls {
                engine: if is_front { 0.0 } else { driver.engine },
                brake: driver.brake,
                steering: Steering::Rotation(steering),
            },
        );
    }
    let answers = script.aim(chassis).rays.iter().map(|ray| ground(*ray)).collect();
    let driven = script.drive(Drive { dt: DT, bodies: Vec::new(), answers });
    for wheel in 0..reads {
        script.read_settled(wheel);
    }
    moved(chassis, driven.linear, driven.angular)
}

/// The flat ground at height 0.
fn ground((source, ray): (Vector, Vector)) -> RayAnswer {
    let time = source.y / -ray.y;
    let normal = Vector::new(0.0, 1.0, 0.0);
    (time <= 1.0).then_some(Hit { time, normal, upward_normal: None, body: None })
}

/// Gravity, then the new place of the chassis.
fn moved(chassis: Chassis, linear: Vector, angular: Vector) -> Chassis {
    let linear = linear - Vector::new(0.0, GRAVITY * DT, 0.0);
    settled(Chassis {
        pose: Pose {
            rotation: turned(chassis.pose.rotation, angular * DT),
            translation: chassis.pose.translation + linear * DT,
        },
        linear,
        angular,
        ..chassis
    })
}
