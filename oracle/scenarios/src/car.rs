//! A car over many frames: throttle, brake, steering, slopes, jumps and landings, moving ground.
//!
//! The chassis is moved between the frames from the oracle's own answers, so that they hang
//! together; in some frames one tyre's engine force or brake is put at the very edge of its grip.

use vehicle::handed::{Chassis, Controls, Drive, GroundBody, Hit, NewWheel, RayAnswer};
use vehicle::math::{Pose, Rotation, Steering, Vector};
use vehicle::table::ACCEPTED;

use crate::parts::turn;
use crate::random::Random;
use crate::script::{stream_of, Script};

pub(crate) const GRAVITY: f32 = 9.81;
/// The frames of a chassis that moves faster than this no longer look like a car's.
const TOO_FAST: f32 = 500.0;

pub fn scenario(random: &mut Random) -> Vec<u8> {
    let mut car = Car::new(random);
    let frames = 10 + random.below(70);
    for frame in 0..frames {
        if !car.frame(random, frame) {
            break;
        }
    }
    stream_of(&car.script.finished())
}

struct Car {
    script: Script,
    chassis: Chassis,
    /// The centre of mass as the chassis sees it.
    local_center: Vector,
    /// The inverse inertia about the chassis' own axes.
    local_inertia: Vector,
    mass: f32,
    dt: f32,
    strips: Vec<Strip>,
    strip_length: f32,
    bodies: Vec<GroundBody>,
    driver: Driver,
}

/// What the driver does for a while.
#[derive(Copy, Clone)]
struct Driver {
    frames_left: usize,
    /// Force of each powered wheel.
    engine: f32,
    brake: f32,
    /// Tangent of half the steering angle.
    steer: f32,
    powered: Powered,
}

#[derive(Copy, Clone, PartialEq)]
enum Powered {
    None,
    Front,
    Rear,
    All,
}

/// A stretch of ground along x.
#[derive(Copy, Clone)]
struct Strip {
    is_gap: bool,
    height: f32,
    slope_x: f32,
    slope_z: f32,
    body: Option<u32>,
}

impl Car {
    fn new(random: &mut Random) -> Car {
        let mass = random.between(500.0, 2500.0);
        let bodies = ground_bodies(random, mass);
        let inverse_mass = 1.0 / mass;
        let spread = random.between(0.3, 1.5);
        let mut car = Car {
            script: Script::new(),
            chassis: Chassis {
                pose: Pose {
                    rotation: Rotation::IDENTITY,
                    translation: Vector::new(0.0, random.between(0.5, 2.5), 0.0),
                },
                center_of_mass: Vector::ZERO,
                linear: Vector::new(random.between(-5.0, 30.0), random.between(-3.0, 1.0), 0.0),
                angular: Vector::ZERO,
                inverse_mass,
                effective_inverse_masses: Vector::new(inverse_mass, inverse_mass, inverse_mass),
                inverse_inertia: [0.0; 6],
            },
            local_center: Vector::new(
                random.between(-0.2, 0.2),
                random.between(-0.4, 0.1),
                random.between(-0.05, 0.05),
            ),
            local_inertia: Vector::new(
                inverse_mass / (0.3 * spread),
                inverse_mass / (1.2 * spread),
                inverse_mass / spread,
            ),
            mass,
            dt: random.pick(&[1.0 / 60.0, 1.0 / 24.0, 1.0 / 30.0, 1.0 / 120.0]),
            strips: strips(random, bodies.len()),
            strip_length: random.between(2.0, 12.0),
            bodies,
            driver: Driver::new(random, mass),
        };
        if random.once_in(5) {
            car.chassis.linear.z = random.between(-12.0, 12.0);
            car.chassis.angular.y = random.between(-2.0, 2.0);
        }
        car.settle();
        car.add_wheels(random);
        car
    }

    /// Four wheels, sometimes two to six, all with one tuning or each with its own.
    fn add_wheels(&mut self, random: &mut Random) {
        let pairs = random.pick(&[2, 2, 2, 2, 1, 3]);
        let half_length = random.between(1.0, 1.8);
        let half_width = random.between(0.6, 0.9);
        let shared = wheel(random, pairs);
        for pair in 0..pairs {
            let x = if pairs == 1 {
                0.0
            } else {
                half_length - 2.0 * half_length * pair as f32 / (pairs - 1) as f32
            };
            for z in [half_width, -half_width] {
                let own = if random.once_in(6) { wheel(random, pairs) } else { shared };
                let connection_point = Vector::new(x, own.connection_point.y, z);
                self.script.add(NewWheel { connection_point, ..own });
            }
        }
    }

    /// One frame; false if the car has left what looks like a car's motion.
    fn frame(&mut self, random: &mut Random, frame: usize) -> bool {
        self.driver.frames_left = self.driver.frames_left.saturating_sub(1);
        if self.driver.frames_left == 0 {
            self.driver = Driver::new(random, self.mass);
        }
        let controls = self.wanted_controls();
        for (wheel, controls) in controls.iter().enumerate() {
            self.script.controls(wheel as u32, *controls);
        }
        let aimed = self.script.aim(self.chassis);
        if aimed.answer != ACCEPTED {
            return false;
        }
        let answers = aimed.rays.iter().map(|ray| self.cast(random, *ray)).collect();
        let drive = Drive { dt: self.dt, bodies: self.bodies.clone(), answers };
        if random.once_in(4) {
            self.go_to_the_edge_of_grip(random, &controls, &drive);
        }
        let long = with_long_normals(&drive);
        if random.once_in(40) && long != drive {
            // Refused, and the frame goes on as if it had not been tried.
            self.script.drive(long);
        }
        let driven = self.script.drive(drive);
        if driven.answer != ACCEPTED {
            return false;
        }
        if random.once_in(3) {
            self.script.read_all();
        } else {
            let wheel = frame % self.script.count().max(1);
            self.script.read(wheel as u32);
        }
        self.chassis.linear = driven.linear;
        self.chassis.angular = driven.angular;
        self.fall_and_move();
        is_slow(self.chassis.linear) && is_slow(self.chassis.angular)
    }

    /// The driver's wish for each wheel; the first pair steers about minus its direction.
    fn wanted_controls(&self) -> Vec<Controls> {
        let pairs = self.script.count() / 2;
        let up = self.chassis.pose.rotation * Vector::new(0.0, 1.0, 0.0);
        let one = |wheel: usize| {
            let pair = wheel / 2;
            let is_powered = match self.driver.powered {
                Powered::None => false,
                Powered::Front => pair == 0,
                Powered::Rear => pair + 1 == pairs,
                Powered::All => true,
            };
            let steering = if pair == 0 { turn(up, self.driver.steer) } else { Rotation::IDENTITY };
            Controls {
                engine: if is_powered { self.driver.engine } else { 0.0 },
                brake: self.driver.brake,
                steering: Steering::Rotation(steering),
            }
        };
        (0..self.script.count()).map(one).collect()
    }

    /// Casts a wheel's ray on the strip below its start.
    fn cast(&self, random: &mut Random, (source, ray): (Vector, Vector)) -> RayAnswer {
        let strip = self.strip_at(source.x)?;
        let start = (source.x / self.strip_length).floor() * self.strip_length;
        let height = strip.height + strip.slope_x * (source.x - start) + strip.slope_z * source.z;
        let normal = Vector::new(-strip.slope_x, 1.0, -strip.slope_z).normalize_or_zero();
        let body = strip.body;
        if source.y <= height {
            // The ray starts in the ground: time 0, no normal, and mostly an upward one.
            let upward_normal = if random.once_in(4) { None } else { Some(-normal) };
            return Some(Hit { time: 0.0, normal: Vector::ZERO, upward_normal, body });
        }
        let below = normal.dot(ray);
        let time = (height - source.y) * normal.y / below;
        let upward_normal = if random.once_in(8) { Some(-normal) } else { None };
        ((0.0..=1.0).contains(&time) && below < 0.0).then_some(Hit {
            time,
            normal,
            upward_normal,
            body,
        })
    }

    fn strip_at(&self, x: f32) -> Option<Strip> {
        let place = (x / self.strip_length).floor().clamp(-1e6, 1e6) as i64;
        let strip = self.strips[place.rem_euclid(self.strips.len() as i64) as usize];
        (!strip.is_gap).then_some(strip)
    }

    /// Gives one grounded wheel the engine force or brake at which its tyre just slides, or its
    /// neighbour below, by halving the span between a force that grips and one that slides.
    fn go_to_the_edge_of_grip(
        &mut self,
        random: &mut Random,
        controls: &[Controls],
        drive: &Drive,
    ) {
        let wheel = random.below(controls.len());
        let by_brake = random.once_in(3);
        let chassis = self.chassis;
        let with = |size: f32| {
            let wanted = controls[wheel];
            if by_brake {
                Controls { engine: 0.0, brake: size, ..wanted }
            } else {
                Controls { engine: size, ..wanted }
            }
        };
        let slides = |size: f32| {
            let mut trial = self.script.table.clone();
            trial.set_controls(wheel as u32, &with(size));
            trial.aim(&chassis);
            let driven = trial.drive(drive);
            driven.grips.get(wheel).is_some_and(|grip| grip.slides())
        };
        let (mut grips, mut slid) = (f32::MIN_POSITIVE.to_bits(), 1_000_000f32.to_bits());
        if slides(f32::from_bits(grips)) || !slides(f32::from_bits(slid)) {
            return;
        }
        while slid - grips > 1 {
            let middle = grips + (slid - grips) / 2;
            if slides(f32::from_bits(middle)) {
                slid = middle;
            } else {
                grips = middle;
            }
        }
        let edge = random.pick(&[grips - 1, grips, slid, slid + 1]);
        self.script.controls(wheel as u32, with(f32::from_bits(edge)));
        self.script.aim(chassis);
    }

    /// Gravity, then the new place of the chassis and of the ground bodies.
    fn fall_and_move(&mut self) {
        let dt = self.dt;
        self.chassis.linear.y -= GRAVITY * dt;
        let center = self.chassis.center_of_mass + self.chassis.linear * dt;
        let rotation = turned(self.chassis.pose.rotation, self.chassis.angular * dt);
        self.chassis.pose.rotation = rotation;
        self.chassis.pose.translation = center - rotation * self.local_center;
        self.settle();
        for body in &mut self.bodies {
            body.center_of_mass += body.linear * dt;
        }
    }

    /// What follows from the pose: centre of mass and inverse inertia in the world.
    fn settle(&mut self) {
        self.chassis.center_of_mass = &self.chassis.pose * self.local_center;
        self.chassis.inverse_inertia =
            turned_inertia(self.chassis.pose.rotation, self.local_inertia);
    }
}

/// The same drive on a set that was scaled: every normal is twice as long. Where each is zero, or
/// nothing is hit, it is the very same.
fn with_long_normals(drive: &Drive) -> Drive {
    let long = |hit: Hit| Hit {
        normal: hit.normal * 2.0,
        upward_normal: hit.upward_normal.map(|normal| normal * 2.0),
        ..hit
    };
    let answers = drive.answers.iter().map(|answer| answer.map(long)).collect();
    Drive { answers, ..drive.clone() }
}

impl Driver {
    fn new(random: &mut Random, mass: f32) -> Driver {
        let style = random.below(6);
        let full = mass * random.between(0.5, 6.0);
        let brake = mass * random.between(0.001, 0.2);
        Driver {
            frames_left: 4 + random.below(20),
            engine: match style {
                0 | 1 => full,
                2 => -full * 0.4,
                _ => 0.0,
            },
            brake: if style == 3 || random.once_in(4) { brake } else { 0.0 },
            steer: if random.once_in(2) { random.between(-0.4, 0.4) } else { 0.0 },
            powered: random.pick(&[Powered::None, Powered::Front, Powered::Rear, Powered::All]),
        }
    }
}

/// A wheel whose springs can carry the car when `pairs` pairs of them stand on the ground.
fn wheel(random: &mut Random, pairs: usize) -> NewWheel {
    let rest_length = random.between(0.2, 0.6);
    let sag = random.between(0.05, 0.15);
    NewWheel {
        connection_point: Vector::new(0.0, random.between(-0.3, 0.1), 0.0),
        direction: Vector::new(0.0, -1.0, 0.0),
        axle: Vector::new(0.0, 0.0, 1.0),
        rest_length,
        radius: random.between(0.25, 0.45),
        stiffness: GRAVITY / (2.0 * pairs as f32 * sag),
        compression: random.between(0.5, 4.0),
        damping: random.between(0.5, 6.0),
        travel: random.pick(&[0.1, 0.25, 0.5, 5.0]),
        side_stiffness: random.pick(&[0.5, 1.0, 1.0, 3.0]),
        slip: random.pick(&[0.1, 0.4, 0.8, 1.0, 1.5, 3.0, 10.5]),
        max_force: random.pick(&[800.0, 6000.0, 6000.0, 100_000.0]),
        roll_influence: None,
    }
}

fn ground_bodies(random: &mut Random, mass: f32) -> Vec<GroundBody> {
    let body = |random: &mut Random| {
        let inverse_mass = 1.0 / (mass * random.between(0.2, 20.0));
        GroundBody {
            center_of_mass: Vector::new(
                random.between(-5.0, 20.0),
                -1.0,
                random.between(-3.0, 3.0),
            ),
            linear: Vector::new(random.between(-8.0, 8.0), 0.0, random.between(-3.0, 3.0)),
            angular: Vector::new(0.0, random.between(-1.0, 1.0), 0.0),
            inverse_mass: if random.once_in(4) { 0.0 } else { inverse_mass },
            inverse_inertia: [inverse_mass * 0.5, 0.0, 0.0, inverse_mass * 0.3, 0.0, inverse_mass],
            dynamic: random.once_in(2),
        }
    };
    (0..random.pick(&[0, 1, 2, 4])).map(|_| body(random)).collect()
}

fn strips(random: &mut Random, bodies: usize) -> Vec<Strip> {
    let strip = |random: &mut Random| Strip {
        is_gap: random.once_in(8),
        height: random.pick(&[0.0, 0.0, 0.0, 0.1, -0.2, 0.4]),
        slope_x: if random.once_in(2) { 0.0 } else { random.between(-0.3, 0.3) },
        slope_z: if random.once_in(2) { 0.0 } else { random.between(-0.2, 0.2) },
        body: (bodies > 0 && random.once_in(2)).then(|| random.below(bodies) as u32),
    };
    (0..8).map(|_| strip(random)).collect()
}

/// The rotation a little later: a first-order turn, brought back to unit length.
pub(crate) fn turned(rotation: Rotation, by: Vector) -> Rotation {
    let b = Vector::new(rotation.x, rotation.y, rotation.z);
    let half = by * 0.5;
    let turned = b + half * rotation.w + half.cross(b);
    let w = rotation.w - half.dot(b);
    let length = (turned.dot(turned) + w * w).sqrt();
    Rotation::new(turned.x / length, turned.y / length, turned.z / length, w / length)
}

/// Rotation × diagonal × its transpose, as six numbers.
pub(crate) fn turned_inertia(rotation: Rotation, diagonal: Vector) -> [f32; 6] {
    let column = |axis: Vector| rotation * axis;
    let x = column(Vector::new(1.0, 0.0, 0.0));
    let y = column(Vector::new(0.0, 1.0, 0.0));
    let z = column(Vector::new(0.0, 0.0, 1.0));
    let entry = |part: fn(Vector) -> f32, other: fn(Vector) -> f32| {
        part(x) * other(x) * diagonal.x
            + part(y) * other(y) * diagonal.y
            + part(z) * other(z) * diagonal.z
    };
    [
        entry(|v| v.x, |v| v.x),
        entry(|v| v.x, |v| v.y),
        entry(|v| v.x, |v| v.z),
        entry(|v| v.y, |v| v.y),
        entry(|v| v.y, |v| v.z),
        entry(|v| v.z, |v| v.z),
    ]
}

fn is_slow(velocity: Vector) -> bool {
    velocity.parts().into_iter().all(|part| part.abs() < TOO_FAST)
}
