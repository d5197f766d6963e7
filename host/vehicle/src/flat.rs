//! The types as the library's flat lists, and back. Each function stands for one list of `ffi::len`, in its order.

use crate::ffi::{help, kind, len};
use crate::parts::{
    Chassis, Controls, GroundBody, Inertia, Mount, RayAnswer, Reading, RigidBody, Rotation, Sight,
    Vector, Velocity, WheelSettings,
};

/// The places of the wheel count and the two axes among the whole numbers.
pub const COUNT: usize = 0;
pub const UP: usize = 2;
pub const FORWARD: usize = 3;

pub fn settings(s: &WheelSettings) -> [f32; len::SETTINGS] {
    let Vector { x: cx, y: cy, z: cz } = s.connection;
    let Vector { x: dx, y: dy, z: dz } = s.direction;
    let Vector { x: ax, y: ay, z: az } = s.axle;
    [
        cx,
        cy,
        cz,
        dx,
        dy,
        dz,
        ax,
        ay,
        az,
        s.rest_length,
        s.radius,
        s.stiffness,
        s.compression,
        s.damping,
        s.travel,
        s.side_stiffness,
        s.slip,
        s.most_force,
        s.roll_influence,
    ]
}

pub fn settings_from(n: &[f32; len::SETTINGS]) -> WheelSettings {
    WheelSettings {
        connection: vector(n, 0),
        direction: vector(n, 3),
        axle: vector(n, 6),
        rest_length: n[9],
        radius: n[10],
        stiffness: n[11],
        compression: n[12],
        damping: n[13],
        travel: n[14],
        side_stiffness: n[15],
        slip: n[16],
        most_force: n[17],
        roll_influence: n[18],
    }
}

/// The controls with this rotation for their steering.
pub fn controls(c: &Controls, steering: Rotation) -> [f32; len::CONTROLS] {
    let Rotation { x, y, z, w } = steering;
    [c.engine, c.brake, x, y, z, w]
}

/// The controls with this angle for their steering.
pub fn controls_by_angle(c: &Controls, angle: f32) -> [f32; len::CONTROLS_BY_ANGLE] {
    [c.engine, c.brake, angle]
}

pub fn chassis(c: &Chassis) -> [f32; len::CHASSIS] {
    let Vector { x: tx, y: ty, z: tz } = c.translation;
    let Rotation { x: qx, y: qy, z: qz, w: qw } = c.rotation;
    let Vector { x: cx, y: cy, z: cz } = c.centre_of_mass;
    let Vector { x: lx, y: ly, z: lz } = c.linear_velocity;
    let Vector { x: ax, y: ay, z: az } = c.angular_velocity;
    let Vector { x: ex, y: ey, z: ez } = c.effective_inverse_masses;
    let Inertia { xx, xy, xz, yy, yz, zz } = c.inverse_inertia;
    let m = c.inverse_mass;
    [
        tx, ty, tz, qx, qy, qz, qw, cx, cy, cz, lx, ly, lz, ax, ay, az, m, ex, ey, ez, xx, xy, xz,
        yy, yz, zz,
    ]
}

pub fn chassis_from(n: &[f32; len::CHASSIS]) -> Chassis {
    Chassis {
        translation: vector(n, 0),
        rotation: Rotation { x: n[3], y: n[4], z: n[5], w: n[6] },
        centre_of_mass: vector(n, 7),
        linear_velocity: vector(n, 10),
        angular_velocity: vector(n, 13),
        inverse_mass: n[16],
        effective_inverse_masses: vector(n, 17),
        inverse_inertia: inertia(n, 20),
    }
}

fn body(b: &GroundBody) -> [f32; len::BODY] {
    let Vector { x: cx, y: cy, z: cz } = b.centre_of_mass;
    let Vector { x: lx, y: ly, z: lz } = b.linear_velocity;
    let Vector { x: ax, y: ay, z: az } = b.angular_velocity;
    let Inertia { xx, xy, xz, yy, yz, zz } = b.inverse_inertia;
    [cx, cy, cz, lx, ly, lz, ax, ay, az, b.inverse_mass, xx, xy, xz, yy, yz, zz]
}

pub fn body_from(n: &[f32; len::BODY], dynamic: bool) -> GroundBody {
    GroundBody {
        centre_of_mass: vector(n, 0),
        linear_velocity: vector(n, 3),
        angular_velocity: vector(n, 6),
        inverse_mass: n[9],
        inverse_inertia: inertia(n, 10),
        dynamic,
    }
}

/// What the makers of `ffi::help` take.
pub fn rigid_body(b: &RigidBody) -> help::RigidBody {
    let Inertia { xx, xy, xz, yy, yz, zz } = b.local_inertia;
    let Rotation { x, y, z, w } = b.rotation;
    help::RigidBody {
        mass: b.mass,
        local_centre_of_mass: b.local_centre_of_mass.into(),
        local_inertia: [xx, xy, xz, yy, yz, zz],
        position: b.position.into(),
        rotation: [x, y, z, w],
        linear_velocity: b.linear_velocity.into(),
        angular_velocity: b.angular_velocity.into(),
        locked: b.locked.map(u32::from),
    }
}

pub fn mount(m: &Mount) -> help::Mount {
    help::Mount {
        connection: m.connection.into(),
        direction: m.direction.into(),
        axle: m.axle.into(),
        rest_length: m.rest_length,
        radius: m.radius,
    }
}

/// The lists of a drive.
pub struct Lists {
    pub bodies: Vec<f32>,
    pub dynamic: Vec<u32>,
    pub kinds: Vec<u32>,
    pub named: Vec<u32>,
    pub rays: Vec<f32>,
}

impl Lists {
    pub fn of(bodies: &[GroundBody], answers: &[RayAnswer]) -> Self {
        Lists {
            bodies: bodies.iter().flat_map(body).collect(),
            dynamic: bodies.iter().map(|body| u32::from(body.dynamic)).collect(),
            kinds: answers.iter().map(answer_kind).collect(),
            named: answers.iter().map(named).collect(),
            rays: answers.iter().flat_map(ray).collect(),
        }
    }
}

fn answer_kind(answer: &RayAnswer) -> u32 {
    match answer {
        RayAnswer::Nothing => kind::NOTHING,
        RayAnswer::Hit { .. } => kind::HIT,
        RayAnswer::HitUp { .. } => kind::HIT_UP,
    }
}

/// 0 for no body, n + 1 for body n. The last number there is names no body of any list.
fn named(answer: &RayAnswer) -> u32 {
    match answer {
        RayAnswer::Hit { body: Some(body), .. } | RayAnswer::HitUp { body: Some(body), .. } => {
            body.saturating_add(1)
        }
        _ => 0,
    }
}

fn ray(answer: &RayAnswer) -> [f32; len::RAY] {
    let (time, normal, upward) = match *answer {
        RayAnswer::Nothing => (0.0, Vector::ZERO, Vector::ZERO),
        RayAnswer::Hit { time, normal, .. } => (time, normal, Vector::ZERO),
        RayAnswer::HitUp { time, normal, upward, .. } => (time, normal, upward),
    };
    [time, normal.x, normal.y, normal.z, upward.x, upward.y, upward.z]
}

fn vector(numbers: &[f32], place: usize) -> Vector {
    Vector::new(numbers[place], numbers[place + 1], numbers[place + 2])
}

fn inertia(numbers: &[f32], place: usize) -> Inertia {
    Inertia::from(std::array::from_fn::<f32, 6, _>(|i| numbers[place + i]))
}

/// The sights behind the speed.
pub fn sights(results: &[f32; len::AIM]) -> [Sight; len::WHEELS] {
    std::array::from_fn(|wheel| Sight {
        start: vector(results, 1 + 6 * wheel),
        ray: vector(results, 4 + 6 * wheel),
    })
}

pub fn velocity(results: &[f32; len::DRIVE]) -> Velocity {
    Velocity { linear: vector(results, 0), angular: vector(results, 3), wake: results[6] == 1.0 }
}

pub fn reading(results: &[f32; len::READ]) -> Reading {
    Reading {
        centre: vector(results, 0),
        direction: vector(results, 3),
        axle: vector(results, 6),
        length: results[9],
        force: results[10],
        forward: results[11],
        side: results[12],
        skid: results[13],
        rotation: results[14],
        settled: vector(results, 15),
        no_axis: results[18] == 1.0,
        no_forward: results[19] == 1.0,
    }
}
