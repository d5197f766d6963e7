//! What a host hands in and gets back. Units, frames and signs of every number are told in docs/NUMBERS.md.

use crate::{ffi::help, flat};

/// Three numbers. `Vector::from([x, y, z])` takes an array.
#[derive(Clone, Copy, Debug, Default, PartialEq)]
#[allow(missing_docs)]
pub struct Vector {
    pub x: f32,
    pub y: f32,
    pub z: f32,
}

impl Vector {
    /// The vector of zeros.
    pub const ZERO: Vector = Vector::new(0.0, 0.0, 0.0);

    /// The vector of these parts.
    pub const fn new(x: f32, y: f32, z: f32) -> Self {
        Vector { x, y, z }
    }
}

impl From<[f32; 3]> for Vector {
    fn from([x, y, z]: [f32; 3]) -> Self {
        Vector { x, y, z }
    }
}

impl From<Vector> for [f32; 3] {
    fn from(Vector { x, y, z }: Vector) -> Self {
        [x, y, z]
    }
}

/// A rotation, as a quaternion of unit length.
#[derive(Clone, Copy, Debug, PartialEq)]
#[allow(missing_docs)]
pub struct Rotation {
    pub x: f32,
    pub y: f32,
    pub z: f32,
    pub w: f32,
}

impl Rotation {
    /// No turn.
    pub const IDENTITY: Rotation = Rotation { x: 0.0, y: 0.0, z: 0.0, w: 1.0 };

    /// The rotation of an array that has w last.
    pub const fn xyzw([x, y, z, w]: [f32; 4]) -> Self {
        Rotation { x, y, z, w }
    }
}

impl Default for Rotation {
    fn default() -> Self {
        Rotation::IDENTITY
    }
}

/// An inertia or its inverse: the six numbers of a symmetric three by three array.
#[derive(Clone, Copy, Debug, Default, PartialEq)]
#[allow(missing_docs)]
pub struct Inertia {
    pub xx: f32,
    pub xy: f32,
    pub xz: f32,
    pub yy: f32,
    pub yz: f32,
    pub zz: f32,
}

impl Inertia {
    /// That of a solid box of this mass, along its own axes, `size` being its lengths along them.
    pub fn of_box(mass: f32, size: Vector) -> Self {
        Inertia::from(help::make_box_inertia(mass, &size.into()))
    }

    /// One whose axes are the body's own.
    pub const fn diagonal(xx: f32, yy: f32, zz: f32) -> Self {
        Inertia { xx, xy: 0.0, xz: 0.0, yy, yz: 0.0, zz }
    }
}

impl From<[f32; 6]> for Inertia {
    fn from([xx, xy, xz, yy, yz, zz]: [f32; 6]) -> Self {
        Inertia { xx, xy, xz, yy, yz, zz }
    }
}

/// A rigid body as a host has it, in SI units: mass and inertia themselves, the centre of mass and the inertia along the body's own axes. What
/// it makes is in world space.
#[derive(Clone, Copy, Debug, PartialEq)]
pub struct RigidBody {
    /// In kg.
    pub mass: f32,
    /// From the position, along the body's own axes.
    pub local_centre_of_mass: Vector,
    /// About the centre of mass, along the body's own axes.
    pub local_inertia: Inertia,
    /// Where the body's origin is in the world.
    pub position: Vector,
    /// How it is turned.
    pub rotation: Rotation,
    /// Of the centre of mass, in the world.
    pub linear_velocity: Vector,
    /// In the world.
    pub angular_velocity: Vector,
    /// Along which axes of the world it cannot move.
    pub locked: [bool; 3],
}

impl RigidBody {
    /// A body of this mass and inertia, free, at rest at the origin.
    pub const fn new(mass: f32, local_inertia: Inertia) -> Self {
        RigidBody {
            mass,
            local_centre_of_mass: Vector::ZERO,
            local_inertia,
            position: Vector::ZERO,
            rotation: Rotation::IDENTITY,
            linear_velocity: Vector::ZERO,
            angular_velocity: Vector::ZERO,
            locked: [false; 3],
        }
    }

    /// It as the chassis of an aim.
    pub fn chassis(&self) -> Chassis {
        flat::chassis_from(&help::make_chassis(&flat::rigid_body(self)))
    }

    /// It as a dynamic ground body of a drive.
    pub fn ground(&self) -> GroundBody {
        flat::body_from(&help::make_ground(&flat::rigid_body(self)), true)
    }
}

/// Where a wheel is fixed to the chassis, along the chassis' own axes.
#[derive(Clone, Copy, Debug, PartialEq)]
pub struct Mount {
    /// Where the suspension is fixed.
    pub connection: Vector,
    /// Where the suspension points: down. Of any length but zero.
    pub direction: Vector,
    /// The axle. Of any length but zero; which way it points decides which way an engine drives.
    pub axle: Vector,
    /// The suspension's length at rest.
    pub rest_length: f32,
    /// The wheel's radius.
    pub radius: f32,
}

impl Mount {
    /// A wheel there with the Rust source's tuning and roll influence, its direction and its axle made unit length. Change the tuning as
    /// `WheelSettings { stiffness, ..mount.wheel() }`.
    pub fn wheel(&self) -> WheelSettings {
        flat::settings_from(&help::make_wheel(&flat::mount(self)))
    }
}

/// An axis of the chassis.
#[derive(Clone, Copy, Debug, PartialEq)]
#[allow(missing_docs)]
pub enum Axis {
    X = 0,
    Y = 1,
    Z = 2,
}

/// What a wheel is made of. Connection, direction and axle are relative to the chassis.
#[derive(Clone, Copy, Debug, PartialEq)]
pub struct WheelSettings {
    /// Where the suspension is fixed to the chassis.
    pub connection: Vector,
    /// Where the suspension points: down. A wheel that is steered by an angle turns about it, and needs one that is not zero.
    pub direction: Vector,
    /// The axle.
    pub axle: Vector,
    /// The suspension's length at rest.
    pub rest_length: f32,
    /// The wheel's radius, above 0.
    pub radius: f32,
    /// How strongly the suspension pushes.
    pub stiffness: f32,
    /// Its damping while it is compressed.
    pub compression: f32,
    /// Its damping while it is released.
    pub damping: f32,
    /// How far it can be pressed below its rest length.
    pub travel: f32,
    /// How strongly the tyre resists sideways.
    pub side_stiffness: f32,
    /// How much grip the tyre has.
    pub slip: f32,
    /// The greatest force of the suspension.
    pub most_force: f32,
    /// How much the tyre's push sideways leans the chassis, from 0 to 1: with 1 it acts where the tyre meets the ground, with 0 at
    /// the height of the centre of mass, where it leans nothing.
    pub roll_influence: f32,
}

impl WheelSettings {
    /// The roll influence that the Rust source gives every wheel.
    pub const ROLL_INFLUENCE: f32 = 0.1;
}

/// How one wheel is steered.
#[derive(Clone, Copy, Debug, PartialEq)]
pub enum Steering {
    /// By an angle in radians, from -2 to 2. Each aim turns the axle by it about minus the wheel's direction in the world, so that the wheel
    /// stays steered when the chassis turns. Positive is to the left where the suspension points down; in a left-handed
    /// scene to the right.
    Angle(f32),
    /// By a rotation in world space. Set it anew before the aim when the chassis has turned.
    Rotation(Rotation),
}

/// Straight on: the rotation of a new wheel, which turns nothing however the chassis stands.
impl Default for Steering {
    fn default() -> Self {
        Steering::Rotation(Rotation::IDENTITY)
    }
}

/// What drives, brakes and steers one wheel.
#[derive(Clone, Copy, Debug, Default, PartialEq)]
pub struct Controls {
    /// The engine's force; above 0 drives forward.
    pub engine: f32,
    /// The brake's greatest impulse, at least 0.
    pub brake: f32,
    /// The steering, by an angle or by a rotation. It takes the place of what was given before, in either form.
    pub steering: Steering,
}

/// The chassis at the start of a frame.
#[derive(Clone, Copy, Debug, PartialEq)]
#[allow(missing_docs)]
pub struct Chassis {
    pub translation: Vector,
    pub rotation: Rotation,
    /// In world space.
    pub centre_of_mass: Vector,
    pub linear_velocity: Vector,
    pub angular_velocity: Vector,
    /// From 2^-20 to 2^20.
    pub inverse_mass: f32,
    /// The inverse mass along each world axis: 0 where the chassis is locked.
    pub effective_inverse_masses: Vector,
    pub inverse_inertia: Inertia,
}

impl Chassis {
    /// A chassis that stands still at the origin, free to move.
    pub const fn at_rest(inverse_mass: f32, inverse_inertia: Inertia) -> Self {
        Chassis {
            translation: Vector::ZERO,
            rotation: Rotation::IDENTITY,
            centre_of_mass: Vector::ZERO,
            linear_velocity: Vector::ZERO,
            angular_velocity: Vector::ZERO,
            inverse_mass,
            effective_inverse_masses: Vector::new(inverse_mass, inverse_mass, inverse_mass),
            inverse_inertia,
        }
    }
}

/// A body that a wheel may stand on.
#[derive(Clone, Copy, Debug, Default, PartialEq)]
#[allow(missing_docs)]
pub struct GroundBody {
    /// In world space.
    pub centre_of_mass: Vector,
    pub linear_velocity: Vector,
    pub angular_velocity: Vector,
    /// At least 0.
    pub inverse_mass: f32,
    pub inverse_inertia: Inertia,
    pub dynamic: bool,
}

/// The ray of one wheel.
#[derive(Clone, Copy, Debug, Default, PartialEq)]
pub struct Sight {
    /// Where the ray starts, in world space.
    pub start: Vector,
    /// The ray: at time 1 it is at `start + ray`.
    pub ray: Vector,
}

/// What a wheel's ray met. A body is named by its place in the list of the drive. A normal has length one; only that of a hit at time 0 may be
/// zero, where the ray starts inside a shape.
#[derive(Clone, Copy, Debug, PartialEq)]
#[allow(missing_docs)]
pub enum RayAnswer {
    /// Nothing between time 0 and time 1.
    Nothing,
    /// A hit at a time from 0 to 1.
    Hit { time: f32, normal: Vector, body: Option<u32> },
    /// A hit for which the ray was also cast upward, from its end, against the same shape: `upward` is the normal met there. The library
    /// uses it where the time is 0, a ray that starts inside the shape; its length is tested at every time, and it is never zero.
    HitUp { time: f32, normal: Vector, upward: Vector, body: Option<u32> },
}

impl RayAnswer {
    /// What a cast met at this distance from the sight's start, in the unit of the world; beyond the ray's end it is nothing.
    pub fn at_distance(sight: &Sight, distance: f32, normal: Vector, body: Option<u32>) -> Self {
        let time = help::make_time(&sight.ray.into(), distance);
        if time > 1.0 {
            RayAnswer::Nothing
        } else {
            RayAnswer::Hit { time, normal, body }
        }
    }
}

/// What a drive gives.
#[derive(Clone, Copy, Debug, PartialEq)]
pub struct Velocity {
    /// The chassis' new linear velocity.
    pub linear: Vector,
    /// Its new angular velocity.
    pub angular: Vector,
    /// Whether the chassis is to be woken: some engine force is above 0.
    pub wake: bool,
}

/// One wheel after a drive.
#[derive(Clone, Copy, Debug, PartialEq)]
pub struct Reading {
    /// The Rust source's centre, at the length of the drive before: to be compared with it. Drawn, it is a frame late.
    pub centre: Vector,
    /// The suspension's direction in world space.
    pub direction: Vector,
    /// The axle in world space.
    pub axle: Vector,
    /// The suspension's length.
    pub length: f32,
    /// The suspension's force.
    pub force: f32,
    /// The tyre's impulse along its rolling direction.
    pub forward: f32,
    /// The tyre's impulse along its axis.
    pub side: f32,
    /// 1 where the tyre grips, below 1 where it slides.
    pub skid: f32,
    /// How far the wheel has rolled, in radians, above 0 forward. A tyre is drawn turned about its axle by minus this.
    pub rotation: f32,
    /// The settled centre, where the tyre is drawn: at this drive's length.
    pub settled: Vector,
    /// The axle has no direction on the ground: it lies along the ground's normal, or is too short (below about 2^-75, so that its square is
    /// 0), or, in a table that no call wrote, too long. The tyre then has neither a side nor a rolling direction, and with no engine force
    /// both its impulses are zero: a dead tyre. An engine force gives a forward impulse all the same, but it pushes nothing, since its
    /// direction is zero. Never so for a wheel in the air.
    pub no_axis: bool,
    /// The tyre has no rolling direction. Always so without an axis. It alone is so where what is left of the axle points along the normal,
    /// since that is not exactly of length one, or where the normal is zero: a hit at time 0 with a zero normal, of a wheel whose suspension
    /// has a zero direction. The tyre does not roll or brake, but may still hold to the side. Never so for a wheel in the air.
    pub no_forward: bool,
}
