//! What a host hands in: a new wheel, controls, a chassis, ground bodies and ray answers.
//!
//! `numbers` gives each one's floats in the order of the scenario stream, which is also the order
//! in which a chassis is kept; `handed_in` does so where two codes hand in different ones.

use crate::math::{Inertia, Pose, Real, Rotation, Steering, Vector};
use crate::row::CHASSIS;

/// What an added wheel is made of; the seven from the stiffness on are those of `WheelTuning`, in its
/// order.
#[derive(Copy, Clone, Debug, PartialEq)]
pub struct NewWheel {
    pub connection_point: Vector,
    pub direction: Vector,
    pub axle: Vector,
    pub rest_length: Real,
    pub radius: Real,
    pub stiffness: Real,
    pub compression: Real,
    pub damping: Real,
    pub travel: Real,
    pub side_stiffness: Real,
    pub slip: Real,
    pub max_force: Real,
    /// Change request 2026-07. None leaves it as the source sets it.
    pub roll_influence: Option<Real>,
}

impl NewWheel {
    /// Numbers but for the roll influence.
    pub const NUMBERS: usize = 18;

    pub fn numbers(&self) -> [Real; Self::NUMBERS] {
        let [cx, cy, cz] = self.connection_point.parts();
        let [dx, dy, dz] = self.direction.parts();
        let [ax, ay, az] = self.axle.parts();
        [
            cx,
            cy,
            cz,
            dx,
            dy,
            dz,
            ax,
            ay,
            az,
            self.rest_length,
            self.radius,
            self.stiffness,
            self.compression,
            self.damping,
            self.travel,
            self.side_stiffness,
            self.slip,
            self.max_force,
        ]
    }

    pub fn from_numbers(n: [Real; Self::NUMBERS]) -> Self {
        NewWheel {
            connection_point: Vector::new(n[0], n[1], n[2]),
            direction: Vector::new(n[3], n[4], n[5]),
            axle: Vector::new(n[6], n[7], n[8]),
            rest_length: n[9],
            radius: n[10],
            stiffness: n[11],
            compression: n[12],
            damping: n[13],
            travel: n[14],
            side_stiffness: n[15],
            slip: n[16],
            max_force: n[17],
            roll_influence: None,
        }
    }

    /// Every number that is handed in.
    pub fn handed_in(&self) -> Vec<Real> {
        self.numbers().into_iter().chain(self.roll_influence).collect()
    }
}

/// Engine force, brake and steering of one wheel.
#[derive(Copy, Clone, Debug, PartialEq)]
pub struct Controls {
    pub engine: Real,
    pub brake: Real,
    pub steering: Steering,
}

impl Controls {
    /// Every number that is handed in: six with a rotation, three with an angle.
    pub fn handed_in(&self) -> Vec<Real> {
        let mut numbers = vec![self.engine, self.brake];
        match self.steering {
            Steering::Rotation(rotation) => numbers.extend(rotation.parts()),
            Steering::Angle(angle) => numbers.push(angle),
        }
        numbers
    }
}

/// The chassis, as it is handed in and kept.
#[derive(Copy, Clone, Debug, PartialEq)]
pub struct Chassis {
    pub pose: Pose,
    pub center_of_mass: Vector,
    pub linear: Vector,
    pub angular: Vector,
    pub inverse_mass: Real,
    pub effective_inverse_masses: Vector,
    /// xx, xy, xz, yy, yz, zz.
    pub inverse_inertia: [Real; 6],
}

impl Chassis {
    pub fn numbers(&self) -> [Real; CHASSIS] {
        let [tx, ty, tz] = self.pose.translation.parts();
        let [x, y, z, w] = self.pose.rotation.parts();
        let [cx, cy, cz] = self.center_of_mass.parts();
        let [lx, ly, lz] = self.linear.parts();
        let [ax, ay, az] = self.angular.parts();
        let [ex, ey, ez] = self.effective_inverse_masses.parts();
        let [xx, xy, xz, yy, yz, zz] = self.inverse_inertia;
        let m = self.inverse_mass;
        [
            tx, ty, tz, x, y, z, w, cx, cy, cz, lx, ly, lz, ax, ay, az, m, ex, ey, ez, xx, xy, xz,
            yy, yz, zz,
        ]
    }

    pub fn from_numbers(n: [Real; CHASSIS]) -> Self {
        Chassis {
            pose: Pose {
                translation: Vector::new(n[0], n[1], n[2]),
                rotation: Rotation::new(n[3], n[4], n[5], n[6]),
            },
            center_of_mass: Vector::new(n[7], n[8], n[9]),
            linear: Vector::new(n[10], n[11], n[12]),
            angular: Vector::new(n[13], n[14], n[15]),
            inverse_mass: n[16],
            effective_inverse_masses: Vector::new(n[17], n[18], n[19]),
            inverse_inertia: [n[20], n[21], n[22], n[23], n[24], n[25]],
        }
    }

    pub fn inertia(&self) -> Inertia {
        Inertia::from_parts(self.inverse_inertia)
    }
}

/// A body that a wheel may stand on.
#[derive(Copy, Clone, Debug, PartialEq)]
pub struct GroundBody {
    pub center_of_mass: Vector,
    pub linear: Vector,
    pub angular: Vector,
    pub inverse_mass: Real,
    /// xx, xy, xz, yy, yz, zz.
    pub inverse_inertia: [Real; 6],
    pub dynamic: bool,
}

impl GroundBody {
    pub const NUMBERS: usize = 16;

    pub fn numbers(&self) -> [Real; Self::NUMBERS] {
        let [cx, cy, cz] = self.center_of_mass.parts();
        let [lx, ly, lz] = self.linear.parts();
        let [ax, ay, az] = self.angular.parts();
        let [xx, xy, xz, yy, yz, zz] = self.inverse_inertia;
        [cx, cy, cz, lx, ly, lz, ax, ay, az, self.inverse_mass, xx, xy, xz, yy, yz, zz]
    }

    pub fn from_numbers(n: [Real; Self::NUMBERS], dynamic: bool) -> Self {
        GroundBody {
            center_of_mass: Vector::new(n[0], n[1], n[2]),
            linear: Vector::new(n[3], n[4], n[5]),
            angular: Vector::new(n[6], n[7], n[8]),
            inverse_mass: n[9],
            inverse_inertia: [n[10], n[11], n[12], n[13], n[14], n[15]],
            dynamic,
        }
    }
}

/// A hit: its time, its normal, the normal of the upward cast if there was one, and the ground
/// body that was hit, if any, by its place in the drive's list.
#[derive(Copy, Clone, Debug, PartialEq)]
pub struct Hit {
    pub time: Real,
    pub normal: Vector,
    pub upward_normal: Option<Vector>,
    pub body: Option<u32>,
}

/// What a wheel's ray met; nothing is `None`.
pub type RayAnswer = Option<Hit>;

/// What a drive takes.
#[derive(Clone, Debug, PartialEq)]
pub struct Drive {
    pub dt: Real,
    pub bodies: Vec<GroundBody>,
    pub answers: Vec<RayAnswer>,
}
