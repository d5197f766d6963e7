//! Bodies as document 01 has them: velocity at a point, the mass rule, an impulse at a point.
//!
//! Stands in for the `dynamics` module of the crate that the Rust source comes from.

use std::ops::Index;

use crate::math::{Inertia, Pose, Real, Vector};
use crate::utils::{inv, CrossProduct};

/// A place in a `RigidBodySet`.
#[derive(Copy, Clone, Debug, PartialEq)]
pub struct RigidBodyHandle(pub usize);

/// The mass numbers that do not depend on the pose.
#[derive(Copy, Clone, Debug)]
pub struct LocalMassProperties {
    pub inv_mass: Real,
}

/// The mass numbers of a body.
#[derive(Copy, Clone, Debug)]
pub struct MassProperties {
    pub local_mprops: LocalMassProperties,
    pub world_com: Vector,
    pub effective_inv_mass: Vector,
    pub effective_world_inv_inertia: Inertia,
}

/// The chassis or a ground body.
#[derive(Copy, Clone, Debug)]
pub struct RigidBody {
    pub pose: Pose,
    pub linear: Vector,
    pub angular: Vector,
    pub mprops: MassProperties,
    pub dynamic: bool,
    /// Set by `wake_up`: the wake rule.
    pub woken: bool,
}

impl RigidBody {
    pub fn position(&self) -> &Pose {
        &self.pose
    }

    pub fn linvel(&self) -> Vector {
        self.linear
    }

    pub fn center_of_mass(&self) -> Vector {
        self.mprops.world_com
    }

    /// inv of the inverse mass.
    pub fn mass(&self) -> Real {
        inv(self.mprops.local_mprops.inv_mass)
    }

    pub fn is_dynamic(&self) -> bool {
        self.dynamic
    }

    pub fn wake_up(&mut self, _strong: bool) {
        self.woken = true;
    }

    /// linear + angular × (p − centre of mass).
    pub fn velocity_at_point(&self, point: Vector) -> Vector {
        self.linear + self.angular.gcross(point - self.mprops.world_com)
    }

    /// Adds impulse times effective inverse mass, part by part, to the linear velocity, and
    /// inverse inertia times (p − centre) × impulse to the angular.
    pub fn apply_impulse_at_point(&mut self, impulse: Vector, point: Vector, _wake_up: bool) {
        let torque = (point - self.mprops.world_com).gcross(impulse);
        self.linear += impulse.times_parts(self.mprops.effective_inv_mass);
        self.angular += self.mprops.effective_world_inv_inertia * torque;
    }
}

/// The chassis, in the first place, and the ground bodies of one drive.
#[derive(Clone, Debug)]
pub struct RigidBodySet {
    pub bodies: Vec<RigidBody>,
}

impl RigidBodySet {
    pub fn get_mut_internal_with_modification_tracking(
        &mut self,
        handle: RigidBodyHandle,
    ) -> Option<&mut RigidBody> {
        self.bodies.get_mut(handle.0)
    }
}

impl Index<RigidBodyHandle> for RigidBodySet {
    type Output = RigidBody;
    fn index(&self, handle: RigidBodyHandle) -> &RigidBody {
        &self.bodies[handle.0]
    }
}

#[cfg(test)]
mod tests {
    use super::*;

    fn body() -> RigidBody {
        RigidBody {
            pose: Pose::IDENTITY,
            linear: Vector::new(1.0, 2.0, 3.0),
            angular: Vector::new(0.0, 0.0, 2.0),
            mprops: MassProperties {
                local_mprops: LocalMassProperties { inv_mass: 0.25 },
                world_com: Vector::new(1.0, 0.0, 0.0),
                effective_inv_mass: Vector::new(1.0, 0.5, 0.0),
                effective_world_inv_inertia: Inertia::from_parts([1.0, 0.0, 0.0, 2.0, 0.0, 3.0]),
            },
            dynamic: true,
            woken: false,
        }
    }

    #[test]
    fn mass_is_inv_of_the_inverse_mass() {
        assert_eq!(body().mass(), 4.0);
    }

    #[test]
    fn velocity_at_a_point() {
        // z times 2 crossed with (0, 3, 0) is (−6, 0, 0).
        let velocity = body().velocity_at_point(Vector::new(1.0, 3.0, 0.0));
        assert_eq!(velocity, Vector::new(-5.0, 2.0, 3.0));
    }

    #[test]
    fn impulse_at_a_point() {
        let mut body = body();
        // (0, 3, 0) × (4, 4, 4) is (12, 0, −12).
        body.apply_impulse_at_point(Vector::new(4.0, 4.0, 4.0), Vector::new(1.0, 3.0, 0.0), false);
        assert_eq!(body.linear, Vector::new(5.0, 4.0, 3.0));
        assert_eq!(body.angular, Vector::new(12.0, 0.0, -34.0));
    }
}
