//! The ground as the host's ray answers show it: one collider for each wheel that hit something.
//!
//! Stands in for the `geometry` module of the crate that the Rust source comes from.

use std::ops::Index;

use crate::dynamics::RigidBodyHandle;
use crate::math::{Pose, Real, Vector};

/// A place in a `ColliderSet`.
#[derive(Copy, Clone, Debug, PartialEq)]
pub struct ColliderHandle(pub usize);

/// A ray; its direction is not of unit length, so time 1 is its end.
#[derive(Copy, Clone, Debug, PartialEq)]
pub struct Ray {
    pub origin: Vector,
    pub dir: Vector,
}

impl Ray {
    pub fn new(origin: Vector, dir: Vector) -> Self {
        Ray { origin, dir }
    }

    /// Source + ray × time.
    pub fn point_at(&self, time: Real) -> Vector {
        self.origin + self.dir * time
    }
}

/// Where a ray met something.
#[derive(Copy, Clone, Debug, PartialEq)]
pub struct RayIntersection {
    pub time_of_impact: Real,
    pub normal: Vector,
}

/// What the upward cast of a hit answers.
#[derive(Copy, Clone, Debug)]
pub struct AnsweredShape {
    pub upward_normal: Option<Vector>,
}

impl AnsweredShape {
    pub fn cast_ray_and_get_normal(
        &self,
        _pose: &Pose,
        _ray: &Ray,
        _most: Real,
        _solid: bool,
    ) -> Option<RayIntersection> {
        self.upward_normal.map(|normal| RayIntersection { time_of_impact: 0.0, normal })
    }
}

/// What one wheel's ray hit.
#[derive(Copy, Clone, Debug)]
pub struct Collider {
    pub shape: AnsweredShape,
    pub body: Option<RigidBodyHandle>,
}

impl Collider {
    pub fn position(&self) -> &Pose {
        &Pose::IDENTITY
    }

    pub fn parent(&self) -> Option<RigidBodyHandle> {
        self.body
    }
}

/// One collider for each wheel, in wheel order.
#[derive(Clone, Debug)]
pub struct ColliderSet {
    pub colliders: Vec<Collider>,
}

impl Index<ColliderHandle> for ColliderSet {
    type Output = Collider;
    fn index(&self, handle: ColliderHandle) -> &Collider {
        &self.colliders[handle.0]
    }
}
