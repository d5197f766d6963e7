//! The host's ray casts for the source: each cast takes the next wheel's answer, which stands ready. Nothing is noted or allocated, so that
//! the source alone is timed.

use std::cell::Cell;

use crate::dynamics::RigidBodySet;
use crate::geometry::{ColliderHandle, ColliderSet, Ray, RayIntersection};
use crate::math::Real;

/// The answers for the wheels' rays, in wheel order, and the wheel whose turn it is.
pub struct Casts {
    pub answers: Vec<Option<RayIntersection>>,
    pub next: Cell<usize>,
}

pub struct QueryPipeline<'a> {
    pub colliders: &'a ColliderSet,
    pub casts: &'a Casts,
}

impl QueryPipeline<'_> {
    pub fn cast_ray_and_get_normal(
        &self,
        _ray: &Ray,
        _most: Real,
        _solid: bool,
    ) -> Option<(ColliderHandle, RayIntersection)> {
        let wheel = self.casts.next.get();
        self.casts.next.set(wheel + 1);
        self.casts.answers.get(wheel).copied().flatten().map(|hit| (ColliderHandle(wheel), hit))
    }
}

pub struct QueryPipelineMut<'a> {
    pub bodies: &'a mut RigidBodySet,
    pub colliders: &'a ColliderSet,
    pub casts: &'a Casts,
}

impl QueryPipelineMut<'_> {
    pub fn as_ref(&self) -> QueryPipeline<'_> {
        QueryPipeline { colliders: self.colliders, casts: self.casts }
    }
}
