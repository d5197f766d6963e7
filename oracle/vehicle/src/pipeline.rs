//! The host's ray casts: each cast takes the next wheel's answer, and the ray is noted.
//!
//! Stands in for the `pipeline` module of the crate that the Rust source comes from.

use std::cell::RefCell;

use crate::dynamics::RigidBodySet;
use crate::geometry::{ColliderHandle, ColliderSet, Ray, RayIntersection};
use crate::math::Real;

/// The answers for the wheels' rays, in wheel order, and the rays that were cast so far.
#[derive(Debug, Default)]
pub struct Casts {
    pub answers: Vec<Option<RayIntersection>>,
    pub rays: RefCell<Vec<Ray>>,
}

/// The host's queries, read only.
pub struct QueryPipeline<'a> {
    pub colliders: &'a ColliderSet,
    pub casts: &'a Casts,
}

impl QueryPipeline<'_> {
    /// Notes the ray. The n-th ray that is cast belongs to wheel n and hits that wheel's collider.
    pub fn cast_ray_and_get_normal(
        &self,
        ray: &Ray,
        _most: Real,
        _solid: bool,
    ) -> Option<(ColliderHandle, RayIntersection)> {
        let mut rays = self.casts.rays.borrow_mut();
        let wheel = rays.len();
        rays.push(*ray);
        let answer = self.casts.answers.get(wheel).copied().flatten();
        answer.map(|hit| (ColliderHandle(wheel), hit))
    }
}

/// The host's queries with the bodies that a step may change.
pub struct QueryPipelineMut<'a> {
    pub bodies: &'a mut RigidBodySet,
    pub colliders: &'a ColliderSet,
    pub casts: &'a Casts,
}

impl QueryPipelineMut<'_> {
    pub fn as_ref(&self) -> QueryPipeline<'_> {
        QueryPipeline { colliders: self.colliders, casts: self.casts }
    }
}
