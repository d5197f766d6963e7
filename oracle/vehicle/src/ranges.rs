//! The bounds of refusal 2 and 7 and 8, the ranges of refusal 10, and the band of refusals 12 and 17.

use crate::handed::{Chassis, Controls, GroundBody, Hit, NewWheel};
use crate::math::{Real, Rotation, Steering, Vector};
use crate::row::{self, Row};

/// 2^20: the greatest magnitude of a number handed in.
pub const MOST_HANDED_IN: Real = 1_048_576.0;
/// 2^40: the greatest magnitude of a stored number.
pub const MOST_STORED: Real = 1_099_511_627_776.0;
/// 2^-20: the least inverse mass of a chassis.
pub const LEAST_INVERSE_MASS: Real = 1.0 / 1_048_576.0;
/// 2^20: the greatest inverse mass of a chassis.
pub const MOST_INVERSE_MASS: Real = 1_048_576.0;
/// 2^-10: how far the sum of squares of a rotation, or of a normal, may lie from 1.
pub const BAND: Real = 1.0 / 1024.0;
/// The greatest magnitude of a steering angle, in radians: change request 2026-11.
pub const MOST_ANGLE: Real = 2.0;

/// Finite and not above 2^20 in magnitude. NaN fails both comparisons.
pub fn may_be_handed_in(number: Real) -> bool {
    number.abs() <= MOST_HANDED_IN
}

/// Finite and not above 2^40 in magnitude.
pub fn may_be_stored(number: Real) -> bool {
    number.abs() <= MOST_STORED
}

/// From `least` to `most`, the ends included.
pub fn lies_between(least: Real, number: Real, most: Real) -> bool {
    least <= number && number <= most
}

/// At least 0; −0 is.
pub fn at_least_zero(number: Real) -> bool {
    number >= 0.0
}

/// The sum of squares lies in the band around 1.
pub fn in_band(sum_of_squares: Real) -> bool {
    lies_between(1.0 - BAND, sum_of_squares, 1.0 + BAND)
}

pub fn rotation_in_range(rotation: Rotation) -> bool {
    in_band(rotation.sum_of_squares())
}

pub fn angle_in_range(angle: Real) -> bool {
    lies_between(-MOST_ANGLE, angle, MOST_ANGLE)
}

/// Of the rotation and the angle the one that counts.
pub fn steering_in_range(steering: Steering) -> bool {
    match steering {
        Steering::Rotation(rotation) => rotation_in_range(rotation),
        Steering::Angle(angle) => angle_in_range(angle),
    }
}

/// A normal's sum of squares is its dot with itself.
pub fn normal_in_range(normal: Vector) -> bool {
    in_band(normal.dot(normal))
}

/// The zero normal at time 0, which need not lie in the band; both zeros are zero.
pub fn is_exempt(hit: &Hit) -> bool {
    hit.time == 0.0 && hit.normal == Vector::ZERO
}

/// Refusal 12 looks at both normals of a hit, at the upward one whatever the time.
pub fn normals_in_range(hit: &Hit) -> bool {
    (is_exempt(hit) || normal_in_range(hit.normal)) && hit.upward_normal.is_none_or(normal_in_range)
}

pub fn roll_influence_in_range(roll_influence: Real) -> bool {
    lies_between(0.0, roll_influence, 1.0)
}

/// The settings that an added wheel hands in.
pub fn new_wheel_in_range(wheel: &NewWheel) -> bool {
    let others = [
        wheel.rest_length,
        wheel.stiffness,
        wheel.compression,
        wheel.damping,
        wheel.travel,
        wheel.side_stiffness,
        wheel.slip,
        wheel.max_force,
    ];
    wheel.radius > 0.0
        && others.into_iter().all(at_least_zero)
        && wheel.roll_influence.is_none_or(roll_influence_in_range)
}

pub fn controls_in_range(controls: &Controls) -> bool {
    at_least_zero(controls.brake) && steering_in_range(controls.steering)
}

/// The settings that a row has stored, those of its controls included.
pub fn row_in_range(row: &Row) -> bool {
    let others = [
        row::REST_LENGTH,
        row::TRAVEL,
        row::STIFFNESS,
        row::COMPRESSION,
        row::RELAXATION,
        row::SLIP,
        row::SIDE_STIFFNESS,
        row::MAX_FORCE,
        row::BRAKE,
    ];
    row.0[row::RADIUS] > 0.0
        && others.into_iter().all(|place| at_least_zero(row.0[place]))
        && roll_influence_in_range(row.0[row::ROLL_INFLUENCE])
        && steering_in_range(row.steering())
}

pub fn chassis_in_range(chassis: &Chassis) -> bool {
    rotation_in_range(chassis.pose.rotation)
        && lies_between(LEAST_INVERSE_MASS, chassis.inverse_mass, MOST_INVERSE_MASS)
}

pub fn body_in_range(body: &GroundBody) -> bool {
    at_least_zero(body.inverse_mass)
}

pub fn dt_in_range(dt: Real) -> bool {
    lies_between(0.0, dt, 1.0)
}
