//! Where each number stands in the lent table: the kept chassis, then 16 wheel rows.
//!
//! A row holds the numbers of `Wheel` and `RayCastInfo` part by part: the ray's info, the place, the
//! settings, the controls, the approach, the motion. Contact and ground object are not kept; steering
//! is kept as a rotation, an angle and which of the two counts (change request 2026-11). Behind them
//! stand the two numbers of change request 2026-05, which `Wheel` does not have.

use std::ops::Range;

use crate::math::{Real, Rotation, Steering, Vector};

/// Wheels that a table has room for.
pub const WHEELS: usize = 16;
/// Numbers of the kept chassis.
pub const CHASSIS: usize = 26;
/// Numbers of one wheel's row.
pub const ROW: usize = 56;
/// Numbers of a table.
pub const TABLE: usize = CHASSIS + WHEELS * ROW;
/// Numbers of a row that the source's `Wheel` holds as they are: neither its steering nor what fell
/// back.
pub const KEPT: usize = ROW - STEERED.end + STEERED.start - 2;

pub const CONTACT_NORMAL: usize = 0;
pub const CONTACT_POINT: usize = 3;
pub const SUSPENSION_LENGTH: usize = 6;
pub const HARD_POINT: usize = 7;
pub const CENTER: usize = 10;
pub const WORLD_DIRECTION: usize = 13;
pub const WORLD_AXLE: usize = 16;
pub const CONNECTION_POINT: usize = 19;
pub const DIRECTION: usize = 22;
pub const AXLE: usize = 25;
pub const REST_LENGTH: usize = 28;
pub const RADIUS: usize = 29;
pub const STIFFNESS: usize = 30;
pub const COMPRESSION: usize = 31;
pub const RELAXATION: usize = 32;
pub const TRAVEL: usize = 33;
pub const SIDE_STIFFNESS: usize = 34;
pub const SLIP: usize = 35;
pub const MAX_FORCE: usize = 36;
pub const ROLL_INFLUENCE: usize = 37;
pub const ENGINE: usize = 38;
pub const BRAKE: usize = 39;
/// The rotation that was handed in.
pub const STEERING: usize = 40;
/// The angle that was.
pub const ANGLE: usize = 44;
/// 0 where the rotation counts; any other number where the angle does.
pub const KIND: usize = 45;
pub const RELATIVE_VELOCITY: usize = 46;
pub const CLIPPED_INVERSE: usize = 47;
pub const ROTATION: usize = 48;
pub const DELTA_ROTATION: usize = 49;
pub const SUSPENSION_FORCE: usize = 50;
pub const FORWARD_IMPULSE: usize = 51;
pub const SIDE_IMPULSE: usize = 52;
pub const SKID: usize = 53;
/// 1 where rule 7's axis fell back to zero in the last drive, else 0.
pub const NO_AXIS: usize = 54;
/// The same of its forward direction.
pub const NO_FORWARD: usize = 55;

/// How a wheel is steered: rotation, angle and kind.
pub const STEERED: Range<usize> = STEERING..RELATIVE_VELOCITY;

/// What an aim works out in a row: hard point, centre, world direction and world axle.
pub const TRANSFORMS: Range<usize> = HARD_POINT..CONNECTION_POINT;

/// One wheel's row.
#[derive(Copy, Clone, Debug, PartialEq)]
pub struct Row(pub [Real; ROW]);

impl Row {
    pub const ZERO: Row = Row([0.0; ROW]);

    pub fn vector(&self, place: usize) -> Vector {
        Vector::new(self.0[place], self.0[place + 1], self.0[place + 2])
    }

    /// The last control given. Either zero says that it was a rotation.
    pub fn steering(&self) -> Steering {
        let [x, y, z, w] = [0, 1, 2, 3].map(|part| self.0[STEERING + part]);
        if self.0[KIND] == 0.0 {
            Steering::Rotation(Rotation::new(x, y, z, w))
        } else {
            Steering::Angle(self.0[ANGLE])
        }
    }

    /// What is not given of the two is left as in a new wheel.
    pub fn set_steering(&mut self, steering: Steering) {
        let (rotation, angle, kind) = match steering {
            Steering::Rotation(rotation) => (rotation, 0.0, 0.0),
            Steering::Angle(angle) => (Rotation::IDENTITY, angle, 1.0),
        };
        self.0[STEERING..ANGLE].copy_from_slice(&rotation.parts());
        self.0[ANGLE] = angle;
        self.0[KIND] = kind;
    }

    /// The row without its steering and what fell back.
    pub fn kept(&self) -> [Real; KEPT] {
        let mut numbers = [0.0; KEPT];
        numbers[..STEERED.start].copy_from_slice(&self.0[..STEERED.start]);
        numbers[STEERED.start..].copy_from_slice(&self.0[STEERED.end..NO_AXIS]);
        numbers
    }

    /// The row with these numbers in place of its own; its steering and what fell back stay.
    pub fn with_kept(mut self, numbers: [Real; KEPT]) -> Row {
        self.0[..STEERED.start].copy_from_slice(&numbers[..STEERED.start]);
        self.0[STEERED.end..NO_AXIS].copy_from_slice(&numbers[STEERED.start..]);
        self
    }

    /// Whether the axis fell back, and whether the forward direction did: any number but 0 is a yes.
    pub fn fell_back(&self) -> [bool; 2] {
        [NO_AXIS, NO_FORWARD].map(|place| self.0[place] != 0.0)
    }
}
