//! A wheel on a bench: plain numbers, so that results can be worked out by hand.
#![allow(dead_code)]

use vehicle::handed::{Chassis, Controls, Drive, GroundBody, Hit, NewWheel};
use vehicle::math::{Pose, Rotation, Steering, Vector};
use vehicle::row::Row;
use vehicle::table::{Table, ACCEPTED};

pub const UP: Vector = Vector::new(0.0, 1.0, 0.0);

/// Points down from the origin, axle along z, so that forward is x. The ray has length 2; a hit at
/// time t gives the length 2t − 1.
pub fn wheel() -> NewWheel {
    NewWheel {
        connection_point: Vector::ZERO,
        direction: Vector::new(0.0, -1.0, 0.0),
        axle: Vector::new(0.0, 0.0, 1.0),
        rest_length: 1.0,
        radius: 1.0,
        stiffness: 5.0,
        compression: 0.0,
        damping: 0.0,
        travel: 8.0,
        side_stiffness: 1.0,
        slip: 1.0,
        max_force: 1000.0,
        roll_influence: None,
    }
}

pub fn controls() -> Controls {
    Controls { engine: 0.0, brake: 0.0, steering: Steering::Rotation(Rotation::IDENTITY) }
}

pub fn by_angle(angle: f32) -> Controls {
    Controls { steering: Steering::Angle(angle), ..controls() }
}

/// At rest at the origin, inverse mass 1, nothing that turns it.
pub fn chassis() -> Chassis {
    Chassis {
        pose: Pose::IDENTITY,
        center_of_mass: Vector::ZERO,
        linear: Vector::ZERO,
        angular: Vector::ZERO,
        inverse_mass: 1.0,
        effective_inverse_masses: Vector::new(1.0, 1.0, 1.0),
        inverse_inertia: [0.0; 6],
    }
}

pub fn body() -> GroundBody {
    GroundBody {
        center_of_mass: Vector::ZERO,
        linear: Vector::ZERO,
        angular: Vector::ZERO,
        inverse_mass: 1.0,
        inverse_inertia: [0.0; 6],
        dynamic: true,
    }
}

pub fn hit() -> Hit {
    Hit { time: 0.5, normal: UP, upward_normal: None, body: None }
}

/// A drive of one second over plain ground.
pub fn drive(hits: &[Hit]) -> Drive {
    Drive { dt: 1.0, bodies: Vec::new(), answers: hits.iter().map(|hit| Some(*hit)).collect() }
}

/// The row of one wheel after an accepted step.
pub fn row_after(wheel: NewWheel, controls: Controls, chassis: Chassis, hit: Hit) -> Row {
    let mut table = Table::new();
    assert_eq!(table.add_wheel(&wheel), ACCEPTED);
    assert_eq!(table.set_controls(0, &controls), ACCEPTED);
    assert_eq!(table.aim(&chassis).answer, ACCEPTED);
    assert_eq!(table.drive(&drive(&[hit])).answer, ACCEPTED);
    table.row(0)
}

/// A table of one wheel that an aim has just left.
pub fn aimed() -> Table {
    let mut table = Table::new();
    assert_eq!(table.add_wheel(&wheel()), ACCEPTED);
    assert_eq!(table.aim(&chassis()).answer, ACCEPTED);
    table
}
