//! Runs the Rust source's own `update_vehicle` over a table's rows, in one of its three copies.

use std::cell::Cell;
use std::panic::{self, AssertUnwindSafe};
use std::sync::Once;

use crate::copies::{as_sent, demands, stored};
use crate::dynamics::{
    LocalMassProperties, MassProperties, RigidBody, RigidBodyHandle, RigidBodySet,
};
use crate::geometry::{AnsweredShape, Collider, ColliderSet, Ray, RayIntersection};
use crate::handed::{Chassis, GroundBody, Hit, NewWheel, RayAnswer};
use crate::math::{line_up_steering, Inertia, Pose, Real, Rotation, Steering, Vector};
use crate::pipeline::{Casts, QueryPipelineMut};
use crate::row::{self, Row, KEPT};

/// The chassis stands first among the bodies; ground body n follows at n + 1.
const CHASSIS_HANDLE: RigidBodyHandle = RigidBodyHandle(0);

/// Access to the private numbers of the source's `Wheel`; see `appended/kept.rs`.
pub trait Kept {
    fn kept(&mut self) -> [&mut Real; KEPT];
}

/// Access to the private directions of the source's controller; see `appended/kept.rs`.
pub trait Directed {
    fn directions(&self, wheel: usize) -> Directions;
}

/// Rule 7's axis and forward direction of one wheel, as the source left them after a step.
#[derive(Copy, Clone, Debug, PartialEq)]
pub struct Directions {
    pub axis: Vector,
    pub forward: Vector,
}

/// What `update_vehicle` is run on.
pub struct Step<'a> {
    pub rows: &'a [Row],
    pub up: usize,
    pub forward: usize,
    pub chassis: &'a Chassis,
    pub dt: Real,
    pub bodies: &'a [GroundBody],
    pub answers: &'a [RayAnswer],
}

/// What it left behind.
pub struct Outcome {
    pub rows: Vec<Row>,
    pub speed: Real,
    pub rays: Vec<Ray>,
    pub linear: Vector,
    pub angular: Vector,
    pub woken: bool,
}

/// One runner for each copy: the copies have the same text, but their types differ.
macro_rules! runner {
    ($(#[$about:meta])* $run:ident, $copy:ident) => {
        $(#[$about])*
        pub fn $run(step: &Step) -> Option<Outcome> {
            let mut vehicle = $copy::DynamicRayCastVehicleController::new(CHASSIS_HANDLE);
            vehicle.index_up_axis = step.up;
            vehicle.index_forward_axis = step.forward;
            for row in step.rows {
                let tuning = $copy::WheelTuning::default();
                let wheel = vehicle.add_wheel(Vector::ZERO, Vector::ZERO, Vector::ZERO, 0.0, 0.0, &tuning);
                for (number, stored) in wheel.kept().into_iter().zip(row.kept()) {
                    *number = stored;
                }
                wheel.steering = asked_for(row.steering());
            }
            let mut bodies = bodies_of(step);
            let colliders = colliders_of(step);
            let casts = casts_of(step);
            line_up_steering(step.rows.iter().map(Row::steering));
            quietly(|| {
                let queries = QueryPipelineMut { bodies: &mut bodies, colliders: &colliders, casts: &casts };
                vehicle.update_vehicle(step.dt, queries);
            })?;
            let kept = |mut wheel: $copy::Wheel| wheel.kept().map(|number| *number);
            let row = |place: usize| {
                let numbers = kept(vehicle.wheels()[place]);
                let row = step.rows[place].with_kept(numbers);
                with_fall_backs(row, &step.answers[place], vehicle.directions(place))
            };
            let chassis = &bodies[CHASSIS_HANDLE];
            Some(Outcome {
                rows: (0..step.rows.len()).map(row).collect(),
                speed: vehicle.current_vehicle_speed,
                rays: casts.rays.take(),
                linear: chassis.linear,
                angular: chassis.angular,
                woken: chassis.woken,
            })
        }
    };
}

runner!(
    /// The file as sent. Nothing if it panics.
    run_as_sent, as_sent
);
runner!(
    /// The copy that leaves the wheels' transforms as stored.
    run_stored, stored
);
runner!(
    /// The copy that also leaves the demands as they are before the rescale.
    run_demands, demands
);

/// The row of a new wheel, as the source's own `add_wheel` makes it, with identity steering; the
/// source's roll influence, unless another is handed in.
pub fn new_row(new: &NewWheel) -> Row {
    let mut vehicle = as_sent::DynamicRayCastVehicleController::new(CHASSIS_HANDLE);
    let tuning = as_sent::WheelTuning {
        suspension_stiffness: new.stiffness,
        suspension_compression: new.compression,
        suspension_damping: new.damping,
        max_suspension_travel: new.travel,
        side_friction_stiffness: new.side_stiffness,
        friction_slip: new.slip,
        max_suspension_force: new.max_force,
    };
    let wheel = vehicle.add_wheel(
        new.connection_point,
        new.direction,
        new.axle,
        new.rest_length,
        new.radius,
        &tuning,
    );
    let mut row = Row::ZERO.with_kept(wheel.kept().map(|number| *number));
    row.set_steering(Steering::Rotation(Rotation::IDENTITY));
    if let Some(roll_influence) = new.roll_influence {
        row.0[row::ROLL_INFLUENCE] = roll_influence;
    }
    row
}

/// What the source multiplies minus the direction by before it asks for a rotation. With 1 it hands over
/// minus the direction itself, about which an angle turns; a rotation that is kept needs none.
fn asked_for(steering: Steering) -> Real {
    match steering {
        Steering::Rotation(_) => 0.0,
        Steering::Angle(_) => 1.0,
    }
}

/// The row with what fell back in this step: change request 2026-05. The source does not say so, but its
/// vectors do: one that fell back is zero, and one that did not is not. For where the reciprocal of the
/// length is finite some square did not underflow, and where it is above 0 none overflowed, so that the
/// greatest part times it is above 1/4. A wheel that hit nothing has no direction that could fall back.
fn with_fall_backs(mut row: Row, answer: &RayAnswer, directions: Directions) -> Row {
    let fell_back = |direction: Vector| answer.is_some() && direction == Vector::ZERO;
    row.0[row::NO_AXIS] = one_or_zero(fell_back(directions.axis));
    row.0[row::NO_FORWARD] = one_or_zero(fell_back(directions.forward));
    row
}

fn one_or_zero(yes: bool) -> Real {
    if yes {
        1.0
    } else {
        0.0
    }
}

fn bodies_of(step: &Step) -> RigidBodySet {
    let mut bodies = vec![chassis_body(step.chassis)];
    bodies.extend(step.bodies.iter().map(ground_body));
    RigidBodySet { bodies }
}

fn chassis_body(chassis: &Chassis) -> RigidBody {
    RigidBody {
        pose: chassis.pose,
        linear: chassis.linear,
        angular: chassis.angular,
        mprops: MassProperties {
            local_mprops: LocalMassProperties { inv_mass: chassis.inverse_mass },
            world_com: chassis.center_of_mass,
            effective_inv_mass: chassis.effective_inverse_masses,
            effective_world_inv_inertia: chassis.inertia(),
        },
        dynamic: true,
        woken: false,
    }
}

/// A ground body has no pose and no effective masses: the source never looks at them.
fn ground_body(body: &GroundBody) -> RigidBody {
    RigidBody {
        pose: Pose::IDENTITY,
        linear: body.linear,
        angular: body.angular,
        mprops: MassProperties {
            local_mprops: LocalMassProperties { inv_mass: body.inverse_mass },
            world_com: body.center_of_mass,
            effective_inv_mass: Vector::ZERO,
            effective_world_inv_inertia: Inertia::from_parts(body.inverse_inertia),
        },
        dynamic: body.dynamic,
        woken: false,
    }
}

fn colliders_of(step: &Step) -> ColliderSet {
    let collider = |answer: &RayAnswer| Collider {
        shape: AnsweredShape { upward_normal: answer.and_then(|hit| hit.upward_normal) },
        body: answer.and_then(|hit| hit.body).map(|body| RigidBodyHandle(body as usize + 1)),
    };
    ColliderSet { colliders: step.answers.iter().map(collider).collect() }
}

fn casts_of(step: &Step) -> Casts {
    let intersection = |hit: Hit| RayIntersection { time_of_impact: hit.time, normal: hit.normal };
    let answers = step.answers.iter().map(|answer| answer.map(intersection)).collect();
    Casts { answers, rays: Default::default() }
}

thread_local! {
    static QUIET: Cell<bool> = const { Cell::new(false) };
}

/// Runs the source's code, which may panic at its own assertion, without a message. Nothing if
/// it panicked.
fn quietly(run: impl FnOnce()) -> Option<()> {
    static HOOK: Once = Once::new();
    HOOK.call_once(|| {
        let loud = panic::take_hook();
        panic::set_hook(Box::new(move |info| {
            if !QUIET.get() {
                loud(info);
            }
        }));
    });
    QUIET.set(true);
    let outcome = panic::catch_unwind(AssertUnwindSafe(run));
    QUIET.set(false);
    outcome.ok()
}
