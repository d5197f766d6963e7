//! The Rust source's side: its own `update_vehicle` on a vehicle, bodies and ray answers that stand ready.

use std::cell::Cell;

use vehicle_controller::ffi::len;

use crate::dynamics::{
    LocalMassProperties, MassProperties, RigidBody, RigidBodyHandle, RigidBodySet,
};
use crate::geometry::{AnsweredShape, Collider, ColliderSet, RayIntersection};
use crate::math::{turn_about, Inertia, Pose, Rotation, Vector};
use crate::pipeline::{Casts, QueryPipelineMut};
use crate::scene::{Scene, DT};
use crate::{as_sent, guarded, scaled};

thread_local! {
    /// Whether the guarded copy works out the wheels' transforms.
    pub static TRANSFORMS: Cell<bool> = const { Cell::new(true) };
}

const CHASSIS: RigidBodyHandle = RigidBodyHandle(0);

/// The bodies, colliders and ray answers of a scene.
pub struct World {
    pub bodies: RigidBodySet,
    pub colliders: ColliderSet,
    casts: Casts,
    velocities: (Vector, Vector),
}

fn vector(numbers: &[f32]) -> Vector {
    Vector::new(numbers[0], numbers[1], numbers[2])
}

fn inertia(n: &[f32]) -> Inertia {
    Inertia::from_parts([n[0], n[1], n[2], n[3], n[4], n[5]])
}

impl World {
    pub fn new(scene: &Scene) -> Self {
        let chassis = chassis(&scene.chassis);
        let velocities = (chassis.linear, chassis.angular);
        let mut bodies = vec![chassis];
        bodies.extend(scene.bodies.chunks(len::BODY).zip(&scene.dynamic).map(ground));
        let collider = |named: &u32| Collider {
            shape: AnsweredShape { upward_normal: None },
            body: (*named > 0).then_some(RigidBodyHandle(*named as usize)),
        };
        let answer = |ray: &[f32]| {
            Some(RayIntersection { time_of_impact: ray[0], normal: vector(&ray[1..]) })
        };
        World {
            bodies: RigidBodySet { bodies },
            colliders: ColliderSet { colliders: scene.named.iter().map(collider).collect() },
            casts: Casts {
                answers: scene.rays.chunks(len::RAY).map(answer).collect(),
                next: Cell::new(0),
            },
            velocities,
        }
    }

    /// The velocities put back, and the first wheel's ray next.
    fn ready(&mut self) -> QueryPipelineMut<'_> {
        (self.bodies.bodies[0].linear, self.bodies.bodies[0].angular) = self.velocities;
        self.casts.next.set(0);
        QueryPipelineMut {
            bodies: &mut self.bodies,
            colliders: &self.colliders,
            casts: &self.casts,
        }
    }

    /// The chassis' linear and angular velocity, and whether it was woken.
    pub fn driven(&self) -> [f32; len::DRIVE] {
        let chassis = &self.bodies.bodies[0];
        let [x, y, z] = chassis.linear.parts();
        let [u, v, w] = chassis.angular.parts();
        [x, y, z, u, v, w, f32::from(u8::from(chassis.woken))]
    }
}

fn chassis(n: &[f32; len::CHASSIS]) -> RigidBody {
    RigidBody {
        pose: Pose { translation: vector(n), rotation: Rotation::new(n[3], n[4], n[5], n[6]) },
        linear: vector(&n[10..]),
        angular: vector(&n[13..]),
        mprops: MassProperties {
            local_mprops: LocalMassProperties { inv_mass: n[16] },
            world_com: vector(&n[7..]),
            effective_inv_mass: vector(&n[17..]),
            effective_world_inv_inertia: inertia(&n[20..]),
        },
        dynamic: true,
        woken: false,
    }
}

fn ground((n, dynamic): (&[f32], &u32)) -> RigidBody {
    RigidBody {
        pose: Pose::IDENTITY,
        linear: vector(&n[3..]),
        angular: vector(&n[6..]),
        mprops: MassProperties {
            local_mprops: LocalMassProperties { inv_mass: n[9] },
            world_com: vector(n),
            effective_inv_mass: Vector::ZERO,
            effective_world_inv_inertia: inertia(&n[10..]),
        },
        dynamic: *dynamic == 1,
        woken: false,
    }
}

/// The settings' tuning, in the type of one copy of the file.
macro_rules! tuning {
    ($source:ident, $s:expr) => {
        $source::WheelTuning {
            suspension_stiffness: $s[11],
            suspension_compression: $s[12],
            suspension_damping: $s[13],
            max_suspension_travel: $s[14],
            side_friction_stiffness: $s[15],
            friction_slip: $s[16],
            max_suspension_force: $s[17],
        }
    };
}

/// One vehicle for each of the file's forms: they have the same text, but their types differ.
macro_rules! vehicle {
    ($(#[$about:meta])* $name:ident, $source:ident) => {
        $(#[$about])*
        pub struct $name(pub $source::DynamicRayCastVehicleController);

        impl $name {
            pub fn new(scene: &Scene) -> Self {
                let mut vehicle = $name::with_wheels(scene);
                for (wheel, controls) in vehicle.0.wheels_mut().iter_mut().zip(&scene.controls) {
                    wheel.engine_force = controls[0];
                    wheel.brake = controls[1];
                }
                vehicle
            }

            /// A new vehicle, with every wheel added.
            pub fn with_wheels(scene: &Scene) -> Self {
                let mut vehicle = $source::DynamicRayCastVehicleController::new(CHASSIS);
                for s in &scene.settings {
                    let tuning = tuning!($source, s);
                    vehicle.add_wheel(vector(s), vector(&s[3..]), vector(&s[6..]), s[9], s[10], &tuning);
                }
                $name(vehicle)
            }
        }
    };
}

macro_rules! driven {
    ($name:ident) => {
        impl $name {
            /// The file's own `update_vehicle`, from the velocities that the scene starts with.
            pub fn update(&mut self, world: &mut World) {
                self.0.update_vehicle(DT, world.ready());
            }
        }
    };
}

macro_rules! aimed {
    ($name:ident) => {
        impl $name {
            /// The transforms and the signed speed alone.
            pub fn aim(&mut self, world: &World) {
                self.0.aim_part(&world.bodies.bodies[0]);
            }
        }
    };
}

vehicle!(
    /// The file as sent.
    AsSent, as_sent
);
vehicle!(
    /// The copy whose transforms can be left as they are.
    Guarded, guarded
);
vehicle!(
    /// The copy that steers by an angle.
    Scaled, scaled
);

driven!(AsSent);
driven!(Guarded);
aimed!(Guarded);
aimed!(Scaled);

impl Scaled {
    /// Every wheel steered by its angle.
    pub fn steered(scene: &Scene) -> Self {
        let mut vehicle = Scaled::new(scene);
        for (wheel, angle) in vehicle.0.wheels_mut().iter_mut().zip(&scene.angles) {
            wheel.steering = *angle;
        }
        vehicle
    }

    /// Each wheel's axle in the world.
    pub fn axles(&self) -> Vec<[f32; 3]> {
        self.0.wheels().iter().map(|wheel| wheel.axle().parts()).collect()
    }
}

/// The source's own path from an angle was not sent: this is a rotation from a scaled axis, as vector libraries have it (docs/DIFFERENCES.md),
/// with the machine's sine and cosine.
pub fn rotation_from_angle(scaled: Vector) -> Rotation {
    let angle = scaled.length();
    if angle == 0.0 {
        return Rotation::IDENTITY;
    }
    let [x, y, z] = scaled.parts().map(|part| part / angle);
    let (sine, cosine) = (angle * 0.5).sin_cos();
    Rotation::new(x * sine, y * sine, z * sine, cosine)
}

/// The rotations that the scene's angles make, as a host would hand them in.
pub fn rotations(scene: &Scene) -> Vec<Rotation> {
    let rotation = chassis(&scene.chassis).pose.rotation;
    let turn = |(settings, angle): (&[f32; len::SETTINGS], &f32)| {
        turn_about(-(rotation * vector(&settings[3..])), *angle)
    };
    scene.settings.iter().zip(&scene.angles).map(turn).collect()
}
