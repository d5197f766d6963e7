//! A car that drives forward, steers left and stops, in Rust.
use vehicle_controller::{
    Axis, Controls, Inertia, Mount, RayAnswer, Refused, RigidBody, Rotation, Sight, Steering, Vector, Vehicle, WheelSettings,
};

const DT: f64 = 1.0 / 60.0;
const GRAVITY: f64 = 9.81;
const MASS: f32 = 1200.0;

/// Flat ground at height 0.
fn ground(sight: &Sight) -> RayAnswer {
    let time = (f64::from(sight.start.y) / -f64::from(sight.ray.y)).max(0.0) as f32;
    match time {
        ..=1.0 => RayAnswer::Hit { time, normal: Vector::new(0.0, 1.0, 0.0), body: None },
        _ => RayAnswer::Nothing,
    }
}

fn bits(vectors: [Vector; 3]) -> String {
    vectors.iter().flat_map(|v| [v.x, v.y, v.z]).map(|part| format!("{:08x}", part.to_bits())).collect()
}

fn main() -> Result<(), Refused> {
    let mut car = Vehicle::new(Axis::Y, Axis::X)?.strict(|doubt| eprintln!("{doubt}"));
    for (x, z) in [(1.25, 0.75), (1.25, -0.75), (-1.25, 0.75), (-1.25, -0.75)] {
        let (connection, direction, axle) = (Vector::new(x, -0.1, z), Vector::new(0.0, -1.0, 0.0), Vector::new(0.0, 0.0, 1.0));
        let wheel = Mount { connection, direction, axle, rest_length: 0.3, radius: 0.3 }.wheel();
        car.add_wheel(&WheelSettings { stiffness: 30.0, compression: 2.2, damping: 2.7, travel: 0.2, slip: 1.0, ..wheel })?;
    }
    let mut body = RigidBody::new(MASS, Inertia::of_box(MASS, Vector::new(4.0, 1.2, 1.8)));
    let (mut p, mut q) = ([0.0, 0.61, 0.0], [0.0, 0.0, 0.0, 1.0]);
    for frame in 1..=360 {
        let (engine, brake) = if frame <= 240 { (1000.0, 0.0) } else { (0.0, 30.0) };
        let angle = if frame > 120 && frame <= 240 { 0.1 } else { 0.0 };
        for wheel in 0..4 {
            let (engine, angle) = if wheel < 2 { (0.0, angle) } else { (engine, 0.0) };
            car.set_controls(wheel, &Controls { engine, brake, steering: Steering::Angle(angle) })?;
        }
        (body.position, body.rotation) = (p.map(|x| x as f32).into(), Rotation::xyzw(q.map(|x| x as f32)));
        let aimed = car.aim(&body.chassis())?;
        let (speed, answers) = (aimed.speed(), aimed.sights().iter().map(ground).collect::<Vec<_>>());
        let driven = aimed.drive(DT as f32, &[], &answers)?;
        let (moved, tyre) = (driven.velocity(), driven.read(0)?.settled);
        let (mut v, w) = (<[f32; 3]>::from(moved.linear).map(f64::from), <[f32; 3]>::from(moved.angular).map(f64::from));
        v[1] -= GRAVITY * DT; // the host's own step: gravity, then the new place
        p = [0, 1, 2].map(|i| p[i] + v[i] * DT);
        let ([a, b, c], [x, y, z, s]) = (w, q);
        let turn = [a * s + b * z - c * y, b * s + c * x - a * z, c * s + a * y - b * x, -(a * x + b * y + c * z)];
        q = [0, 1, 2, 3].map(|i| q[i] + 0.5 * DT * turn[i]);
        let size = (q[0] * q[0] + q[1] * q[1] + q[2] * q[2] + q[3] * q[3]).sqrt();
        q = q.map(|part| part / size);
        (body.linear_velocity, body.angular_velocity) = (v.map(|x| x as f32).into(), moved.angular);
        if frame % 20 == 0 {
            let bits = bits([moved.linear, moved.angular, tyre]);
            println!("frame {frame}: at ({:.3}, {:.3}, {:.3}), speed {speed:.3}, tyre 0 at height {:.3} {bits}", p[0], p[1], p[2], tyre.y);
        }
    }
    Ok(())
}
