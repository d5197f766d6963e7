//! The inputs that both sides are timed on: a car with so many wheels on so many ground bodies.

use vehicle_controller::ffi::{kind, len};

pub const DT: f32 = 1.0 / 60.0;

/// A car as the library's calls take it.
pub struct Scene {
    pub settings: Vec<[f32; len::SETTINGS]>,
    pub controls: Vec<[f32; len::CONTROLS]>,
    /// For an aim of steered wheels: each wheel's angle.
    pub angles: Vec<f32>,
    pub chassis: [f32; len::CHASSIS],
    pub bodies: Vec<f32>,
    pub dynamic: Vec<u32>,
    pub kinds: Vec<u32>,
    pub named: Vec<u32>,
    pub rays: Vec<f32>,
}

impl Scene {
    /// So many wheels, all on the ground: the first half with an engine force, then every third on its brake. Where there are ground bodies,
    /// wheel i stands on body i, from the start again after the last, and every second body is dynamic.
    pub fn new(wheels: usize, bodies: usize) -> Self {
        Scene {
            settings: (0..wheels).map(settings).collect(),
            controls: (0..wheels).map(|wheel| controls(wheel, wheels)).collect(),
            angles: (0..wheels).map(|wheel| 0.5 - 0.125 * (wheel % 9) as f32).collect(),
            chassis: [
                4.0, 1.25, -3.0, 0.0, 0.6, 0.0, 0.8, 4.0, 1.0, -3.0, 11.0, -0.25, 4.5, 0.03, 0.2,
                -0.04, 0.001, 0.001, 0.001, 0.001, 0.002, 0.00001, 0.0, 0.0008, 0.0, 0.0015,
            ],
            bodies: (0..bodies).flat_map(body).collect(),
            dynamic: (0..bodies).map(|body| (body % 2) as u32).collect(),
            kinds: vec![kind::HIT; wheels],
            named: (0..wheels)
                .map(|wheel| if bodies == 0 { 0 } else { 1 + (wheel % bodies) as u32 })
                .collect(),
            rays: (0..wheels).flat_map(ray).collect(),
        }
    }
}

fn settings(wheel: usize) -> [f32; len::SETTINGS] {
    let along = 1.5 - 0.4 * (wheel / 2) as f32;
    let across = if wheel.is_multiple_of(2) { 0.75 } else { -0.75 };
    [
        along, -0.25, across, 0.0, -1.0, 0.0, 0.0, 0.0, 1.0, 0.4, 0.35, 30.0, 2.0, 2.5, 0.3, 1.0,
        1.5, 6000.0, 0.1,
    ]
}

fn controls(wheel: usize, wheels: usize) -> [f32; len::CONTROLS] {
    let engine = if wheel < wheels / 2 { 900.0 } else { 0.0 };
    let brake = if wheel % 3 == 2 { 15.0 } else { 0.0 };
    [engine, brake, 0.0, 0.0, 0.0, 1.0]
}

fn ray(wheel: usize) -> [f32; len::RAY] {
    [0.75 + 0.01 * (wheel % 5) as f32, 0.02, 0.9997, 0.01, 0.0, 0.0, 0.0]
}

fn body(number: usize) -> [f32; len::BODY] {
    [
        number as f32,
        -1.0,
        2.0,
        0.5,
        0.0,
        -0.25,
        0.0,
        0.01,
        0.0,
        0.0005,
        0.001,
        0.0,
        0.0,
        0.001,
        0.0,
        0.001,
    ]
}
