//! Document 01's marked cases, each through an accepted step of the Rust source.

mod bench;

use bench::{chassis, controls, hit, row_after, wheel};
use vehicle::handed::{Chassis, Controls, Hit, NewWheel};
use vehicle::math::Vector;
use vehicle::row;
use vehicle::stream::groups;

#[test]
fn case_1_root_of_two() {
    assert_eq!(f32::from_bits(0x4000_0000).sqrt().to_bits(), 0x3FB5_04F3);
}

#[test]
fn case_2_root_of_the_least_number() {
    assert_eq!(f32::from_bits(0x0000_0001).sqrt().to_bits(), 0x1A35_04F3);
}

/// The normal (0, 1, 0) has the dot −n with the direction (0, −n, 0).
fn inverse_for(n: f32) -> f32 {
    let wheel = NewWheel { direction: Vector::new(0.0, -n, 0.0), ..wheel() };
    row_after(wheel, controls(), chassis(), hit()).0[row::CLIPPED_INVERSE]
}

#[test]
fn case_3_dot_of_a_tenth() {
    assert_eq!(inverse_for(0.1), 10.0);
}

#[test]
fn case_4_dot_of_a_half() {
    assert_eq!(inverse_for(0.5), 2.0);
}

#[test]
fn case_5_length_clamped_to_the_travel() {
    let wheel = NewWheel { rest_length: 1.0, travel: 0.25, radius: 0.5, ..wheel() };
    let row = row_after(wheel, controls(), chassis(), Hit { time: 0.5, ..hit() });
    assert_eq!(row.0[row::SUSPENSION_LENGTH], 0.75);
}

/// Stiffness 8, rest 1, length 0.5, inverse 1, mass 4. Time 0.75 gives the length 0.5.
fn force_at(velocity: f32, compression: f32, damping: f32) -> f32 {
    let wheel = NewWheel { stiffness: 8.0, compression, damping, ..wheel() };
    let linear = Vector::new(0.0, velocity, 0.0);
    let chassis = Chassis { inverse_mass: 0.25, linear, ..chassis() };
    let row = row_after(wheel, controls(), chassis, Hit { time: 0.75, ..hit() });
    assert_eq!(row.0[row::SUSPENSION_LENGTH], 0.5);
    assert_eq!(row.0[row::CLIPPED_INVERSE], 1.0);
    assert_eq!(row.0[row::RELATIVE_VELOCITY], velocity);
    row.0[row::SUSPENSION_FORCE]
}

#[test]
fn case_6_compression() {
    // (8 · 0.5 · 1 + 2) · 4.
    assert_eq!(force_at(-1.0, 2.0, 5.0), 24.0);
}

#[test]
fn case_7_relaxation() {
    // (4 − 5) · 4 is below 0.
    assert_eq!(force_at(1.0, 2.0, 5.0), 0.0);
}

/// Forward, side and skid of a wheel. The engine gives the forward demand; with an inverse mass of
/// 1 and no inertia the side demand is −0.2 times the side velocity, which is exact for multiples
/// of 20. The spring is pressed together by 1, so that the stiffness is the force, and dt and slip
/// are 1, so that it is the limit too.
fn gripped(forward: f32, side: f32, limit: f32) -> [f32; 3] {
    let wheel = NewWheel { stiffness: limit, ..wheel() };
    let linear = Vector::new(0.0, 0.0, side * -5.0);
    let controls = Controls { engine: forward, ..controls() };
    let row = row_after(wheel, controls, Chassis { linear, ..chassis() }, hit());
    assert_eq!(row.0[row::SUSPENSION_FORCE], limit);
    [row::FORWARD_IMPULSE, row::SIDE_IMPULSE, row::SKID].map(|place| row.0[place])
}

#[test]
fn case_8_a_demand_at_the_limit_stays() {
    assert_eq!(gripped(6.0, 4.0, 5.0), [6.0, 4.0, 1.0]);
}

#[test]
fn case_9_a_demand_of_twice_the_limit() {
    assert_eq!(gripped(12.0, 8.0, 5.0), [6.0, 4.0, 0.5]);
}

#[test]
fn case_10_no_limit_no_impulse() {
    assert_eq!(gripped(12.0, 8.0, 0.0), [0.0, 0.0, 0.0]);
}

#[test]
fn case_11_brake() {
    // Inverse mass 1 and one wheel: the uncut demand is minus the forward velocity.
    let linear = Vector::new(-7.0, 0.0, 0.0);
    let wheel = NewWheel { stiffness: 100.0, ..wheel() };
    let with = |brake| {
        let chassis = Chassis { linear, ..chassis() };
        let row = row_after(wheel, Controls { brake, ..controls() }, chassis, hit());
        row.0[row::FORWARD_IMPULSE]
    };
    assert_eq!(with(3.0), 3.0);
    assert_eq!(with(8.0), 7.0);
    assert_eq!(with(0.0), 0.0);
}

#[test]
fn case_12_one_in_the_stream() {
    assert_eq!(groups(1.0f32.to_bits()), [0x80, 0x80, 0x80, 0xFC, 0x03]);
}
