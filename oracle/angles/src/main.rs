//! `angles [N]`: steers axles of unit length by angle as the library does and as the Rust's own path from
//! an angle does, N of them (4000000 unless said otherwise), and prints the largest gap between the two;
//! then an axle with a direction of length two, which turns twice as far there.
//!
//! That path was not sent. It is written here as a rotation from a scaled axis, as vector libraries have
//! it: the angle is the length of minus the direction times the steering, the axis is that vector divided
//! by its length, and the half angle's sine and cosine are the machine's.
#![forbid(unsafe_code)]

use std::fmt;
use std::process::ExitCode;

use scenarios::Random;
use vehicle::math::{turn_about, Rotation, Vector};
use vehicle::ranges::MOST_ANGLE;

const SAMPLE: u64 = 4_000_000;

const DOWN: Vector = Vector::new(0.0, -1.0, 0.0);
const AHEAD: Vector = Vector::new(0.0, 0.0, 1.0);

fn main() -> ExitCode {
    let arguments: Vec<String> = std::env::args().skip(1).collect();
    let count = match &arguments[..] {
        [] => Some(SAMPLE),
        [count] => count.parse().ok().filter(|count| *count > 0),
        _ => None,
    };
    let Some(count) = count else {
        eprintln!("usage: angles [N]");
        return ExitCode::from(2);
    };
    println!("{count} unit directions, unit axles and angles from -2 to 2");
    println!("{}", largest_gap((0..count).map(any)));
    println!("{count} angles about up, of an axle along z");
    println!("{}", largest_gap((0..count).map(about_up)));
    println!("a direction of length two");
    println!("{}", Steered { direction: DOWN * 2.0, axle: AHEAD, angle: 0.5 });
    ExitCode::SUCCESS
}

/// The source's `rotation_from_angle(-direction * steering)`, as a rotation from a scaled axis.
fn from_scaled_axis(direction: Vector, steering: f32) -> Rotation {
    let scaled = -direction * steering;
    let angle = scaled.length();
    if angle == 0.0 {
        return Rotation::IDENTITY;
    }
    let [x, y, z] = scaled.parts().map(|part| part / angle);
    let (sine, cosine) = (angle * 0.5).sin_cos();
    Rotation::new(x * sine, y * sine, z * sine, cosine)
}

/// A wheel's world direction, its axle before steering, and its angle.
#[derive(Copy, Clone)]
struct Steered {
    direction: Vector,
    axle: Vector,
    angle: f32,
}

impl Steered {
    fn here(&self) -> Vector {
        turn_about(-self.direction, self.angle) * self.axle
    }

    fn there(&self) -> Vector {
        from_scaled_axis(self.direction, self.angle) * self.axle
    }

    /// The largest gap between their parts; the difference of floats this near each other is exact.
    fn gap(&self) -> f32 {
        let parts = (self.here() - self.there()).parts();
        parts.into_iter().fold(0.0, |most, part| part.abs().max(most))
    }
}

impl fmt::Display for Steered {
    fn fmt(&self, out: &mut fmt::Formatter) -> fmt::Result {
        writeln!(out, "  direction {}", shown(self.direction))?;
        writeln!(out, "  axle      {}", shown(self.axle))?;
        writeln!(out, "  angle     {} ({:08x})", self.angle, self.angle.to_bits())?;
        writeln!(out, "  here      {}", shown(self.here()))?;
        writeln!(out, "  there     {}", shown(self.there()))?;
        write!(out, "  gap       {:e}, {} of 2^-24", self.gap(), self.gap() * 16_777_216.0)
    }
}

fn shown(vector: Vector) -> String {
    let [x, y, z] = vector.parts();
    let [a, b, c] = vector.parts().map(f32::to_bits);
    format!("({x}, {y}, {z}) ({a:08x} {b:08x} {c:08x})")
}

/// The one with the largest gap.
fn largest_gap(all: impl Iterator<Item = Steered>) -> Steered {
    let still = Steered { direction: DOWN, axle: AHEAD, angle: 0.0 };
    all.fold(still, |most, steered| if steered.gap() > most.gap() { steered } else { most })
}

fn any(place: u64) -> Steered {
    let mut random = Random::new(96, place);
    let [direction, axle] = [0, 1].map(|_| unit_vector(&mut random));
    Steered { direction, axle, angle: angle(&mut random, place) }
}

fn about_up(place: u64) -> Steered {
    let angle = angle(&mut Random::new(95, place), place);
    Steered { direction: DOWN, axle: AHEAD, angle }
}

/// Any from -2 to 2; the ends in turn, and some within 2^-20 of an end.
fn angle(random: &mut Random, place: u64) -> f32 {
    let sign = [1.0, -1.0][(place % 2) as usize];
    match place % 16 {
        0 | 1 => sign * MOST_ANGLE,
        2 | 3 => sign * f32::from_bits(MOST_ANGLE.to_bits() - random.below(8) as u32),
        _ => random.between(-MOST_ANGLE, MOST_ANGLE),
    }
}

/// A vector in the ball of radius 1 and not near its centre, made unit length.
fn unit_vector(random: &mut Random) -> Vector {
    loop {
        let mut part = || random.between(-1.0, 1.0);
        let vector = Vector::new(part(), part(), part());
        if (0.01..=1.0).contains(&vector.length()) {
            return vector.normalize_or_zero();
        }
    }
}

#[cfg(test)]
mod tests {
    use super::*;

    /// The sine and cosine of one radian, and of half of one.
    const ONE: [f32; 2] = [0.841_471, 0.540_302_3];
    const HALF: [f32; 2] = [0.479_425_54, 0.877_582_55];

    fn is_near(vector: Vector, [x, z]: [f32; 2]) -> bool {
        let gap = vector - Vector::new(x, 0.0, z);
        gap.parts().into_iter().all(|part| part.abs() < 1.0 / 1_048_576.0)
    }

    /// Half a radian about a direction of length two is half a radian here and one there.
    #[test]
    fn a_longer_direction_turns_further_there() {
        let plain = Steered { direction: DOWN, axle: AHEAD, angle: 0.5 };
        assert!(is_near(plain.here(), HALF) && is_near(plain.there(), HALF), "{plain}");
        let longer = Steered { direction: DOWN * 2.0, ..plain };
        assert!(is_near(longer.here(), HALF) && is_near(longer.there(), ONE), "{longer}");
    }

    #[test]
    fn no_angle_turns_nothing() {
        let still = Steered { direction: DOWN, axle: AHEAD, angle: 0.0 };
        assert_eq!((still.there(), still.gap()), (AHEAD, 0.0));
    }

    /// The request has each of sine and cosine within 2^-20 of a sum; over unit directions the axles are
    /// as near.
    #[test]
    fn unit_directions_turn_as_far_there() {
        let most = largest_gap((0..100_000).map(any));
        assert!(most.gap() > 0.0 && most.gap() < 1.0 / 1_048_576.0, "{most}");
    }
}
