//! Wheels, chassis, bodies and answers of many sizes, most of them accepted.

use vehicle::handed::{Chassis, Controls, Drive, GroundBody, Hit, NewWheel, RayAnswer};
use vehicle::math::{Pose, Rotation, Steering, Vector};
use vehicle::ranges::BAND;

use crate::random::Random;

/// 2^20: the greatest number that may be handed in.
pub const MOST: f32 = 1_048_576.0;

/// Numbers at which something changes: zeros, subnormals, powers of two, their neighbours.
pub const SPECIAL: [f32; 24] = [
    0.0,
    -0.0,
    f32::from_bits(1),
    -f32::from_bits(1),
    f32::from_bits(0x0040_0000),
    f32::MIN_POSITIVE,
    -f32::MIN_POSITIVE,
    9.094_947e-13, // 2^-40
    -9.094_947e-13,
    9.536_743e-7, // 2^-20
    1e-20,
    0.1,
    -0.1,
    0.5,
    f32::from_bits(0x3F7F_FFFF),
    1.0,
    f32::from_bits(0x3F80_0001),
    -1.0,
    2.0,
    3.0,
    1024.0,
    f32::from_bits(0x497F_FFFF),
    MOST,
    -MOST,
];

/// How large the numbers of a scenario are: exponents from −`spread` to `spread`, 19 at most.
#[derive(Copy, Clone)]
pub struct Size {
    pub spread: i32,
    /// One number in so many is a special one.
    pub special_once_in: usize,
}

impl Size {
    /// Numbers as a modeller would type them.
    pub const TAME: Size = Size { spread: 2, special_once_in: 40 };

    pub fn any(random: &mut Random) -> Size {
        let spread = random.pick(&[1, 2, 3, 5, 8, 12, 20, 60, 120]);
        Size { spread, special_once_in: random.pick(&[3, 10, 40, 1000]) }
    }

    pub fn number(self, random: &mut Random) -> f32 {
        if random.once_in(self.special_once_in) {
            return random.pick(&SPECIAL);
        }
        let size = self.positive(random);
        if random.once_in(2) {
            -size
        } else {
            size
        }
    }

    pub fn positive(self, random: &mut Random) -> f32 {
        if random.once_in(self.special_once_in) {
            return random.pick(&SPECIAL).abs();
        }
        let span = (self.spread + self.spread.min(19) + 1) as usize;
        let exponent = random.below(span) as i32 - self.spread;
        let fraction = (random.bits() >> 41) as u32;
        f32::from_bits(((exponent + 127) as u32) << 23 | fraction)
    }

    pub fn vector(self, random: &mut Random) -> Vector {
        Vector::new(self.number(random), self.number(random), self.number(random))
    }

    /// A vector along one axis, of unit length, or any.
    pub fn direction(self, random: &mut Random) -> Vector {
        match random.below(8) {
            0..=2 => along_an_axis(random),
            3..=6 => unit_vector(random),
            _ => self.vector(random),
        }
    }

    pub fn wheel(self, random: &mut Random) -> NewWheel {
        let usual_direction = random.below(4) > 0;
        NewWheel {
            connection_point: self.vector(random),
            direction: if usual_direction {
                Vector::new(0.0, -1.0, 0.0)
            } else {
                self.direction(random)
            },
            axle: if usual_direction {
                Vector::new(0.0, 0.0, random.pick(&[1.0, -1.0]))
            } else {
                self.direction(random)
            },
            rest_length: self.positive(random),
            radius: not_zero(self.positive(random)),
            stiffness: self.positive(random),
            compression: self.positive(random),
            damping: self.positive(random),
            travel: self.positive(random),
            side_stiffness: self.positive(random),
            slip: self.positive(random),
            max_force: self.positive(random) * 64.0,
            roll_influence: None,
        }
        .cut_to_bounds()
    }

    pub fn controls(self, random: &mut Random) -> Controls {
        let powered = random.once_in(2);
        Controls {
            engine: if powered { self.number(random) } else { random.pick(&[0.0, -0.0]) },
            brake: if random.once_in(3) { 0.0 } else { self.positive(random) },
            steering: Steering::Rotation(rotation(random)),
        }
    }

    pub fn chassis(self, random: &mut Random) -> Chassis {
        let inverse_mass = self.positive(random).clamp(1.0 / MOST, MOST);
        let free = Vector::new(inverse_mass, inverse_mass, inverse_mass);
        Chassis {
            pose: Pose { rotation: rotation(random), translation: self.vector(random) },
            center_of_mass: self.vector(random),
            linear: self.vector(random),
            angular: self.vector(random),
            inverse_mass,
            effective_inverse_masses: if random.below(4) > 0 { free } else { self.vector(random) },
            inverse_inertia: self.inertia(random),
        }
    }

    /// Mostly a positive diagonal; sometimes any six numbers.
    pub fn inertia(self, random: &mut Random) -> [f32; 6] {
        match random.below(4) {
            0 => [0, 1, 2, 3, 4, 5].map(|_| self.number(random)),
            1 => [0.0; 6],
            _ => {
                let [xx, yy, zz] = [0, 1, 2].map(|_| self.positive(random));
                let small = |random: &mut Random| random.between(-0.1, 0.1) * xx.min(yy).min(zz);
                [xx, small(random), small(random), yy, small(random), zz]
            }
        }
    }

    pub fn body(self, random: &mut Random) -> GroundBody {
        GroundBody {
            center_of_mass: self.vector(random),
            linear: self.vector(random),
            angular: self.vector(random),
            inverse_mass: if random.once_in(4) { 0.0 } else { self.positive(random) },
            inverse_inertia: self.inertia(random),
            dynamic: random.once_in(2),
        }
    }

    pub fn answer(self, random: &mut Random, bodies: usize) -> RayAnswer {
        if random.once_in(5) {
            return None;
        }
        let time = match random.below(6) {
            0 => 0.0,
            1 => random.pick(&[-0.0, 1.0, 0.5, f32::from_bits(1), f32::from_bits(0x3F7F_FFFF)]),
            _ => random.unit(),
        };
        let once_in = if time == 0.0 { 2 } else { 64 };
        let normal = if random.once_in(once_in) { a_zero(random) } else { self.normal(random) };
        let body = if bodies > 0 && random.below(3) > 0 {
            Some(random.below(bodies) as u32)
        } else {
            None
        };
        let upward_normal = match random.below(192) {
            0 => Some(a_zero(random)),
            1..=64 => Some(-self.normal(random)),
            _ => None,
        };
        Some(Hit { time, normal, upward_normal, body })
    }

    /// The ground's normal. Most have unit length, some lie at an end of their band, a few are two
    /// long or of any length.
    fn normal(self, random: &mut Random) -> Vector {
        match random.below(48) {
            0 => self.vector(random),
            1 => near_upright(random) * 2.0,
            2 | 3 => at_an_end(random),
            4..=23 => Vector::new(0.0, 1.0, 0.0),
            24..=37 => near_upright(random),
            38..=42 => along_an_axis(random),
            _ => unit_vector(random),
        }
    }

    pub fn drive(self, random: &mut Random, wheels: usize) -> Drive {
        let bodies: Vec<GroundBody> =
            (0..random.pick(&[0, 0, 1, 1, 2, 3, 6])).map(|_| self.body(random)).collect();
        let dt = match random.below(6) {
            0 => random.pick(&[0.0, -0.0, 1.0, 0.5, f32::from_bits(1), f32::MIN_POSITIVE]),
            1 => random.unit(),
            _ => 1.0 / random.between(20.0, 240.0),
        };
        let answers = (0..wheels).map(|_| self.answer(random, bodies.len())).collect();
        Drive { dt, bodies, answers }
    }
}

/// Keeps what a generator made within what may be handed in.
trait CutToBounds {
    fn cut_to_bounds(self) -> Self;
}

impl CutToBounds for NewWheel {
    fn cut_to_bounds(self) -> Self {
        NewWheel::from_numbers(self.numbers().map(|number| number.clamp(-MOST, MOST)))
    }
}

fn not_zero(number: f32) -> f32 {
    if number == 0.0 {
        0.5
    } else {
        number
    }
}

pub fn along_an_axis(random: &mut Random) -> Vector {
    let size = random.pick(&[1.0, -1.0]);
    random.pick(&[
        Vector::new(size, 0.0, 0.0),
        Vector::new(0.0, size, 0.0),
        Vector::new(0.0, 0.0, size),
    ])
}

pub fn unit_vector(random: &mut Random) -> Vector {
    let mut part = || random.between(-1.0, 1.0);
    Vector::new(part(), part(), part()).normalize_or_zero()
}

/// The zero vector, with zeros of either sign.
pub fn a_zero(random: &mut Random) -> Vector {
    let mut part = || random.pick(&[0.0, 0.0, -0.0]);
    Vector::new(part(), part(), part())
}

/// A normal whose sum of squares is exactly an end of its band, or the next float to either side.
pub fn at_an_end(random: &mut Random) -> Vector {
    let end = random.pick(&[1.0 - BAND, 1.0 + BAND]);
    let wanted = f32::from_bits(end.to_bits() + random.below(3) as u32 - 1);
    for _ in 0..100 {
        let unit = if random.once_in(2) { near_upright(random) } else { unit_vector(random) };
        let mut parts = (unit * wanted.sqrt()).parts();
        let part = &mut parts[random.below(3)];
        *part = f32::from_bits((part.to_bits() + random.below(9) as u32).wrapping_sub(4));
        let normal = Vector::new(parts[0], parts[1], parts[2]);
        if normal.dot(normal) == wanted {
            return normal;
        }
    }
    // None was met: one that is not at an end, which the tally then does not count.
    near_upright(random)
}

/// A ground normal on a slope of up to about one in two.
pub fn near_upright(random: &mut Random) -> Vector {
    let x = random.between(-0.5, 0.5);
    let z = random.between(-0.5, 0.5);
    Vector::new(x, 1.0, z).normalize_or_zero()
}

/// A rotation whose sum of squares lies in the band.
pub fn rotation(random: &mut Random) -> Rotation {
    match random.below(6) {
        0 | 1 => Rotation::IDENTITY,
        2 => random.pick(&[
            Rotation::new(1.0, 0.0, 0.0, 0.0),
            Rotation::new(0.0, 1.0, -0.0, 0.0),
            Rotation::new(0.5, 0.5, 0.5, 0.5),
            Rotation::new(0.6, 0.0, 0.0, -0.8),
        ]),
        3 => turn(Vector::new(0.0, 1.0, 0.0), random.between(-0.5, 0.5)),
        _ => turn(unit_vector(random), random.between(-2.0, 2.0)),
    }
}

/// The rotation about a unit axis whose half angle has this tangent.
pub fn turn(axis: Vector, half_tangent: f32) -> Rotation {
    let length = (1.0 + half_tangent * half_tangent).sqrt();
    let b = axis * (half_tangent / length);
    Rotation::new(b.x, b.y, b.z, 1.0 / length)
}
