//! Document 01's "Vector arithmetic": each operation rounded once, none fused, in 01's order.
//!
//! Stands in for the `math` module of the crate that the Rust source comes from.

use std::cell::RefCell;
use std::collections::VecDeque;
use std::ops::{Add, AddAssign, Mul, Neg, Sub, SubAssign};

/// Single precision.
pub type Real = f32;

/// Three numbers.
#[derive(Copy, Clone, Debug, PartialEq, Default)]
pub struct Vector {
    pub x: Real,
    pub y: Real,
    pub z: Real,
}

impl Vector {
    pub const ZERO: Vector = Vector::new(0.0, 0.0, 0.0);

    pub const fn new(x: Real, y: Real, z: Real) -> Self {
        Vector { x, y, z }
    }

    /// (x·x' + y·y') + z·z'.
    pub fn dot(self, other: Vector) -> Real {
        (self.x * other.x + self.y * other.y) + self.z * other.z
    }

    /// The first part is y·z' − z·y', the rest cyclic.
    pub fn cross(self, other: Vector) -> Vector {
        Vector {
            x: self.y * other.z - self.z * other.y,
            y: self.z * other.x - self.x * other.z,
            z: self.x * other.y - self.y * other.x,
        }
    }

    /// The root of the dot with itself. `f32::sqrt` is the IEEE 754 root, rounded to nearest.
    pub fn length(self) -> Real {
        self.dot(self).sqrt()
    }

    /// The vector times r = 1/length if r is finite and above 0, else zero.
    pub fn normalize_or_zero(self) -> Vector {
        let r = 1.0 / self.length();
        if r.is_finite() && r > 0.0 {
            self * r
        } else {
            Vector::ZERO
        }
    }

    /// The product part by part.
    pub fn times_parts(self, other: Vector) -> Vector {
        Vector::new(self.x * other.x, self.y * other.y, self.z * other.z)
    }

    pub fn parts(self) -> [Real; 3] {
        [self.x, self.y, self.z]
    }
}

impl Add for Vector {
    type Output = Vector;
    fn add(self, other: Vector) -> Vector {
        Vector::new(self.x + other.x, self.y + other.y, self.z + other.z)
    }
}

impl Sub for Vector {
    type Output = Vector;
    fn sub(self, other: Vector) -> Vector {
        Vector::new(self.x - other.x, self.y - other.y, self.z - other.z)
    }
}

impl Mul<Real> for Vector {
    type Output = Vector;
    fn mul(self, by: Real) -> Vector {
        Vector::new(self.x * by, self.y * by, self.z * by)
    }
}

impl Neg for Vector {
    type Output = Vector;
    fn neg(self) -> Vector {
        Vector::new(-self.x, -self.y, -self.z)
    }
}

impl AddAssign for Vector {
    fn add_assign(&mut self, other: Vector) {
        *self = *self + other;
    }
}

impl SubAssign for Vector {
    fn sub_assign(&mut self, other: Vector) {
        *self = *self - other;
    }
}

/// What the source asks of a vector type beside its operators.
pub trait VectorExt {
    /// The vector with `value` in one place and 0 in the others.
    fn ith(place: usize, value: Real) -> Self;
}

impl VectorExt for Vector {
    fn ith(place: usize, value: Real) -> Vector {
        let at = |here| if here == place { value } else { 0.0 };
        Vector::new(at(0), at(1), at(2))
    }
}

/// A rotation (b, w): b is (x, y, z).
#[derive(Copy, Clone, Debug, PartialEq)]
pub struct Rotation {
    pub x: Real,
    pub y: Real,
    pub z: Real,
    pub w: Real,
}

impl Rotation {
    pub const IDENTITY: Rotation = Rotation::new(0.0, 0.0, 0.0, 1.0);

    pub const fn new(x: Real, y: Real, z: Real, w: Real) -> Self {
        Rotation { x, y, z, w }
    }

    pub fn parts(self) -> [Real; 4] {
        [self.x, self.y, self.z, self.w]
    }

    /// The sum of squares, x, y, z, w in order.
    pub fn sum_of_squares(self) -> Real {
        ((self.x * self.x + self.y * self.y) + self.z * self.z) + self.w * self.w
    }
}

impl Mul<Vector> for Rotation {
    type Output = Vector;
    /// (v·(w·w − b·b) + b·((v·b)·2)) + (b×v)·(w·2).
    fn mul(self, v: Vector) -> Vector {
        let b = Vector::new(self.x, self.y, self.z);
        let w = self.w;
        (v * (w * w - b.dot(b)) + b * (v.dot(b) * 2.0)) + b.cross(v) * (w * 2.0)
    }
}

/// A rotation and a translation.
#[derive(Copy, Clone, Debug, PartialEq)]
pub struct Pose {
    pub rotation: Rotation,
    pub translation: Vector,
}

impl Pose {
    pub const IDENTITY: Pose = Pose { rotation: Rotation::IDENTITY, translation: Vector::ZERO };
}

impl Mul<Vector> for &Pose {
    type Output = Vector;
    /// A pose rotates, then adds its translation.
    fn mul(self, point: Vector) -> Vector {
        self.rotation * point + self.translation
    }
}

/// An inverse inertia: a symmetric three by three array of rows.
#[derive(Copy, Clone, Debug, PartialEq)]
pub struct Inertia {
    pub rows: [[Real; 3]; 3],
}

impl Inertia {
    /// The six numbers xx, xy, xz, yy, yz, zz.
    pub fn from_parts([xx, xy, xz, yy, yz, zz]: [Real; 6]) -> Self {
        Inertia { rows: [[xx, xy, xz], [xy, yy, yz], [xz, yz, zz]] }
    }
}

impl Mul<Vector> for Inertia {
    type Output = Vector;
    /// Three row dots.
    fn mul(self, v: Vector) -> Vector {
        let [first, second, third] = self.rows.map(|[x, y, z]| Vector::new(x, y, z).dot(v));
        Vector::new(first, second, third)
    }
}

/// How a wheel is steered: by a rotation in world space, or by an angle about minus its world direction
/// (change request 2026-11).
#[derive(Copy, Clone, Debug, PartialEq)]
pub enum Steering {
    Rotation(Rotation),
    Angle(Real),
}

thread_local! {
    /// How the wheels are steered whose rotations the source will ask for, in wheel order.
    static STEERING: RefCell<VecDeque<Steering>> = const { RefCell::new(VecDeque::new()) };
}

/// Lines up how the wheels are steered, the first wheel first.
pub fn line_up_steering(wheels: impl Iterator<Item = Steering>) {
    STEERING.with_borrow_mut(|queue| {
        queue.clear();
        queue.extend(wheels);
    });
}

/// The next wheel's steering rotation. Where document 01 keeps it in place of the angle, the argument,
/// minus the direction times the source's own steering, is not looked at; where an angle is kept, that
/// steering is 1, and the argument says what to turn about.
pub fn rotation_from_angle(against: Vector) -> Rotation {
    match STEERING.with_borrow_mut(VecDeque::pop_front) {
        Some(Steering::Rotation(rotation)) => rotation,
        Some(Steering::Angle(angle)) => turn_about(against, angle),
        None => Rotation::IDENTITY,
    }
}

/// The rotation by this angle about a vector that is made unit length first.
pub fn turn_about(vector: Vector, angle: Real) -> Rotation {
    let half = angle * 0.5;
    let Vector { x, y, z } = vector.normalize_or_zero() * sine(half);
    Rotation::new(x, y, z, cosine(half))
}

/// 2^30: what the whole numbers of the Taylor sums count in one.
const UNIT: i128 = 1 << 30;

/// The Taylor sum through the twelfth power, nested and cut to whole units at each step, as
/// crates/angle/specs/Angle.antt defines it; the nearest float to it. For sizes up to 1.
pub fn cosine(half: Real) -> Real {
    nested(half, &[11 * 12, 9 * 10, 7 * 8, 5 * 6, 3 * 4, 2]) as Real
}

/// The same through the eleventh power: what is left of the sum once the half angle is taken out of it,
/// as the nearest float, times the half angle.
pub fn sine(half: Real) -> Real {
    half * nested(half, &[10 * 11, 8 * 9, 6 * 7, 4 * 5, 2 * 3]) as Real
}

/// 1 − s/d · (1 − s/d' · (…)), s being the square and d the last of these divisors. The size, the square
/// and each subtrahend are cut to whole units, and no number of units has more than 31 bits, so that the
/// double is exact.
fn nested(half: Real, divisors: &[i128]) -> f64 {
    let size = (f64::from(half.abs()) * UNIT as f64).floor() as i128;
    let square = size * size / UNIT;
    let sum = divisors.iter().fold(UNIT, |inner, d| UNIT - square * inner / (UNIT * d));
    sum as f64 / UNIT as f64
}

#[cfg(test)]
mod tests {
    use super::*;

    /// 2^24: one more than it is not a float, so that the order of a sum shows.
    const BIG: Real = 16_777_216.0;

    #[test]
    fn dot_adds_from_the_left() {
        let ones = Vector::new(1.0, 1.0, 1.0);
        assert_eq!(Vector::new(BIG, 1.0, -BIG).dot(ones), 0.0);
        assert_eq!(Vector::new(BIG, -BIG, 1.0).dot(ones), 1.0);
    }

    #[test]
    fn dot_rounds_each_product() {
        // (1 + 2^-12)² is 1 + 2^-11 + 2^-24, which rounds to 1 + 2^-11; fused, 2^-24 would stay.
        let near_one = 1.0 + 1.0 / 4096.0;
        let less = -(1.0 + 1.0 / 2048.0);
        let v = Vector::new(less, 0.0, near_one);
        assert_eq!(v.dot(Vector::new(1.0, 0.0, near_one)), 0.0);
    }

    #[test]
    fn cross_is_cyclic() {
        let [x, y, z] = [0, 1, 2].map(|place| Vector::ith(place, 1.0));
        assert_eq!([x.cross(y), y.cross(z), z.cross(x)], [z, x, y]);
        let cross = Vector::new(1.0, 2.0, 3.0).cross(Vector::new(5.0, 7.0, 11.0));
        assert_eq!(cross, Vector::new(1.0, 4.0, -3.0));
    }

    #[test]
    fn length_is_the_root_of_the_dot() {
        assert_eq!(Vector::new(3.0, 4.0, 12.0).length(), 13.0);
        assert_eq!(Vector::new(1.0, 1.0, 0.0).length().to_bits(), 0x3FB5_04F3);
    }

    #[test]
    fn normalise_multiplies_by_the_reciprocal() {
        assert_eq!(Vector::new(0.0, 3.0, 0.0).normalize_or_zero().y, 1.0);
        // 1/41 rounds down by so much that 41 times it is the float below 1; 41/41 would be 1.
        let below_one = Real::from_bits(0x3F7F_FFFF);
        assert_eq!(Vector::new(0.0, 41.0, 0.0).normalize_or_zero().y, below_one);
    }

    #[test]
    fn normalise_falls_back_to_zero() {
        assert_eq!(Vector::ZERO.normalize_or_zero(), Vector::ZERO);
        // The square underflows to 0.
        assert_eq!(Vector::new(1e-30, 0.0, 0.0).normalize_or_zero(), Vector::ZERO);
        // The square overflows.
        assert_eq!(Vector::new(1e30, 0.0, 0.0).normalize_or_zero(), Vector::ZERO);
        assert_eq!(Vector::new(Real::NAN, 0.0, 0.0).normalize_or_zero(), Vector::ZERO);
    }

    #[test]
    fn rotation_by_the_formula() {
        // (b, w) = ((0.5, 0.5, 0.5), 0.5) takes x to y, y to z, z to x.
        let third = Rotation::new(0.5, 0.5, 0.5, 0.5);
        assert_eq!(third * Vector::new(1.0, 2.0, 3.0), Vector::new(3.0, 1.0, 2.0));
        // Not of unit length: b = (1, 2, 2), w = 4, v = (1, 0, 0), so b·b = 9 and v·b = 1:
        // v·7 + b·2 + (b×v)·8 with b×v = (0, 2, −2).
        let wide = Rotation::new(1.0, 2.0, 2.0, 4.0);
        assert_eq!(wide * Vector::new(1.0, 0.0, 0.0), Vector::new(9.0, 20.0, -12.0));
    }

    #[test]
    fn a_pose_rotates_then_translates() {
        let rotation = Rotation::new(0.5, 0.5, 0.5, 0.5);
        let pose = Pose { rotation, translation: Vector::new(10.0, 20.0, 30.0) };
        assert_eq!(&pose * Vector::new(1.0, 2.0, 3.0), Vector::new(13.0, 21.0, 32.0));
    }

    #[test]
    fn inertia_is_symmetric_rows() {
        let inertia = Inertia::from_parts([1.0, 2.0, 3.0, 4.0, 5.0, 6.0]);
        assert_eq!(inertia * Vector::new(1.0, 10.0, 100.0), Vector::new(321.0, 542.0, 653.0));
    }

    #[test]
    fn sum_of_squares_in_order() {
        // Each square is 2^24 or 1: from the left, 2^24 + 1 rounds back to 2^24 each time.
        assert_eq!(Rotation::new(4096.0, 1.0, 1.0, 1.0).sum_of_squares(), BIG);
        assert_eq!(Rotation::new(1.0, 1.0, 1.0, 4096.0).sum_of_squares(), BIG + 4.0);
    }

    #[test]
    fn steering_comes_in_wheel_order() {
        let turned = Rotation::new(0.0, 1.0, 0.0, 0.0);
        let up = Vector::new(0.0, 1.0, 0.0);
        let kept = [turned, Rotation::IDENTITY].map(Steering::Rotation);
        line_up_steering(kept.into_iter().chain([Steering::Angle(0.0)]));
        // A rotation that is kept does not look at the argument, an angle turns about it.
        assert_eq!(rotation_from_angle(Vector::ZERO), turned);
        assert_eq!(rotation_from_angle(up), Rotation::IDENTITY);
        assert_eq!(rotation_from_angle(up), Rotation::IDENTITY);
        line_up_steering([Steering::Angle(1.0)].into_iter());
        assert_eq!(rotation_from_angle(up * 2.0), turn_about(up, 1.0));
    }

    /// 2^29 units have the square 2^28, a quarter. The cosine's subtrahends, from inside out:
    /// 2^28/132 = 2033601, 1071708223/360 = 2976967, 1070764857/224 = 4780200, 1068961624/120 = 8908013,
    /// 1064833811/48 = 22184037, 1051557787/8 = 131444723. 942297101 units are left, and a float has
    /// steps of 64 of them there: 14723392.2 steps. The sine's: 2^28/110 = 2440322, 1071301502/288 =
    /// 3719796, 1070022028/168 = 6369178, 1067372646/80 = 13342158, 1060399666/24 = 44183319; left are
    /// 1029558505 units, 16086851.6 steps.
    #[test]
    fn half_a_radian() {
        let steps = |count: Real| count / BIG;
        assert_eq!(cosine(0.5), steps(14_723_392.0));
        assert_eq!(sine(0.5), 0.5 * steps(16_086_852.0));
    }

    /// 2^-11 is 2^19 units, its square 2^8. The last subtrahends are 256/12 = 21 less a trifle and 128
    /// less a trifle, so that 127 units are taken away, two steps of 64 nearly; for the sine 256/6 = 42,
    /// less than one. 2^-12 has the square 64: 31 are taken away, which is less than half a step.
    #[test]
    fn small_angles() {
        let one = 1.0f32.to_bits();
        let [eleventh, twelfth] = [1.0 / 2048.0, 1.0 / 4096.0];
        assert_eq!(cosine(eleventh).to_bits(), one - 2);
        assert_eq!(sine(eleventh), eleventh * Real::from_bits(one - 1));
        assert_eq!(cosine(twelfth), 1.0);
        // What is below a unit has no size; the sine is still the angle itself, to the last subnormal.
        for size in [1e-10, Real::MIN_POSITIVE, Real::from_bits(1), 0.0] {
            assert_eq!((cosine(size), sine(size)), (1.0, size));
            assert_eq!((cosine(-size), sine(-size).to_bits()), (1.0, (-size).to_bits()));
        }
    }

    /// The request: within 2^-20 of the Taylor sum through the twelfth power. Here over doubles, which
    /// have the sums to about 2^-53.
    #[test]
    fn near_the_taylor_sums() {
        let (mut even, mut odd) = (0.0f64, 0.0f64);
        for step in -4096..=4096 {
            let half = step as Real / 4096.0;
            let x = f64::from(half);
            let (mut cos, mut sin, mut term) = (0.0, 0.0, 1.0);
            for power in 0..=12 {
                let sign = if power % 4 < 2 { 1.0 } else { -1.0 };
                *if power % 2 == 0 { &mut cos } else { &mut sin } += sign * term;
                term *= x / f64::from(power + 1);
            }
            even = even.max((f64::from(cosine(half)) - cos).abs());
            odd = odd.max((f64::from(sine(half)) - sin).abs());
        }
        let bound = 1.0 / 1_048_576.0;
        assert!(even <= bound && odd <= bound, "{even:e} {odd:e}");
    }

    #[test]
    fn an_angle_turns_about_a_vector_of_any_length() {
        let [up, ahead] = [1, 2].map(|place| Vector::ith(place, 1.0));
        let turned = |vector, angle| turn_about(vector, angle) * ahead;
        // To the right hand's side: z goes toward x.
        let once = turned(up, 0.5);
        assert!(once.x > 0.0 && once.y == 0.0 && once.z > 0.0, "{once:?}");
        assert_eq!(turned(-up, 0.5), Vector::new(-once.x, 0.0, once.z));
        assert_eq!(turned(up, -0.5), Vector::new(-once.x, 0.0, once.z));
        for length in [2.0, 0.25, BIG, 1.0 / BIG] {
            assert_eq!(turned(up * length, 0.5), once);
        }
        // Nothing to turn about: only the cosine is left.
        assert_eq!(turn_about(Vector::ZERO, 1.0), Rotation::new(0.0, 0.0, 0.0, cosine(0.5)));
    }
}
