//! Stands in for the `utils` module of the crate that the Rust source comes from.

use crate::math::{Real, Vector};

/// 0 for 0, else 1/a.
pub fn inv(a: Real) -> Real {
    if a == 0.0 {
        0.0
    } else {
        1.0 / a
    }
}

/// The cross product by the name that the source uses in both its dimensions.
pub trait CrossProduct {
    fn gcross(self, other: Vector) -> Vector;
}

impl CrossProduct for Vector {
    fn gcross(self, other: Vector) -> Vector {
        self.cross(other)
    }
}

/// The dot product by the name that the source uses in both its dimensions.
pub trait DotProduct {
    fn gdot(self, other: Vector) -> Real;
}

impl DotProduct for Vector {
    fn gdot(self, other: Vector) -> Real {
        self.dot(other)
    }
}

#[cfg(test)]
mod tests {
    use super::inv;

    #[test]
    fn inv_of_zeros_only_is_zero() {
        assert_eq!([inv(0.0), inv(-0.0)], [0.0, 0.0]);
        assert_eq!([inv(4.0), inv(-0.5)], [0.25, -2.0]);
        // The stock crate answers 0 here.
        assert_eq!(inv(1e-30), 1.0 / 1e-30);
        assert_eq!(inv(f32::from_bits(1)), f32::INFINITY);
    }
}
