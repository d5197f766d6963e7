//! Which hits refusal 12 was asked about: the ends of the band, and the zero normals.

use std::fmt;

use vehicle::handed::Hit;
use vehicle::math::Vector;
use vehicle::program::Line;
use vehicle::ranges::{is_exempt, BAND};
use vehicle::table::{ACCEPTED, BAD_DEMAND, BAD_NORMAL, BAD_RESULT, OUT_OF_RANGE};

use crate::cases::Cases;

/// The answers of a drive whose normals were tested.
const TESTED: [u32; 5] = [ACCEPTED, BAD_NORMAL, OUT_OF_RANGE, BAD_DEMAND, BAD_RESULT];

const OWN: &str = "own normals";
const UPWARD: &str = "upward normals";
const EXEMPT: &str = "zero, exempt";
const REFUSED: &str = "zero, refused";

/// Where a sum of squares stands, from small to large.
const SHORTER: &str = "shorter";
const BELOW: &str = "a step below the lower end";
const LOWER: &str = "lower end";
const INSIDE: &str = "inside";
const UPPER: &str = "upper end";
const ABOVE: &str = "a step above the upper end";
const LONGER: &str = "longer";
const TWO: &str = "two long";

pub const PLACES: [&str; 7] = [SHORTER, BELOW, LOWER, INSIDE, UPPER, ABOVE, LONGER];

/// Of normals also how many are two long.
const OF_NORMALS: [&str; 8] = [SHORTER, BELOW, LOWER, INSIDE, UPPER, ABOVE, LONGER, TWO];

/// Every case, in the order in which they are printed.
const CASES: [(&str, &[&str]); 4] = [
    (OWN, &OF_NORMALS),
    (UPWARD, &OF_NORMALS),
    (EXEMPT, &["at time 0", "at time -0", "a part is -0", "beside an upward normal"]),
    (REFUSED, &["at another time", "the upward one at time 0", "the upward one at another time"]),
];

/// How often each case was met.
#[derive(Clone, Debug, Default)]
pub struct Normals {
    hits: u64,
    cases: Cases,
}

impl Normals {
    /// The hits of a drive that got as far as refusal 12.
    pub fn add(&mut self, line: &Line) {
        if !TESTED.contains(&line.answer) {
            return;
        }
        for hit in &line.hits {
            self.hits += 1;
            for (group, case) in cases_of(hit) {
                self.cases.count(group, case);
            }
        }
    }

    /// Both together.
    pub fn and(self, other: Normals) -> Normals {
        Normals { hits: self.hits + other.hits, cases: self.cases.and(other.cases) }
    }
}

fn cases_of(hit: &Hit) -> Vec<(&'static str, &'static str)> {
    let mut cases: Vec<_> = normal_at(hit.normal).map(|place| (OWN, place)).into_iter().collect();
    cases.extend(hit.upward_normal.and_then(normal_at).map(|place| (UPWARD, place)));
    if is_exempt(hit) {
        cases.push((EXEMPT, if hit.time.is_sign_negative() { "at time -0" } else { "at time 0" }));
        if hit.normal.parts().into_iter().any(f32::is_sign_negative) {
            cases.push((EXEMPT, "a part is -0"));
        }
        if hit.upward_normal.is_some() {
            cases.push((EXEMPT, "beside an upward normal"));
        }
    } else if hit.normal == Vector::ZERO {
        cases.push((REFUSED, "at another time"));
    }
    if hit.upward_normal == Some(Vector::ZERO) {
        let at_zero = "the upward one at time 0";
        let later = "the upward one at another time";
        cases.push((REFUSED, if hit.time == 0.0 { at_zero } else { later }));
    }
    cases
}

/// Zero normals are counted by themselves.
fn normal_at(normal: Vector) -> Option<&'static str> {
    let sum = normal.dot(normal);
    let place = if (sum - 4.0).abs() < 0.001 { TWO } else { place_of(sum) };
    (normal != Vector::ZERO).then_some(place)
}

/// Where a sum of squares stands, which the band around 1 is asked about.
pub fn place_of(sum: f32) -> &'static str {
    let (lower, upper) = (1.0 - BAND, 1.0 + BAND);
    let below = f32::from_bits(lower.to_bits() - 1);
    let above = f32::from_bits(upper.to_bits() + 1);
    match sum {
        sum if sum < below => SHORTER,
        sum if sum == below => BELOW,
        sum if sum == lower => LOWER,
        sum if sum < upper => INSIDE,
        sum if sum == upper => UPPER,
        sum if sum == above => ABOVE,
        _ => LONGER,
    }
}

impl fmt::Display for Normals {
    fn fmt(&self, out: &mut fmt::Formatter) -> fmt::Result {
        write!(out, "hits that 12 saw {}\n{}", self.hits, self.cases.lines(&CASES, 14))
    }
}

#[cfg(test)]
mod tests {
    use super::*;
    use scenarios::{generate, Kind};
    use vehicle::program;

    /// A few hundred seeds meet every case.
    #[test]
    fn every_case_is_met() {
        let mut normals = Normals::default();
        for seed in 0..1800 {
            program::run(&generate(Kind::Edge, seed)).iter().for_each(|line| normals.add(line));
        }
        for (group, names) in CASES {
            for name in names {
                assert!(normals.cases.of(group, name) > 0, "{group}, {name}: {normals}");
            }
        }
    }
}
