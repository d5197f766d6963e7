//! Where the settled centre of a read stood: beside the old centre, or elsewhere.

use std::fmt;
use std::ops::Range;

use vehicle::program::Line;
use vehicle::table::ACCEPTED;

/// The codes of a read with the settled centre, and where that one stands in its results.
const READ_SETTLED: [u32; 2] = [8, 9];
const SETTLED: Range<usize> = 15..18;

/// Accepted reads by codes 8 and 9.
#[derive(Clone, Debug, Default)]
pub struct Centres {
    /// Both centres are one place, both zeros counted equal.
    same: u64,
    differ: u64,
    /// The settled one is beyond 2^40, the bound of a stored number.
    far: u64,
}

impl Centres {
    pub fn add(&mut self, line: &Line) {
        if !READ_SETTLED.contains(&line.code) || line.answer != ACCEPTED {
            return;
        }
        let parts: Vec<f32> = line.results.iter().map(|word| f32::from_bits(*word)).collect();
        let (old, settled) = (&parts[..3], &parts[SETTLED]);
        if old == settled {
            self.same += 1;
        } else {
            self.differ += 1;
        }
        self.far += u64::from(settled.iter().any(|part| part.abs() > (1u64 << 40) as f32));
    }

    /// Both together.
    pub fn and(self, other: Centres) -> Centres {
        Centres {
            same: self.same + other.same,
            differ: self.differ + other.differ,
            far: self.far + other.far,
        }
    }
}

impl fmt::Display for Centres {
    fn fmt(&self, out: &mut fmt::Formatter) -> fmt::Result {
        writeln!(
            out,
            "settled centres  {} differ from the old one, {} are the same place; {} beyond 2^40",
            self.differ, self.same, self.far
        )
    }
}

#[cfg(test)]
mod tests {
    use super::*;
    use scenarios::{generate, Kind};
    use vehicle::program;

    fn seen(kind: Kind, seeds: u64) -> Centres {
        let mut centres = Centres::default();
        for seed in 0..seeds {
            program::run(&generate(kind, seed)).iter().for_each(|line| centres.add(line));
        }
        centres
    }

    #[test]
    fn every_case_is_met() {
        for kind in [Kind::Car, Kind::Wild, Kind::Bad] {
            let centres = seen(kind, 100);
            assert!(centres.differ > 0 && centres.same > 0, "{}: {centres}", kind.name());
        }
        let edge = seen(Kind::Edge, 1800);
        assert!(edge.differ > 0 && edge.same > 0 && edge.far > 0, "{edge}");
    }
}
