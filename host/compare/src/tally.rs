//! What the compared calls covered.

use std::collections::BTreeMap;
use std::fmt;

use oracle::program::Line;
use oracle::stream::Code;
use oracle::table::{ACCEPTED, BAD_TURN};

#[derive(Default)]
pub struct Tally {
    pub runs: u64,
    /// How often each call was answered by each number.
    answers: BTreeMap<(&'static str, u32), u64>,
    airborne: u64,
    gripping: u64,
    sliding: u64,
    /// Accepted reads by code 9: neither direction fell back, the forward one alone, both, the axis alone.
    fell_back: [u64; 4],
    /// Wheels steered by angle in accepted aims; in aims refused with 17 those without an axis, and those with a rotation outside the band.
    turned: u64,
    without_axis: u64,
    out_of_band: u64,
}

impl Tally {
    pub fn add(&mut self, code: &Code, line: &Line) {
        *self.answers.entry((crate::name(code), line.answer)).or_default() += 1;
        for grip in &line.grips {
            let kind = match (grip.grounded, grip.slides()) {
                (false, _) => &mut self.airborne,
                (true, false) => &mut self.gripping,
                (true, true) => &mut self.sliding,
            };
            *kind += 1;
        }
        for steer in &line.steers {
            match line.answer {
                ACCEPTED => self.turned += 1,
                BAD_TURN if steer.fell_back() => self.without_axis += 1,
                BAD_TURN if !steer.in_band() => self.out_of_band += 1,
                _ => (),
            }
        }
        if let (Code::ReadAll(_), [.., no_axis, no_forward]) = (code, &line.results[..]) {
            let place = match (no_axis, no_forward) {
                (0, 0) => 0,
                (0, _) => 1,
                (_, 0) => 3,
                _ => 2,
            };
            self.fell_back[place] += 1;
        }
    }

    pub fn calls(&self) -> u64 {
        self.answers.values().sum()
    }

    pub fn refused(&self) -> u64 {
        self.answers
            .iter()
            .filter(|((_, number), _)| *number != ACCEPTED)
            .map(|(_, times)| times)
            .sum()
    }
}

impl fmt::Display for Tally {
    fn fmt(&self, f: &mut fmt::Formatter<'_>) -> fmt::Result {
        for ((call, number), times) in &self.answers {
            writeln!(f, "{call:>17} {number:>2}: {times}")?;
        }
        let Tally { airborne, gripping, sliding, .. } = self;
        writeln!(f, "wheels of accepted drives: {sliding} sliding, {gripping} gripping, {airborne} airborne")?;
        let Tally { turned, without_axis, out_of_band, .. } = self;
        writeln!(f, "wheels steered by angle: {turned} in accepted aims; in those refused with 17 {without_axis} without an axis, {out_of_band} with a rotation outside the band")?;
        let [neither, forward, both, axis] = self.fell_back;
        writeln!(f, "reads of all: {neither} with both directions, {forward} without the forward one alone, {both} without either; {axis} without the axis alone, from stored rubbish")
    }
}
