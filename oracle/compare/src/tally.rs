//! What the compared scenarios covered.

use std::collections::BTreeMap;
use std::fmt;

use vehicle::program::Line;
use vehicle::table::{ACCEPTED, MALFORMED};

use crate::angles::Angles;
use crate::centres::Centres;
use crate::directions::Directions;
use crate::normals::Normals;
use crate::rolls::Rolls;

/// The refusal numbers of document 01 and of the change requests, 0 included.
const ANSWERS: [u32; 13] = [0, 1, 2, 3, 4, 5, 6, 7, 8, 9, 10, 12, 17];

/// The codes that there are, and what each is called.
const CODES: [(u32, &str); 10] = [
    (0, "end"),
    (1, "add"),
    (2, "controls"),
    (3, "aim"),
    (4, "drive"),
    (5, "read"),
    (6, "add rolled"),
    (8, "read settled"),
    (9, "read all"),
    (10, "by angle"),
];

/// Counts over all scenarios.
#[derive(Clone, Debug, Default)]
pub struct Tally {
    scenarios: BTreeMap<&'static str, u64>,
    /// How often each code got each answer.
    codes: BTreeMap<(u32, u32), u64>,
    airborne: u64,
    gripping: u64,
    sliding: u64,
    /// Wheels that passed the slide test with a skid that is not below 1.
    sliding_unscaled: u64,
    /// Drives in which some wheels slid and others gripped.
    mixed_drives: u64,
    centres: Centres,
    normals: Normals,
    rolls: Rolls,
    directions: Directions,
    angles: Angles,
}

impl Tally {
    pub fn add(&mut self, group: &'static str, lines: &[Line]) {
        *self.scenarios.entry(group).or_default() += 1;
        for line in lines {
            *self.codes.entry((line.code, line.answer)).or_default() += 1;
            self.add_wheels(line);
            self.centres.add(line);
            self.normals.add(line);
            self.rolls.add(line);
            self.directions.add(line);
        }
        self.angles.add(lines);
    }

    fn add_wheels(&mut self, line: &Line) {
        let grounded = line.grips.iter().filter(|grip| grip.grounded).count() as u64;
        let sliding = line.grips.iter().filter(|grip| grip.slides()).count() as u64;
        let is_unscaled = |skid: f32| skid.is_nan() || skid >= 1.0;
        let unscaled = line.grips.iter().filter(|grip| grip.slides() && is_unscaled(grip.skid));
        self.airborne += line.grips.len() as u64 - grounded;
        self.gripping += grounded - sliding;
        self.sliding += sliding;
        self.sliding_unscaled += unscaled.count() as u64;
        self.mixed_drives += u64::from(sliding > 0 && sliding < grounded);
    }

    /// Both tallies together.
    pub fn and(mut self, other: Tally) -> Tally {
        for (kind, count) in other.scenarios {
            *self.scenarios.entry(kind).or_default() += count;
        }
        for (code, count) in other.codes {
            *self.codes.entry(code).or_default() += count;
        }
        self.airborne += other.airborne;
        self.gripping += other.gripping;
        self.sliding += other.sliding;
        self.sliding_unscaled += other.sliding_unscaled;
        self.mixed_drives += other.mixed_drives;
        self.centres = self.centres.and(other.centres);
        self.normals = self.normals.and(other.normals);
        self.rolls = self.rolls.and(other.rolls);
        self.directions = self.directions.and(other.directions);
        self.angles = self.angles.and(other.angles);
        self
    }

    pub fn scenarios(&self) -> u64 {
        self.scenarios.values().sum()
    }

    /// How many scenarios of this group were compared.
    pub fn of(&self, group: &str) -> u64 {
        self.scenarios.get(group).copied().unwrap_or(0)
    }

    fn count(&self, matches: impl Fn(u32, u32) -> bool) -> u64 {
        let counts = self.codes.iter();
        counts.filter(|((code, answer), _)| matches(*code, *answer)).map(|(_, count)| count).sum()
    }
}

impl fmt::Display for Tally {
    fn fmt(&self, out: &mut fmt::Formatter) -> fmt::Result {
        let kinds: Vec<String> =
            self.scenarios.iter().map(|(kind, count)| format!("{kind} {count}")).collect();
        writeln!(out, "scenarios        {} ({})", self.scenarios(), kinds.join(", "))?;
        let is_known = |code| CODES.iter().any(|(known, _)| *known == code);
        let well_formed = |code, answer| is_known(code) && answer != MALFORMED;
        writeln!(out, "codes            {}", self.count(well_formed))?;
        for (code, name) in CODES {
            let answers: Vec<String> = ANSWERS
                .into_iter()
                .map(|answer| (answer, self.count(|c, a| c == code && a == answer)))
                .filter(|(_, count)| *count > 0)
                .map(|(answer, count)| format!("{answer}: {count}"))
                .collect();
            let called = format!("{code} {name}");
            writeln!(out, "  {called:<14} {}", answers.join(", "))?;
        }
        let unknown = self.count(|code, _| !is_known(code));
        writeln!(out, "  unknown codes  {unknown}")?;
        writeln!(out, "accepted drives  {}", self.count(|c, a| c == 4 && a == ACCEPTED))?;
        writeln!(out, "  gripping and sliding wheels in one drive: {}", self.mixed_drives)?;
        writeln!(
            out,
            "wheels           {} sliding, {} gripping, {} airborne",
            self.sliding, self.gripping, self.airborne
        )?;
        writeln!(out, "  sliding with a skid not below 1: {}", self.sliding_unscaled)?;
        write!(out, "{}{}{}", self.centres, self.normals, self.rolls)?;
        write!(out, "{}{}", self.directions, self.angles)?;
        let seen = ANSWERS.map(|answer| format!("{answer}: {}", self.count(|_, a| a == answer)));
        writeln!(out, "answers          {}", seen.join(", "))
    }
}
