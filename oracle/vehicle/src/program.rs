//! The scenario program: a stream in, a line for each code out.

use std::fmt::Write;

use crate::handed::{Controls, Hit};
use crate::math::Real;
use crate::stream::{add_code, controls_code, Code, Malformed, Reader};
use crate::table::{Grip, Steer, Table, WheelRead, ACCEPTED, MALFORMED};

/// The first line of every output.
pub const TITLE: &str = "vehicle 1";

/// What one code gave.
#[derive(Clone, Debug, PartialEq)]
pub struct Line {
    pub code: u32,
    pub answer: u32,
    /// The results of an accepted call, as bit patterns.
    pub results: Vec<u32>,
    /// How an accepted drive went for each wheel; not printed.
    pub grips: Vec<Grip>,
    /// What the rays of a drive met, accepted or not; not printed.
    pub hits: Vec<Hit>,
    /// What an add handed in, accepted or not; not printed.
    pub roll_influence: Option<Real>,
    /// The wheel whose controls were set and what was handed in, accepted or not; not printed.
    pub controls: Option<(u32, Controls)>,
    /// What an aim that tested refusal 17 made of each angle; not printed.
    pub steers: Vec<Steer>,
}

impl Line {
    fn plain(code: u32, answer: u32) -> Line {
        Line {
            code,
            answer,
            results: Vec::new(),
            grips: Vec::new(),
            hits: Vec::new(),
            roll_influence: None,
            controls: None,
            steers: Vec::new(),
        }
    }

    /// A code's line; the results of a refused call are zeros and are not shown.
    fn with_results(code: u32, answer: u32, results: Vec<u32>) -> Line {
        let results = if answer == ACCEPTED { results } else { Vec::new() };
        Line { results, ..Line::plain(code, answer) }
    }

    pub fn text(&self) -> String {
        let mut text = format!("{} {}", self.code, self.answer);
        for word in &self.results {
            // Writing to a string cannot fail.
            let _ = write!(text, " {word:08x}");
        }
        text
    }
}

/// Makes the call of one code.
pub fn call(table: &mut Table, code: &Code) -> Line {
    match code {
        Code::End => Line::plain(0, ACCEPTED),
        Code::Add(wheel) => {
            let answer = table.add_wheel(wheel);
            let roll_influence = wheel.roll_influence;
            Line { roll_influence, ..Line::plain(add_code(wheel), answer) }
        }
        Code::Controls(wheel, controls) => {
            let answer = table.set_controls(*wheel, controls);
            let handed_in = Some((*wheel, *controls));
            Line { controls: handed_in, ..Line::plain(controls_code(controls), answer) }
        }
        Code::Aim(chassis) => {
            let aimed = table.aim(chassis);
            let mut floats = vec![aimed.speed];
            for (hard_point, ray) in &aimed.rays {
                floats.extend(hard_point.parts());
                floats.extend(ray.parts());
            }
            Line { steers: aimed.steers, ..Line::with_results(3, aimed.answer, words(&floats)) }
        }
        Code::Drive(drive) => {
            let driven = table.drive(drive);
            let mut results = words(&driven.linear.parts());
            results.extend(words(&driven.angular.parts()));
            results.push(u32::from(driven.wake));
            let hits = drive.answers.iter().flatten().copied().collect();
            Line { grips: driven.grips, hits, ..Line::with_results(4, driven.answer, results) }
        }
        Code::Read(wheel) => {
            let read = table.read_wheel(*wheel);
            Line::with_results(5, read.answer, words(&fifteen(&read)))
        }
        Code::ReadSettled(wheel) => {
            let read = table.read_wheel(*wheel);
            Line::with_results(8, read.answer, words(&eighteen(&read)))
        }
        Code::ReadAll(wheel) => {
            let read = table.read_wheel(*wheel);
            let mut results = words(&eighteen(&read));
            results.extend([read.no_axis, read.no_forward].map(u32::from));
            Line::with_results(9, read.answer, results)
        }
    }
}

/// Document 01's results of a read.
fn fifteen(read: &WheelRead) -> Vec<f32> {
    let mut floats = Vec::new();
    for vector in [read.center, read.world_direction, read.world_axle] {
        floats.extend(vector.parts());
    }
    floats.extend([
        read.suspension_length,
        read.suspension_force,
        read.forward_impulse,
        read.side_impulse,
        read.skid,
        read.rotation,
    ]);
    floats
}

/// Those and the settled centre.
fn eighteen(read: &WheelRead) -> Vec<f32> {
    let mut floats = fifteen(read);
    floats.extend(read.settled.parts());
    floats
}

fn words(floats: &[f32]) -> Vec<u32> {
    floats.iter().map(|float| float.to_bits()).collect()
}

/// Runs a stream of codes on a table, to code 0 or the first malformed place.
pub fn run_on(table: &mut Table, reader: &mut Reader) -> Vec<Line> {
    run_to_end(table, reader).0
}

/// The same, and the stream from the code on that ended it.
fn run_to_end<'a>(table: &mut Table, reader: &mut Reader<'a>) -> (Vec<Line>, &'a [u8]) {
    let mut lines = Vec::new();
    loop {
        let from = reader.left();
        match reader.code() {
            Ok(code) => {
                lines.push(call(table, &code));
                if code == Code::End {
                    return (lines, from);
                }
            }
            Err(Malformed { code }) => {
                lines.push(Line::plain(code, MALFORMED));
                return (lines, from);
            }
        }
    }
}

/// Runs a scenario on a table that is set up with axes 1 and 0.
pub fn run(stream: &[u8]) -> Vec<Line> {
    run_on(&mut Table::new(), &mut Reader::new(stream))
}

/// Runs scenarios that stand one after another, as crate `replay` does: each but the first begins
/// one byte behind the start of the code that ended the one before. Code 0 is one byte.
pub fn run_each(stream: &[u8]) -> String {
    let mut printed = String::new();
    let mut left = stream;
    while !left.is_empty() {
        let (lines, from) = run_to_end(&mut Table::new(), &mut Reader::new(left));
        printed += &text(&lines);
        left = from.get(1..).unwrap_or_default();
    }
    printed
}

/// The title and the lines, each ended by a line feed.
pub fn text(lines: &[Line]) -> String {
    let mut text = format!("{TITLE}\n");
    for line in lines {
        text += &line.text();
        text.push('\n');
    }
    text
}

/// Runs codes on a table that is itself handed in before them, and shows it afterwards in the
/// line `table`: count, mark, up and forward axis and the bit pattern of each float, all in hex.
pub fn run_on_state(stream: &[u8]) -> String {
    let mut reader = Reader::new(stream);
    let mut table = match reader.table() {
        Ok(table) => table,
        Err(Malformed { code }) => return text(&[Line::plain(code, MALFORMED)]),
    };
    let lines = run_on(&mut table, &mut reader);
    let mut text = text(&lines);
    text += "table";
    for token in crate::stream::table_tokens(&table) {
        let _ = write!(text, " {:08x}", token.value());
    }
    text.push('\n');
    text
}
