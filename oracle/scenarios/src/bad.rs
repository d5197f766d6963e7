//! Bad numbers and settings: not finite, above the bounds, out of range, wrong counts.

use vehicle::program;
use vehicle::stream::{Code, Token};
use vehicle::table::{Table, ACCEPTED};

use crate::parts::{Size, MOST};
use crate::random::Random;
use crate::script::{float_places, recoded, stream_of, Script};

/// Numbers that some call refuses.
const BAD: [f32; 16] = [
    f32::NAN,
    f32::from_bits(0xFFC0_0000),
    f32::from_bits(0x7F80_0001),
    f32::from_bits(0xFFFF_FFFF),
    f32::INFINITY,
    f32::NEG_INFINITY,
    f32::MAX,
    f32::MIN,
    f32::from_bits(0x4980_0001), // the next above 2^20
    f32::from_bits(0xC980_0001),
    2.0 * MOST,
    MOST,
    -1.0,
    f32::from_bits(0x8000_0001),
    2.0,
    0.0,
];

pub fn scenario(random: &mut Random, seed: u64) -> Vec<u8> {
    let codes = base(random);
    let mut table = Table::new();
    let mut made = Vec::new();
    let spoilt = spoilt_places(random, seed, codes.len());
    for (place, code) in codes.into_iter().enumerate() {
        if spoilt.contains(&place) {
            let bad = spoil(random, &code);
            let answer = program::call(&mut table, &bad).answer;
            made.push(bad);
            // After a refusal the good call follows: the table must be as it was.
            if answer == ACCEPTED {
                continue;
            }
        }
        program::call(&mut table, &code);
        made.push(code);
    }
    stream_of(&made)
}

/// One place in turn, and now and then others.
fn spoilt_places(random: &mut Random, seed: u64, codes: usize) -> Vec<usize> {
    let last = codes.saturating_sub(1).max(1);
    let mut places = vec![(seed % last as u64) as usize];
    while random.once_in(3) {
        places.push(random.below(last));
    }
    places
}

/// A few frames that are accepted.
fn base(random: &mut Random) -> Vec<Code> {
    let size = Size::TAME;
    let mut script = Script::new();
    for wheel in 0..1 + random.below(3) {
        let new = size.wheel(random);
        script.add(new);
        let controls = size.controls(random);
        script.controls(wheel as u32, controls);
    }
    for _ in 0..2 {
        let chassis = size.chassis(random);
        script.aim(chassis);
        let drive = size.drive(random, script.count());
        script.drive(drive);
        script.read_all();
    }
    script.finished()
}

/// One fault, or two at once: then the order of the refusals shows.
fn spoil(random: &mut Random, code: &Code) -> Code {
    let style = random.below(6);
    let once = if style < 2 { spoil_count(random, code) } else { spoil_float(random, code) };
    if style == 1 || style == 2 {
        spoil_float(random, &once)
    } else {
        once
    }
}

/// One float replaced by a bad one.
fn spoil_float(random: &mut Random, code: &Code) -> Code {
    let mut tokens = code.tokens();
    let floats = float_places(&tokens);
    if floats.is_empty() {
        return code.clone();
    }
    tokens[random.pick(&floats)] = Token::Float(random.pick(&BAD));
    recoded(&tokens, code)
}

/// A wheel or body number that names nothing, or a wrong number of answers.
fn spoil_count(random: &mut Random, code: &Code) -> Code {
    let nowhere = random.pick(&[3, 4, 15, 16, 255, 256, 65_535, 0x7FFF_FFFF, u32::MAX]);
    match code {
        Code::Controls(_, controls) => Code::Controls(nowhere, *controls),
        Code::Read(_) => Code::Read(nowhere),
        Code::ReadSettled(_) => Code::ReadSettled(nowhere),
        Code::ReadAll(_) => Code::ReadAll(nowhere),
        Code::Drive(drive) => {
            let mut drive = drive.clone();
            let hit = drive.answers.iter_mut().flatten().next();
            match (random.below(3), hit) {
                (0, Some(hit)) => hit.body = Some(nowhere.saturating_sub(1)),
                (1, _) => drop(drive.answers.pop()),
                _ => drive.answers.push(None),
            }
            Code::Drive(drive)
        }
        other => other.clone(),
    }
}
