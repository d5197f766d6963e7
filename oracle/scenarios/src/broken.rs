//! Streams that are cut or have a malformed place.

use vehicle::handed::{Drive, Hit};
use vehicle::math::Vector;
use vehicle::stream::{bytes_of, groups, Code, Token};

use crate::parts::{near_upright, Size};
use crate::random::Random;
use crate::script::Script;

/// So many seeds break the same short stream, so that they cut it at every place in turn.
const RUN: u64 = 8192;

pub fn scenario(random: &mut Random, seed: u64) -> Vec<u8> {
    with_a_fault(random, seed, base_of)
}

/// The codes that `base` gives for this run of seeds, with the fault of this seed.
pub fn with_a_fault(random: &mut Random, seed: u64, base: fn(u64) -> Vec<Code>) -> Vec<u8> {
    let codes = base(seed / RUN);
    let turn = (seed % RUN) as usize;
    let tokens: Vec<Token> = codes.iter().flat_map(Code::tokens).collect();
    let bytes = bytes_of(&tokens);
    match turn % 8 {
        0 | 1 => cut(&bytes, turn / 8 * 2 + turn % 8),
        2 => one_byte_changed(random, bytes),
        3 => oddly_written(random, &tokens, padded),
        4 => oddly_written(random, &tokens, too_long),
        5 => one_whole_changed(random, &tokens),
        6 => code_in_place(random, &codes),
        _ => with_bytes_after_the_end(random, bytes),
    }
}

pub fn base_of(run: u64) -> Vec<Code> {
    base(&mut Random::new(99, run))
}

/// Two wheels, an aim, a drive with two bodies and two kinds of answers, reads.
fn base(random: &mut Random) -> Vec<Code> {
    let size = Size::TAME;
    let mut script = Script::new();
    for wheel in 0..2 {
        let new = size.wheel(random);
        script.add(new);
        let controls = size.controls(random);
        script.controls(wheel, controls);
    }
    let chassis = size.chassis(random);
    script.aim(chassis);
    let bodies = vec![size.body(random), size.body(random)];
    let hit = Hit { time: 0.5, normal: near_upright(random), upward_normal: None, body: Some(1) };
    let upward = Hit { upward_normal: Some(Vector::new(0.0, -1.0, 0.0)), body: None, ..hit };
    script.drive(Drive { dt: 0.25, bodies, answers: vec![Some(hit), Some(upward)] });
    script.read_all();
    script.finished()
}

/// The stream up to a place.
fn cut(bytes: &[u8], place: usize) -> Vec<u8> {
    bytes[..place % bytes.len()].to_vec()
}

fn one_byte_changed(random: &mut Random, mut bytes: Vec<u8>) -> Vec<u8> {
    let place = random.below(bytes.len());
    bytes[place] = match random.below(3) {
        0 => bytes[place] ^ 1 << random.below(8),
        1 => random.pick(&[0x00, 0x7F, 0x80, 0xFF, 0x01, 0x10]),
        _ => random.bits() as u8,
    };
    bytes
}

/// One number written in another way than its shortest.
fn oddly_written(
    random: &mut Random,
    tokens: &[Token],
    write: fn(&mut Random, u32) -> Vec<u8>,
) -> Vec<u8> {
    let place = random.below(tokens.len());
    let mut bytes = bytes_of(&tokens[..place]);
    bytes.extend(write(random, tokens[place].value()));
    bytes.extend(bytes_of(&tokens[place + 1..]));
    bytes
}

/// The same value with empty groups at the end.
fn padded(random: &mut Random, value: u32) -> Vec<u8> {
    let mut bytes = groups(value);
    for _ in 0..1 + random.below(5) {
        if let Some(last) = bytes.last_mut() {
            *last |= 0x80;
        }
        bytes.push(0);
    }
    bytes
}

/// More than 32 bits: a fifth group above 15, or a sixth group.
fn too_long(random: &mut Random, value: u32) -> Vec<u8> {
    let mut bytes: Vec<u8> = (0..4).map(|group| (value >> (7 * group)) as u8 | 0x80).collect();
    match random.below(3) {
        0 => bytes.push(0x10 << random.below(3)),
        1 => bytes.push(0x10 + random.below(0x70) as u8),
        _ => bytes.extend([0x8F, 0x01]),
    }
    bytes
}

/// A code, wheel, count, kind or body replaced: unknown ones, counts of 65 and 17, others that
/// make the rest read differently.
fn one_whole_changed(random: &mut Random, tokens: &[Token]) -> Vec<u8> {
    let wholes: Vec<usize> =
        (0..tokens.len()).filter(|place| matches!(tokens[*place], Token::Whole(_))).collect();
    let mut tokens = tokens.to_vec();
    let value =
        random.pick(&[0, 1, 2, 3, 4, 5, 6, 7, 8, 9, 16, 17, 64, 65, 127, 128, 300, u32::MAX]);
    tokens[random.pick(&wholes)] = Token::Whole(value);
    bytes_of(&tokens)
}

/// In place of one code an unknown one, a count over its limit, or a 9 or a 10: those read, and take what
/// is behind them for their fields.
fn code_in_place(random: &mut Random, codes: &[Code]) -> Vec<u8> {
    let place = random.below(codes.len());
    let before: Vec<Token> = codes[..place].iter().flat_map(Code::tokens).collect();
    let after: Vec<Token> = codes[place..].iter().flat_map(Code::tokens).collect();
    let odd = match random.below(6) {
        0 => vec![Token::Whole(random.pick(&[12, 7, 9, 10, 11, 128, 16_384, u32::MAX]))],
        1 => drive_of(random, 65, 2),
        2 => drive_of(random, 64, 2),
        3 => drive_of(random, 0, 17),
        // 16 answers are well formed; the call refuses them with two wheels.
        4 => drive_of(random, 0, 16),
        _ => {
            [Token::Whole(4), Token::Float(0.5), Token::Whole(0), Token::Whole(1), Token::Whole(3)]
                .to_vec()
        }
    };
    bytes_of(&[before, odd, after].concat())
}

/// A drive with so many bodies and answers, all of them written out.
fn drive_of(random: &mut Random, bodies: usize, answers: usize) -> Vec<Token> {
    let body = Size::TAME.body(random);
    Code::Drive(Drive { dt: 0.5, bodies: vec![body; bodies], answers: vec![None; answers] })
        .tokens()
}

/// Bytes after code 0 are not read.
fn with_bytes_after_the_end(random: &mut Random, mut bytes: Vec<u8>) -> Vec<u8> {
    bytes.extend((0..1 + random.below(20)).map(|_| random.bits() as u8));
    bytes
}
