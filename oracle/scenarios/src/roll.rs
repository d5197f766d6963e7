//! Roll influences of their own: scenarios of the other kinds whose wheels are added by code 6.
//!
//! Every frame hands its chassis in, so that a frame after a drive with another roll influence is
//! the one that the other kind made.

use vehicle::handed::NewWheel;
use vehicle::stream::{Code, Reader};

use crate::broken::{base_of, with_a_fault};
use crate::parts::MOST;
use crate::random::Random;
use crate::script::stream_of;
use crate::{generate, Kind};

/// The kinds whose scenarios are changed, one after the other by seed; `Broken` stands for a stream
/// with a fault.
const BASES: [Kind; 5] = [Kind::Car, Kind::Edge, Kind::Wild, Kind::Bad, Kind::Broken];

/// From 0 to 1.
const GOOD: [f32; 9] = [
    0.0,
    -0.0,
    f32::from_bits(1),
    0.1,
    f32::from_bits(0x3DCC_CCCC), // the next below 0.1
    f32::from_bits(0x3DCC_CCCE),
    0.5,
    f32::from_bits(0x3F7F_FFFF), // the next below 1
    1.0,
];

/// Refused with 10, and from the fourth last on with 2.
const BAD: [f32; 12] = [
    -f32::from_bits(1),
    f32::from_bits(0x3F80_0001), // the next above 1
    f32::from_bits(0x3F80_0001),
    -0.1,
    -1.0,
    2.0,
    MOST,
    -MOST,
    f32::from_bits(0x4980_0001), // the next above 2^20
    f32::NAN,
    f32::INFINITY,
    f32::NEG_INFINITY,
];

pub fn scenario(random: &mut Random, seed: u64) -> Vec<u8> {
    let turn = seed / BASES.len() as u64;
    match BASES[(seed % BASES.len() as u64) as usize] {
        Kind::Broken => with_a_fault(random, turn, rolled_base),
        kind => stream_of(&with_rolls(random, codes_of(&generate(kind, turn)))),
    }
}

/// The broken kind's codes; the last wheel has a roll influence.
pub fn rolled_base(run: u64) -> Vec<Code> {
    let mut codes = base_of(run);
    let last = codes.iter_mut().rev().find_map(|code| match code {
        Code::Add(wheel) => Some(wheel),
        _ => None,
    });
    if let Some(wheel) = last {
        wheel.roll_influence = Some(good_roll(&mut Random::new(98, run)));
    }
    codes
}

/// The codes of a stream, as far as it can be read.
pub fn codes_of(stream: &[u8]) -> Vec<Code> {
    let mut reader = Reader::new(stream);
    std::iter::from_fn(|| reader.code().ok()).collect()
}

/// Most adds with a roll influence; before some of them one with a bad one, which is refused.
fn with_rolls(random: &mut Random, codes: Vec<Code>) -> Vec<Code> {
    let mut made = Vec::new();
    for code in codes {
        let Code::Add(wheel) = code else {
            made.push(code);
            continue;
        };
        if random.once_in(6) {
            made.push(Code::Add(NewWheel { roll_influence: Some(bad_roll(random)), ..wheel }));
        }
        made.push(Code::Add(rolled(random, wheel)));
    }
    made
}

/// The wheel with a roll influence, one in five with none.
pub fn rolled(random: &mut Random, wheel: NewWheel) -> NewWheel {
    let roll_influence = (!random.once_in(5)).then(|| good_roll(random));
    NewWheel { roll_influence, ..wheel }
}

/// From 0 to 1, often an end, a tenth or their neighbours.
pub fn good_roll(random: &mut Random) -> f32 {
    if random.once_in(2) {
        random.pick(&GOOD)
    } else {
        random.unit()
    }
}

/// One that is never stored by a call.
pub fn bad_roll(random: &mut Random) -> f32 {
    random.pick(&BAD)
}
