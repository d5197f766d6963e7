//! Finds the very place at which a number turns an outcome over: an accepted call into a refused
//! one, a wheel that grips into one that slides.

use vehicle::program;
use vehicle::stream::{Code, Token};
use vehicle::table::Table;

use crate::parts::{MOST, SPECIAL};
use crate::random::Random;
use crate::script::{float_places, recoded};

/// The code at `place` with one float halved in on the place where the outcome changes.
pub fn turn_over(random: &mut Random, codes: &[Code], place: usize) -> Option<Code> {
    let tokens = codes[place].tokens();
    let floats = float_places(&tokens);
    if floats.is_empty() {
        return None;
    }
    let token = random.pick(&floats);
    let with = |value: f32| {
        let mut changed = tokens.clone();
        changed[token] = Token::Float(value);
        recoded(&changed, &codes[place])
    };
    let outcome_with = |value: f32| {
        let mut trial = codes.to_vec();
        trial[place] = with(value);
        outcome(&trial)
    };
    let now = f32::from_bits(tokens[token].value());
    let special = random.pick(&SPECIAL);
    let other = random.pick(&[now * 64.0, now / 64.0, MOST.copysign(now), special]);
    let mut one = ordered(now);
    let mut two = ordered(other.clamp(-MOST, MOST));
    let outcome_at_one = outcome_with(now);
    if outcome_with(unordered(two)) == outcome_at_one {
        return None;
    }
    while one.abs_diff(two) > 1 {
        let middle = one + (two - one) / 2;
        if outcome_with(unordered(middle)) == outcome_at_one {
            one = middle;
        } else {
            two = middle;
        }
    }
    Some(with(unordered(random.pick(&[one, two]))))
}

/// Each answer, and for each wheel whether it slid.
fn outcome(codes: &[Code]) -> Vec<(u32, Vec<bool>)> {
    let mut table = Table::new();
    let line = |code: &Code| {
        let line = program::call(&mut table, code);
        (line.answer, line.grips.iter().map(|grip| grip.slides()).collect())
    };
    codes.iter().map(line).collect()
}

/// Floats as whole numbers in the same order; both zeros have their own.
fn ordered(number: f32) -> i64 {
    let magnitude = i64::from(number.abs().to_bits());
    if number.is_sign_negative() {
        -magnitude - 1
    } else {
        magnitude
    }
}

fn unordered(place: i64) -> f32 {
    if place < 0 {
        -f32::from_bits((-place - 1) as u32)
    } else {
        f32::from_bits(place as u32)
    }
}
