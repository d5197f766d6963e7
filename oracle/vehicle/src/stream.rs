//! The scenario stream: numbers in groups of seven bits, and the codes made of them.

use crate::handed::{Chassis, Controls, Drive, GroundBody, Hit, NewWheel, RayAnswer};
use crate::math::{Real, Rotation, Steering, Vector};
use crate::row::{CHASSIS, WHEELS};
use crate::table::BODIES;

/// Groups of seven bits that 32 bits can take.
const MOST_GROUPS: usize = 5;
/// What the fifth group may hold: 32 − 4 · 7 bits.
const LAST_GROUP: u8 = 0x0F;

/// One code of a scenario, read whole.
#[derive(Clone, Debug, PartialEq)]
pub enum Code {
    End,
    Add(NewWheel),
    Controls(u32, Controls),
    Aim(Chassis),
    Drive(Drive),
    Read(u32),
    /// A read with the settled centre: change request 2026-02.
    ReadSettled(u32),
    /// A read of all that there is, what fell back too: change request 2026-05.
    ReadAll(u32),
}

/// A malformed place, with the code that it stands in; 0 if the code itself could not be read.
#[derive(Copy, Clone, Debug, PartialEq)]
pub struct Malformed {
    pub code: u32,
}

/// What stands at a malformed place does not matter: every kind gives the same line.
struct Broken;

/// Reads a stream from its first byte on.
pub struct Reader<'a> {
    left: &'a [u8],
}

impl<'a> Reader<'a> {
    pub fn new(bytes: &'a [u8]) -> Self {
        Reader { left: bytes }
    }

    /// What has not been read yet.
    pub fn left(&self) -> &'a [u8] {
        self.left
    }

    /// The next code, whole.
    pub fn code(&mut self) -> Result<Code, Malformed> {
        let code = self.number().map_err(|Broken| Malformed { code: 0 })?;
        self.fields(code).map_err(|Broken| Malformed { code })
    }

    fn fields(&mut self, code: u32) -> Result<Code, Broken> {
        Ok(match code {
            0 => Code::End,
            1 => Code::Add(self.wheel()?),
            2 => self.controls(Self::rotation)?,
            3 => Code::Aim(Chassis::from_numbers(self.floats::<CHASSIS>()?)),
            4 => Code::Drive(self.drive()?),
            5 => Code::Read(self.number()?),
            6 => {
                let wheel = self.wheel()?;
                Code::Add(NewWheel { roll_influence: Some(self.float()?), ..wheel })
            }
            8 => Code::ReadSettled(self.number()?),
            9 => Code::ReadAll(self.number()?),
            10 => self.controls(Self::angle)?,
            _ => return Err(Broken),
        })
    }

    fn wheel(&mut self) -> Result<NewWheel, Broken> {
        self.floats::<{ NewWheel::NUMBERS }>().map(NewWheel::from_numbers)
    }

    /// Controls, whose steering `steering` reads.
    fn controls(
        &mut self,
        steering: fn(&mut Self) -> Result<Steering, Broken>,
    ) -> Result<Code, Broken> {
        let wheel = self.number()?;
        let [engine, brake] = self.floats::<2>()?;
        let steering = steering(self)?;
        Ok(Code::Controls(wheel, Controls { engine, brake, steering }))
    }

    fn rotation(&mut self) -> Result<Steering, Broken> {
        let [x, y, z, w] = self.floats::<4>()?;
        Ok(Steering::Rotation(Rotation::new(x, y, z, w)))
    }

    fn angle(&mut self) -> Result<Steering, Broken> {
        self.float().map(Steering::Angle)
    }

    fn drive(&mut self) -> Result<Drive, Broken> {
        let dt = self.float()?;
        let bodies = self.list(BODIES, Self::body)?;
        let answers = self.list(WHEELS, Self::answer)?;
        Ok(Drive { dt, bodies, answers })
    }

    /// A count, at most `most`, and that many of what `one` reads.
    fn list<T>(
        &mut self,
        most: usize,
        one: fn(&mut Self) -> Result<T, Broken>,
    ) -> Result<Vec<T>, Broken> {
        let count = self.number()?;
        if count as usize > most {
            return Err(Broken);
        }
        (0..count).map(|_| one(self)).collect()
    }

    fn body(&mut self) -> Result<GroundBody, Broken> {
        let numbers = self.floats::<{ GroundBody::NUMBERS }>()?;
        match self.number()? {
            0 => Ok(GroundBody::from_numbers(numbers, false)),
            1 => Ok(GroundBody::from_numbers(numbers, true)),
            _ => Err(Broken),
        }
    }

    fn answer(&mut self) -> Result<RayAnswer, Broken> {
        let kind = self.number()?;
        if kind == 0 {
            return Ok(None);
        }
        if kind > 2 {
            return Err(Broken);
        }
        let time = self.float()?;
        let normal = self.vector()?;
        let upward_normal = if kind == 2 { Some(self.vector()?) } else { None };
        // 0 names no body, n names body n − 1.
        let body = self.number()?.checked_sub(1);
        Ok(Some(Hit { time, normal, upward_normal, body }))
    }

    fn vector(&mut self) -> Result<Vector, Broken> {
        let [x, y, z] = self.floats::<3>()?;
        Ok(Vector::new(x, y, z))
    }

    fn floats<const N: usize>(&mut self) -> Result<[Real; N], Broken> {
        let mut floats = [0.0; N];
        for float in &mut floats {
            *float = self.float()?;
        }
        Ok(floats)
    }

    fn float(&mut self) -> Result<Real, Broken> {
        self.number().map(Real::from_bits)
    }

    /// At most 32 bits, shortest form only.
    fn number(&mut self) -> Result<u32, Broken> {
        let mut value = 0;
        for group in 0..MOST_GROUPS {
            let byte = self.byte()?;
            let bits = byte & 0x7F;
            let is_last = byte < 0x80;
            if group == MOST_GROUPS - 1 && byte > LAST_GROUP {
                return Err(Broken);
            }
            value |= u32::from(bits) << (7 * group);
            if is_last {
                let is_shortest = bits != 0 || group == 0;
                return if is_shortest { Ok(value) } else { Err(Broken) };
            }
        }
        Err(Broken)
    }

    fn byte(&mut self) -> Result<u8, Broken> {
        let (first, rest) = self.left.split_first().ok_or(Broken)?;
        self.left = rest;
        Ok(*first)
    }

    /// A table's contents before the codes: the four whole numbers, then every float. This is no
    /// part of document 01's stream; it loads stored states of any kind.
    pub fn table(&mut self) -> Result<crate::table::Table, Malformed> {
        let mut read = || -> Result<crate::table::Table, Broken> {
            let [count, mark, up, forward] =
                [self.number()?, self.number()?, self.number()?, self.number()?];
            let numbers = self.floats::<{ crate::row::TABLE }>()?.to_vec();
            Ok(crate::table::Table { numbers, count, mark, up, forward })
        };
        read().map_err(|Broken| Malformed { code: 0 })
    }
}

/// A number of the stream, before it is cut into groups.
#[derive(Copy, Clone, Debug, PartialEq)]
pub enum Token {
    /// A code, a wheel, a count, a kind or a body.
    Whole(u32),
    Float(Real),
}

impl Token {
    pub fn value(self) -> u32 {
        match self {
            Token::Whole(value) => value,
            Token::Float(float) => float.to_bits(),
        }
    }
}

/// The shortest groups of a number.
pub fn groups(value: u32) -> Vec<u8> {
    let mut bytes = Vec::new();
    let mut left = value;
    while left >= 0x80 {
        bytes.push((left & 0x7F) as u8 | 0x80);
        left >>= 7;
    }
    bytes.push(left as u8);
    bytes
}

/// The bytes of these numbers, each in its shortest form.
pub fn bytes_of(tokens: &[Token]) -> Vec<u8> {
    tokens.iter().flat_map(|token| groups(token.value())).collect()
}

/// The code of an add: change request 2026-07 has one for a roll influence.
pub fn add_code(wheel: &NewWheel) -> u32 {
    if wheel.roll_influence.is_some() {
        6
    } else {
        1
    }
}

/// The code of controls: change request 2026-11 has one for an angle.
pub fn controls_code(controls: &Controls) -> u32 {
    match controls.steering {
        Steering::Rotation(_) => 2,
        Steering::Angle(_) => 10,
    }
}

impl Code {
    /// The numbers of this code in the order of the stream.
    pub fn tokens(&self) -> Vec<Token> {
        let mut tokens = Vec::new();
        match self {
            Code::End => tokens.push(Token::Whole(0)),
            Code::Add(wheel) => {
                tokens.push(Token::Whole(add_code(wheel)));
                put_floats(&mut tokens, &wheel.handed_in());
            }
            Code::Controls(wheel, controls) => {
                tokens.extend([controls_code(controls), *wheel].map(Token::Whole));
                put_floats(&mut tokens, &controls.handed_in());
            }
            Code::Aim(chassis) => {
                tokens.push(Token::Whole(3));
                put_floats(&mut tokens, &chassis.numbers());
            }
            Code::Drive(drive) => {
                tokens.push(Token::Whole(4));
                put_drive(&mut tokens, drive);
            }
            Code::Read(wheel) => tokens.extend([Token::Whole(5), Token::Whole(*wheel)]),
            Code::ReadSettled(wheel) => tokens.extend([Token::Whole(8), Token::Whole(*wheel)]),
            Code::ReadAll(wheel) => tokens.extend([Token::Whole(9), Token::Whole(*wheel)]),
        }
        tokens
    }
}

fn put_floats(tokens: &mut Vec<Token>, floats: &[Real]) {
    tokens.extend(floats.iter().map(|float| Token::Float(*float)));
}

fn put_drive(tokens: &mut Vec<Token>, drive: &Drive) {
    tokens.push(Token::Float(drive.dt));
    tokens.push(Token::Whole(drive.bodies.len() as u32));
    for body in &drive.bodies {
        put_floats(tokens, &body.numbers());
        tokens.push(Token::Whole(u32::from(body.dynamic)));
    }
    tokens.push(Token::Whole(drive.answers.len() as u32));
    for answer in &drive.answers {
        put_answer(tokens, answer);
    }
}

fn put_answer(tokens: &mut Vec<Token>, answer: &RayAnswer) {
    let Some(hit) = answer else {
        tokens.push(Token::Whole(0));
        return;
    };
    tokens.push(Token::Whole(if hit.upward_normal.is_some() { 2 } else { 1 }));
    tokens.push(Token::Float(hit.time));
    put_floats(tokens, &hit.normal.parts());
    if let Some(upward) = hit.upward_normal {
        put_floats(tokens, &upward.parts());
    }
    tokens.push(Token::Whole(hit.body.map_or(0, |body| body.saturating_add(1))));
}

/// A table as the numbers that `Reader::table` reads.
pub fn table_tokens(table: &crate::table::Table) -> Vec<Token> {
    let mut tokens: Vec<Token> =
        [table.count, table.mark, table.up, table.forward].map(Token::Whole).to_vec();
    put_floats(&mut tokens, &table.numbers);
    tokens
}
