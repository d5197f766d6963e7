//! A scenario that is written while the oracle answers it.

use vehicle::handed::{Chassis, Controls, Drive, NewWheel};
use vehicle::stream::{bytes_of, Code, Reader, Token};
use vehicle::table::{Aimed, Driven, Table};

/// The codes so far, and the table after them.
#[derive(Clone, Default)]
pub struct Script {
    pub codes: Vec<Code>,
    pub table: Table,
    reads: usize,
}

impl Script {
    pub fn new() -> Self {
        Script::default()
    }

    pub fn add(&mut self, wheel: NewWheel) -> u32 {
        self.codes.push(Code::Add(wheel));
        self.table.add_wheel(&wheel)
    }

    pub fn controls(&mut self, wheel: u32, controls: Controls) -> u32 {
        self.codes.push(Code::Controls(wheel, controls));
        self.table.set_controls(wheel, &controls)
    }

    pub fn aim(&mut self, chassis: Chassis) -> Aimed {
        self.codes.push(Code::Aim(chassis));
        self.table.aim(&chassis)
    }

    pub fn drive(&mut self, drive: Drive) -> Driven {
        let driven = self.table.drive(&drive);
        self.codes.push(Code::Drive(drive));
        driven
    }

    /// Two reads of five are by code 5 and three by code 8, so that few vehicles have each of their
    /// wheels read by one code alone.
    pub fn read(&mut self, wheel: u32) {
        let by_code_5 = matches!(self.reads % 5, 1 | 3);
        self.reads += 1;
        self.codes.push(if by_code_5 { Code::Read(wheel) } else { Code::ReadSettled(wheel) });
    }

    pub fn read_settled(&mut self, wheel: u32) {
        self.codes.push(Code::ReadSettled(wheel));
    }

    pub fn read_all(&mut self) {
        for wheel in 0..self.table.count {
            self.read(wheel);
        }
    }

    pub fn count(&self) -> usize {
        self.table.count as usize
    }

    /// The codes with code 0 at the end.
    pub fn finished(mut self) -> Vec<Code> {
        self.codes.push(Code::End);
        self.codes
    }
}

/// The stream of these codes.
pub fn stream_of(codes: &[Code]) -> Vec<u8> {
    let tokens: Vec<_> = codes.iter().flat_map(Code::tokens).collect();
    bytes_of(&tokens)
}

/// The code of these numbers; `otherwise` if they do not make one.
pub fn recoded(tokens: &[Token], otherwise: &Code) -> Code {
    Reader::new(&bytes_of(tokens)).code().unwrap_or_else(|_| otherwise.clone())
}

/// Where the floats stand among these numbers.
pub fn float_places(tokens: &[Token]) -> Vec<usize> {
    (0..tokens.len()).filter(|place| matches!(tokens[*place], Token::Float(_))).collect()
}
