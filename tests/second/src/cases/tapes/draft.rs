//! Lines in the making and how they become a tape.

use super::super::drawing;
use crate::random::Random;
use crate::tape::{Edition, REPEAT};

/// A line by its fields, so that each can be made wrong alone.
#[derive(Clone)]
pub struct Draft {
    pub mark: u8,
    pub length: u8,
    /// The address, or the number of data lines.
    pub number: u16,
    pub data: Vec<u8>,
    pub check: u16,
}

impl Draft {
    /// A data line that is right.
    pub fn new(address: u64, data: &[u8]) -> Draft {
        let mut draft = Draft {
            mark: b';',
            length: data.len() as u8,
            number: address as u16,
            data: data.to_vec(),
            check: 0,
        };
        draft.check = draft.sum();
        draft
    }

    /// A last line, right in its edition if there are so many data lines.
    pub fn last(edition: Edition, number: u64) -> Draft {
        let mut draft = Draft::new(number, &[]);
        draft.check = draft.right_check(edition);
        draft
    }

    /// What the check must be, by the other fields.
    pub fn right_check(&self, edition: Edition) -> u16 {
        match edition {
            Edition::Repeat if self.length == 0 => self.number,
            _ => self.sum(),
        }
    }

    /// The usual sum of length, address and data.
    pub fn sum(&self) -> u16 {
        let data = self.data.iter();
        let sum = data.fold(0u16, |sum, &byte| sum.wrapping_add(u16::from(byte)));
        sum.wrapping_add(u16::from(self.length) + self.number / 256 + self.number % 256)
    }

    pub fn text(&self) -> Vec<u8> {
        let data: String = self.data.iter().map(|byte| format!("{byte:02X}")).collect();
        let (length, number, check) = (self.length, self.number, self.check);
        let digits = format!("{length:02X}{number:04X}{data}{check:04X}");
        [&[self.mark], digits.as_bytes()].concat()
    }
}

/// The last line behind so many data lines.
pub fn last_line(edition: Edition, number: usize) -> Vec<u8> {
    Draft::last(edition, number as u64).text()
}

/// What stands between lines: as 003 has it, as most systems do, and others.
const ENDS: [&[u8]; 10] = [
    b"\r\n\0\0\0\0\0\0",
    b"\r\n",
    b"\n",
    b"\r",
    b"\0",
    b"\x13",
    b"\n\n\n",
    b"\r\0",
    b"\x13\r\n",
    b"\0\x13\n\r\0",
];

pub fn join(random: &mut Random, lines: &[Vec<u8>]) -> Vec<u8> {
    // Digits stand where they do in the other edition.
    let mut text = drawing::join(random, &REPEAT, (&ENDS, 3), lines);
    if random.chance(1, 4) {
        text.push(0x13);
    }
    text
}
