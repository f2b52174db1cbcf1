//! Records in the making and how they become a text.

use super::drawing;
use crate::random::Random;
use crate::reading::SREC;

/// A record by its fields, so that each can be made wrong alone.
#[derive(Clone)]
pub struct Draft {
    pub letter: u8,
    pub kind: u8,
    /// Address and data bytes.
    pub body: Vec<u8>,
    /// A count in place of the right one.
    pub count: Option<u8>,
    /// What the checksum is above the right one, modulo 256.
    pub checksum_error: u8,
}

impl Draft {
    pub fn new(kind: u8, address: u64, data: &[u8]) -> Draft {
        let mut body = address.to_be_bytes()[8 - width_of(kind)..].to_vec();
        body.extend(data);
        Draft {
            letter: b'S',
            kind,
            body,
            count: None,
            checksum_error: 0,
        }
    }

    /// Gives the record this right checksum, by the last byte of an entry, of a
    /// header or of data. No row but 7 asks for that byte. An S5 and a data
    /// record without data have none.
    pub fn aim_checksum(&mut self, checksum: u8) {
        let is_data = (b'1'..=b'3').contains(&self.kind);
        let without_data = is_data && self.body.len() == width_of(self.kind);
        let count = self.body.len() as u8 + 1;
        if self.kind == b'5' || without_data {
            return;
        }
        if let Some((last, others)) = self.body.split_last_mut() {
            let sum = others.iter().fold(count, |sum, &b| sum.wrapping_add(b));
            *last = (!checksum).wrapping_sub(sum);
        }
    }

    pub fn text(&self) -> Vec<u8> {
        let count = self.count.unwrap_or(self.body.len() as u8 + 1);
        let sum = self.body.iter().fold(count, |sum, &b| sum.wrapping_add(b));
        let checksum = (!sum).wrapping_add(self.checksum_error);
        let digits: String = [&[count], &self.body[..], &[checksum]]
            .concat()
            .iter()
            .map(|byte| format!("{byte:02X}"))
            .collect();
        [&[self.letter, self.kind], digits.as_bytes()].concat()
    }
}

/// The address bytes of a type.
fn width_of(kind: u8) -> usize {
    match kind {
        b'3' | b'7' => 4,
        b'2' | b'8' => 3,
        _ => 2,
    }
}

pub fn data_kind(width: usize) -> u8 {
    b'0' + width as u8 - 1
}

pub fn end_kind(width: usize) -> u8 {
    b'0' + 11 - width as u8
}

/// The number of addresses of a width.
pub fn reach(width: usize) -> u64 {
    1 << (8 * width)
}

pub fn any_width(random: &mut Random) -> usize {
    random.size(2, 4)
}

/// The most data bytes of a record of this width.
pub fn most_data(width: usize) -> usize {
    254 - width
}

/// A terminator of any width, with an entry at one of the width's ends or
/// between them.
pub fn terminator(random: &mut Random) -> Vec<u8> {
    let width = any_width(random);
    let last = reach(width) - 1;
    let between = random.between(0, last);
    let entry = random.pick(&[0, last, between]);
    Draft::new(end_kind(width), entry, &[]).text()
}

/// A data record without data at an address of its width.
pub fn empty_record(width: usize, address: u64) -> Vec<u8> {
    Draft::new(data_kind(width), address, &[]).text()
}

pub fn count_record(number: usize) -> Vec<u8> {
    Draft::new(b'5', number as u64, &[]).text()
}

/// What stands between records.
const ENDS: [&[u8]; 6] = [b"\n", b"\r", b"\r\n", b"\n\r", b"\n\n\n", b"\r\r\n\r"];

pub fn join(random: &mut Random, records: &[Vec<u8>]) -> Vec<u8> {
    drawing::join(random, &SREC, (&ENDS, 4), records)
}
