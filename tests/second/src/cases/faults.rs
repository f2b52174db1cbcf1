//! What the texts with chosen faults have in common in all formats.

use super::{Limits, TOP};
use crate::random::Random;

/// A set of rows of the refusal table.
#[derive(Clone, Copy)]
pub struct Rows {
    bits: u32,
}

impl Rows {
    pub fn of(rows: &[u32]) -> Rows {
        Rows {
            bits: rows.iter().fold(0, |bits, row| bits | 1 << row),
        }
    }

    pub fn has(self, row: u32) -> bool {
        self.bits & (1 << row) != 0
    }

    pub fn any(self, rows: std::ops::RangeInclusive<u32>) -> bool {
        rows.into_iter().any(|row| self.has(row))
    }

    pub fn first(self) -> u32 {
        self.bits.trailing_zeros()
    }
}

/// The cells from the first number to below the second that the faulty line
/// addresses. It can have `least` to `most` of them; `common` is the end of the
/// addresses that an earlier line can have, too, and `own` that of its own.
pub fn range(
    random: &mut Random,
    rows: Rows,
    (least, most): (usize, usize),
    (common, own): (u64, u64),
) -> (u64, u64) {
    let least = match rows {
        _ if rows.has(11) || rows.has(12) && rows.has(13) => 2,
        _ if rows.any(12..=13) => 1,
        _ => least,
    };
    let some = random.size(least, most.min(8));
    let many = random.size(least, most);
    let length = random.pick(&[some, some, many]) as u64;
    if rows.has(11) {
        let start = own - random.between(1, length - 1);
        return (start, start + length);
    }
    let last = if rows.has(13) { common } else { own } - length;
    let near = random.below(0x200);
    let between = random.between(0, last.min(own - 1));
    let start = random.pick(&[0, last, near, between]).min(own - 1);
    (start, start + length)
}

/// A window for a faulty line with these cells, which all lie in it but for
/// row 12.
pub fn window(
    random: &mut Random,
    limits: Limits,
    rows: Rows,
    (start, end): (u64, u64),
) -> (u64, u64) {
    let spare = limits.window as u64 - (end - start);
    if rows.has(12) {
        return window_outside(random, rows, spare, (start, end));
    }
    let low = start - padding(random, start.min(spare / 2));
    (low, end + padding(random, (TOP - end).min(spare / 2)))
}

/// A length from none to `most`, often none.
fn padding(random: &mut Random, most: u64) -> u64 {
    let some = random.between(0, most);
    random.pick(&[0, some, some])
}

/// A window that lacks some of the cells from `start` to below `end`, but not
/// all of them if one is to be addressed twice.
fn window_outside(
    random: &mut Random,
    rows: Rows,
    spare: u64,
    (start, end): (u64, u64),
) -> (u64, u64) {
    let before = start - padding(random, start.min(spare));
    let after = end + padding(random, spare);
    let (low, high) = if rows.has(13) {
        let within = random.between(start + 1, end - 1);
        // With row 11 only the first cells may be in reach, so they are kept.
        let choices = [(before, within), (within, after)];
        choices[if rows.has(11) { 0 } else { random.size(0, 1) }]
    } else {
        let choices = [
            (before, end - 1),
            (start + 1, after),
            (before, start),
            (end, after),
            (start, start),
        ];
        random.pick(&choices)
    };
    if low >= TOP {
        return (TOP - 1, TOP - 1);
    }
    (low, high.clamp(low, TOP))
}

/// Address and data of some cells from `low` to below `high` of which one lies
/// from `start` to below `end`.
pub fn overlapping(
    random: &mut Random,
    (start, end): (u64, u64),
    (low, high): (u64, u64),
) -> (u64, Vec<u8>) {
    let cell = random.between(start.max(low), end.min(high) - 1);
    let start = cell - random.between(0, (cell - low).min(3));
    let end = cell + random.between(1, (high - cell).min(4));
    (start, random.bytes((end - start) as usize))
}

/// By how much a number of lines is wrong, for row 10.
pub fn number_error(random: &mut Random, rows: Rows) -> u64 {
    let far = random.between(1, 0xFFFF);
    let error = random.pick(&[1, 0xFFFF, 256, far]);
    if rows.has(10) {
        error
    } else {
        0
    }
}

/// Digits up to a length, for row 3.
pub fn lengthen(random: &mut Random, text: &mut Vec<u8>, length: usize) {
    while text.len() < length {
        text.push(random.pick(b"0123456789ABCDEF"));
    }
}

/// One or two digits too few or too many.
pub fn miscut(random: &mut Random, mut text: Vec<u8>, longest: usize) -> Vec<u8> {
    let digits = random.size(1, 2);
    // Row 3 is not meant here.
    if text.len() + digits > longest || random.chance(1, 2) {
        text.truncate(text.len() - digits);
    } else {
        text.extend(&b"0F"[..digits]);
    }
    text
}
