//! Cases for the writer.

use super::{any_window, Limits, WriteCase, TOP};
use crate::random::Random;
use crate::reading::canonical;

/// A case to which exactly the given rows apply.
pub fn case(random: &mut Random, limits: Limits, rows: &[u32]) -> WriteCase {
    let (low, high) = any_window(random, limits);
    // Row 16 needs a mark.
    let high = if rows.contains(&16) {
        high.max(low + 1)
    } else {
        high
    };
    let length = (high - low) as usize;
    let mut case = WriteCase {
        base: low as u32,
        memory: random.bytes(length),
        marks: marks(random, low, length),
        header: header(random, rows.contains(&15)),
        entry: entry(random, rows.contains(&18)),
        room: 0,
    };
    spoil(random, &mut case, rows);
    case.room = room(random, needed(&case, rows), rows);
    case
}

/// Marks of many densities, in runs or one by one.
fn marks(random: &mut Random, low: u64, length: usize) -> Vec<u8> {
    let density = random.pick(&[0, 1, 4, 8, 12, 15, 16]);
    let run = random.pick(&[1, 1, 2, 5, 16, 17, 40]);
    let mut mark = false;
    let mut left = 0;
    let mut marks: Vec<u8> = Vec::with_capacity(length);
    for _ in 0..length {
        if left == 0 {
            mark = random.chance(density, 16);
            left = random.between(1, run);
        }
        left -= 1;
        marks.push(u8::from(mark));
    }
    // A gap at or next to a multiple of 16 is where rows go wrong.
    if length > 0 && random.chance(1, 4) {
        let index = (16 - low % 16 + random.below(2)) as usize;
        marks[index.min(length - 1)] = random.byte() % 2;
    }
    marks
}

fn header(random: &mut Random, too_long: bool) -> Vec<u8> {
    let length = if too_long {
        let some = random.size(253, 300);
        random.pick(&[253, 254, 256, some])
    } else {
        let some = random.size(0, 252);
        random.pick(&[0, 0, 1, 3, 251, 252, some])
    };
    random.bytes(length)
}

/// Entries at the ends of the widths and anywhere, or none.
fn entry(random: &mut Random, absent: bool) -> Option<u32> {
    let bits = random.size(1, 32);
    let any = random.word() as u32 >> (32 - bits);
    let ends = [
        0,
        0,
        0xFFFF,
        0x1_0000,
        0xFF_FFFF,
        0x100_0000,
        0xFFFF_FFFF,
        any,
        any,
    ];
    let entry = random.pick(&ends);
    (!absent).then_some(entry)
}

/// Makes the marks wrong for row 16 and the window for row 1.
pub fn spoil(random: &mut Random, case: &mut WriteCase, rows: &[u32]) {
    if rows.contains(&16) {
        spoil_marks(random, &mut case.marks);
    }
    if rows.contains(&1) {
        spoil_window(random, case, rows.contains(&16));
    }
}

/// One mark above 1, and sometimes another after it.
fn spoil_marks(random: &mut Random, marks: &mut [u8]) {
    let last = marks.len() - 1;
    let some = random.size(0, last);
    let first = random.pick(&[0, last, some]);
    for index in [first, random.size(first, last)] {
        marks[index] = random.pick(&[2, 3, 0x31, 0x80, 0xFF]);
    }
}

/// Marks of another length, or a window that passes 2^32.
fn spoil_window(random: &mut Random, case: &mut WriteCase, keep_marks: bool) {
    let length = case.memory.len();
    if length > 1 && random.chance(1, 2) {
        let past = random.size(1, length - 1);
        case.base = (TOP - length as u64) as u32 + random.pick(&[1, past as u32]);
    } else if length > 0 && !keep_marks && random.chance(1, 2) {
        case.marks.pop();
    } else {
        case.marks.push(random.pick(&[0, 1]));
    }
}

/// The length of the text.
fn needed(case: &WriteCase, rows: &[u32]) -> usize {
    let (memory, marks) = (&case.memory, &case.marks);
    match case.entry {
        Some(entry) if rows.iter().all(|&row| row == 17) => {
            canonical(case.base, memory, marks, &case.header, entry).len()
        }
        // There is no text to measure. The shortest of all has 33 characters,
        // and each cell makes at most one record of 17.
        _ if rows.contains(&17) => 33,
        _ => 700 + 17 * memory.len(),
    }
}

/// Room enough, often just enough, or too little for row 17.
pub fn room(random: &mut Random, needed: usize, rows: &[u32]) -> usize {
    if rows.contains(&17) {
        let less = random.size(0, needed - 1);
        random.pick(&[needed - 1, needed - 1, 0, less])
    } else {
        let more = needed + random.size(1, 99);
        random.pick(&[needed, needed, needed + 1, more])
    }
}
