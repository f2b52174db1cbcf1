//! Cases for the writer of tapes.

use super::super::writes::{room, spoil};
use super::super::{Limits, WriteCase, TOP};
use super::{any_window, REACH};
use crate::random::Random;
use crate::tape::{canonical_tape, Edition};

/// A case to which the given rows apply, and none above them.
pub fn case(random: &mut Random, limits: Limits, rows: &[u32]) -> WriteCase {
    let (low, high) = window(random, limits, rows);
    let length = (high - low) as usize;
    let (header, entry) = header_and_entry(random, rows.contains(&19));
    let mut case = WriteCase {
        base: low as u32,
        memory: random.bytes(length),
        marks: marks(random, length),
        header,
        entry,
        room: 0,
    };
    mark_above(random, &mut case, rows.contains(&11));
    spoil(random, &mut case, rows);
    case.room = room(random, needed(&case, rows), rows);
    case
}

/// Rows 16 and 11 need a cell, row 11 one above FFFF.
fn window(random: &mut Random, limits: Limits, rows: &[u32]) -> (u64, u64) {
    let most = limits.window as u64;
    if rows.contains(&11) {
        let length = random.between(1, most);
        let low = REACH - random.below(length);
        let far = random.between(REACH, TOP - length);
        let low = random.pick(&[low, low, low, far]);
        return (low, low + length);
    }
    let (low, high) = any_window(random, limits);
    if rows.contains(&16) {
        (low, high.max(low + 1))
    } else {
        (low, high)
    }
}

/// Marks of many densities, in runs or one by one. Runs of about 24 and 48
/// cells are where lines are cut.
fn marks(random: &mut Random, length: usize) -> Vec<u8> {
    let density = random.pick(&[0, 1, 4, 8, 12, 15, 16]);
    let run = random.pick(&[
        (1, 1),
        (1, 2),
        (1, 5),
        (23, 26),
        (24, 24),
        (47, 50),
        (1, 80),
    ]);
    let mut marks: Vec<u8> = Vec::with_capacity(length);
    while marks.len() < length {
        let mark = u8::from(random.chance(density, 16));
        let left = random.size(run.0, run.1).min(length - marks.len());
        marks.extend(vec![mark; left]);
        if mark == 1 && marks.len() < length && random.chance(3, 4) {
            marks.push(0);
        }
    }
    marks
}

/// Marks no cell above FFFF, or some.
fn mark_above(random: &mut Random, case: &mut WriteCase, wanted: bool) {
    let first = REACH.saturating_sub(u64::from(case.base)) as usize;
    let length = case.marks.len();
    if !wanted {
        let kept = first.min(length);
        case.marks[kept..].fill(0);
    } else if random.chance(1, 2) {
        // One alone, often at an end.
        case.marks[first..].fill(0);
        let some = random.size(first, length - 1);
        case.marks[random.pick(&[first, length - 1, some])] = 1;
    } else {
        case.marks[random.size(first, length - 1)] = 1;
    }
}

/// For row 19 a header, also a very long one, or an entry, also 0, or both.
fn header_and_entry(random: &mut Random, wanted: bool) -> (Vec<u8>, Option<u32>) {
    if !wanted {
        return (Vec::new(), None);
    }
    let length = random.pick(&[1, 3, 252, 253, 300]);
    let any = random.word() as u32;
    let entry = Some(random.pick(&[0, 0, 0xFFFF, 0x1_0000, any]));
    match random.below(3) {
        0 => (random.bytes(length), None),
        1 => (Vec::new(), entry),
        _ => (random.bytes(length), entry),
    }
}

/// The length of the tape, which is the same in both editions.
fn needed(case: &WriteCase, rows: &[u32]) -> usize {
    let (memory, marks) = (&case.memory, &case.marks);
    if rows.iter().all(|&row| row == 17 || row == 19) {
        canonical_tape(Edition::Repeat, case.base, memory, marks).len()
    } else if rows.contains(&17) {
        // There is no tape to measure. The shortest of all has 13 characters,
        // and each cell makes at most one line of 15.
        13
    } else {
        13 + 15 * memory.len()
    }
}
