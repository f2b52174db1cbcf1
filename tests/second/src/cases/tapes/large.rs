//! The few cases with about as many lines or cells as there are addresses.

use super::super::{in_window, LoadCase, WriteCase};
use super::draft::{last_line, Draft};
use crate::random::Random;
use crate::tape::{canonical_tape, Edition};

/// One more than the largest number of a last line.
const MANY: usize = 65_536;

/// 65,535 and 65,536 data lines. The second number fits no last line.
pub fn large_load_cases(edition: Edition, seed: u64) -> Vec<LoadCase> {
    let random = &mut Random::new(seed, MANY as u64);
    let last = |number| Some(last_line(edition, number));
    vec![
        counted(random, MANY - 1, 1, last(MANY - 1)),
        counted(random, MANY - 1, 1, last(MANY - 2)),
        counted(random, MANY, 1, last(0)),
        counted(random, MANY, 1, last(MANY - 1)),
        counted(random, MANY, 1, None),
    ]
}

/// Numbers of data lines about where the number or its sum needs another byte.
pub const NUMBERS: [usize; 5] = [255, 256, 257, 511, 512];

/// So many data lines with the right last line of an edition. The cells touch no
/// other, so that as many lines are written again.
pub fn numbered_load_case(edition: Edition, seed: u64, number: usize) -> LoadCase {
    let random = &mut Random::new(seed, number as u64);
    counted(random, number, 2, Some(last_line(edition, number)))
}

/// As many lines of one cell, each so many cells behind the one before it,
/// followed by the last line if there is one.
fn counted(random: &mut Random, number: usize, step: usize, last: Option<Vec<u8>>) -> LoadCase {
    let mut lines: Vec<Vec<u8>> = (0..number * step)
        .step_by(step)
        .map(|address| Draft::new(address as u64, &random.bytes(1)).text())
        .collect();
    lines.extend(last);
    in_window(random, lines.join(&b'\n'), (0, (number * step) as u64))
}

/// All cells that can be addressed, every other one, and one cell too many.
pub fn large_write_cases(seed: u64) -> Vec<WriteCase> {
    let random = &mut Random::new(seed, 1 + MANY as u64);
    vec![
        marked(random, MANY, 1, 0),
        marked(random, MANY, 1, 1),
        marked(random, MANY, 2, 0),
        marked(random, MANY, 2, 1),
        marked(random, MANY + 1, 1, 0),
        marked(random, MANY + 2, 2, 0),
    ]
}

/// Every cell, or every second, and room that lacks so many bytes.
fn marked(random: &mut Random, length: usize, step: usize, missing: usize) -> WriteCase {
    let memory = random.bytes(length);
    let marks: Vec<u8> = (0..length)
        .map(|index| u8::from(index % step == 0))
        .collect();
    let needed = canonical_tape(Edition::Repeat, 0, &memory[..MANY], &marks[..MANY]).len();
    WriteCase {
        base: 0,
        memory,
        marks,
        header: Vec::new(),
        entry: None,
        room: needed - missing,
    }
}
