//! Cases for the loader and the writer, drawn from a seed.
//!
//! A case depends on the seed, its index and the limits only. The index says
//! what the case aims at, so that any few hundred cases in a row reach every
//! refusal; the seed decides the rest.

pub mod chips;
pub mod cuts;
mod draft;
mod drawing;
mod faults;
mod faulty;
mod large;
mod odd;
pub mod overlays;
pub mod packed;
pub mod series;
pub mod sheets;
pub mod tapes;
mod valid;
mod writes;

use crate::random::Random;
use crate::reading;
pub use drawing::Drawing;
use faults::Rows;
pub use faulty::can_meet;
pub use large::{large_load_cases, large_write_cases};

/// The arguments of a load, with memory and marks as they are before it.
#[derive(Clone, Debug, PartialEq, Eq)]
pub struct LoadCase {
    pub text: Vec<u8>,
    pub base: u32,
    pub memory: Vec<u8>,
    pub marks: Vec<u8>,
}

/// The arguments of a write; `room` is the length of the output.
#[derive(Clone, Debug, PartialEq, Eq)]
pub struct WriteCase {
    pub base: u32,
    pub memory: Vec<u8>,
    pub marks: Vec<u8>,
    pub header: Vec<u8>,
    pub entry: Option<u32>,
    pub room: usize,
}

/// How large the drawn cases may be.
#[derive(Clone, Copy, Debug)]
pub struct Limits {
    /// Cells of the window.
    pub window: usize,
    /// Data bytes of a data record or header.
    pub data: usize,
    /// About how many data records a valid text has.
    pub records: usize,
    /// Characters of the text.
    pub text: usize,
    /// Characters of a text that has a record about as long as row 3 allows.
    pub long_text: usize,
}

pub const SMALL: Limits = Limits {
    window: 64,
    data: 24,
    records: 5,
    text: 400,
    long_text: 1_000,
};

pub const FULL: Limits = Limits {
    window: 700,
    data: 252,
    records: 24,
    text: usize::MAX,
    long_text: usize::MAX,
};

/// What a load can answer: 0, or the row that refuses it. Number 9 is reserved
/// and never given.
pub const LOAD_NUMBERS: [u32; 14] = [0, 1, 2, 3, 4, 5, 6, 7, 8, 10, 11, 12, 13, 14];

/// S-record texts.
pub static RECORDS: Drawing = Drawing {
    load: reading::load,
    write: reading::write,
    small: SMALL,
    full: FULL,
    numbers: &LOAD_NUMBERS,
    can_meet,
    rows_of_refused: reading::rows_of_refused_record,
    format: &reading::SREC,
    window: any_window,
    lines: valid::finished,
    join: draft::join,
    faulty: faulty::faulty,
    open,
    unfit: &[(true, false), (true, false), (false, true), (true, true)],
    characters: b"019AfS\r\n\0G",
    separators: b"",
    scrambled: b"SSS0001359AFaf\r\n\n\0\xFF",
    write_rows: [1, 15, 16, 18, 17],
    refused_write: writes::case,
};

/// The refusal number a load case must have by its making, where one is known.
pub fn aimed_number(index: u64) -> Option<u32> {
    RECORDS.aimed_number(index)
}

pub fn load_case(seed: u64, index: u64, limits: Limits) -> LoadCase {
    RECORDS.load_case(seed, index, limits)
}

pub fn write_case(seed: u64, index: u64, limits: Limits) -> WriteCase {
    RECORDS.write_case(seed, index, limits)
}

fn open(random: &mut Random, limits: Limits) -> LoadCase {
    match random.below(9) {
        0..=2 => RECORDS.mutated(random, limits),
        3 | 4 => odd::at_edges(random, limits),
        5 => odd::fixed(random, limits),
        6 => RECORDS.scrambled(random, limits),
        // Row 6 has more causes than any other.
        7 => faulty::faulty(random, limits, Rows::of(&[6])),
        _ => RECORDS.three_faults(random, limits),
    }
}

/// Garbage for the window before the call.
fn contents(random: &mut Random, length: usize) -> Vec<u8> {
    match random.below(4) {
        0 => vec![0; length],
        1 => vec![1; length],
        2 => vec![0xFF; length],
        _ => random.bytes(length),
    }
}

/// A load case in the window of the cells from `low` to below `high`.
fn in_window(random: &mut Random, text: Vec<u8>, (low, high): (u64, u64)) -> LoadCase {
    let length = (high - low) as usize;
    LoadCase {
        text,
        base: low as u32,
        memory: contents(random, length),
        marks: contents(random, length),
    }
}

/// The end of the 32-bit addresses.
const TOP: u64 = 1 << 32;

/// An allowed window, often at an edge of a width.
fn any_window(random: &mut Random, limits: Limits) -> (u64, u64) {
    let length = any_length(random, limits);
    let edge = 1u64 << random.pick(&[16, 24, 32]);
    let base = match random.below(8) {
        0 => 0,
        1 => random.below(1 << 16),
        2 => random.below(1 << 24),
        3 => random.below(1 << 32),
        4 => edge - length,
        5 => edge,
        _ => edge - random.below(length + 1),
    };
    window_at(base, length)
}

fn any_length(random: &mut Random, limits: Limits) -> u64 {
    match random.below(12) {
        0 => 0,
        1 => 1,
        _ => random.between(2, limits.window as u64),
    }
}

/// A base of 2^32 does not exist, not even for an empty window.
fn window_at(base: u64, length: u64) -> (u64, u64) {
    let base = base.min(TOP - length.max(1));
    (base, base + length)
}
