//! Cases for the loader and the writer of tapes, drawn in the same way.

mod draft;
mod faulty;
mod large;
mod odd;
mod valid;
mod writes;

use super::drawing::Drawing;
use super::{any_length, window_at, Limits, LoadCase, TOP};
use crate::random::Random;
use crate::tape::{load_tape, rows_of_refused_line, write_tape, Edition, REPEAT};
pub use faulty::can_meet;
pub use large::{large_load_cases, large_write_cases, numbered_load_case, NUMBERS};

pub const SMALL: Limits = Limits {
    data: 30,
    ..super::SMALL
};

pub const FULL: Limits = Limits {
    data: 255,
    ..super::FULL
};

/// What a load can answer: 0, or the row that refuses it. Numbers 8 and 9 are
/// never given.
pub const LOAD_NUMBERS: [u32; 13] = [0, 1, 2, 3, 4, 5, 6, 7, 10, 11, 12, 13, 14];

/// What a write can answer. Numbers 15 and 18 are never given.
pub const WRITE_NUMBERS: [u32; 6] = [0, 1, 11, 16, 17, 19];

/// The number of addresses.
const REACH: u64 = 1 << 16;

/// The drawing of an edition, whose functions name it.
macro_rules! tapes {
    ($edition:expr) => {
        Drawing {
            load: |text, base, memory, marks| load_tape($edition, text, base, memory, marks),
            write: |base, memory, marks, header, entry, out| {
                write_tape($edition, base, memory, marks, header, entry, out)
            },
            small: SMALL,
            full: FULL,
            numbers: &LOAD_NUMBERS,
            can_meet,
            rows_of_refused: |text, base, length| {
                rows_of_refused_line($edition, text, base, length)
            },
            format: &REPEAT,
            window: any_window,
            lines: |random, limits, window| valid::finished($edition, random, limits, window),
            join: draft::join,
            faulty: |random, limits, rows| faulty::faulty($edition, random, limits, rows),
            open: |random, limits| open($edition, random, limits),
            unfit: &[(true, false), (false, true), (true, true)],
            characters: b"019Af;\r\n\0\x13G",
            separators: b"\0\0\x13\x13\r\n",
            scrambled: b";;;;0000139AFaf\r\n\0\x13\xFF",
            write_rows: [1, 16, 19, 11, 17],
            refused_write: writes::case,
        }
    };
}

/// Tapes whose last line repeats its number.
pub static TAPES: Drawing = tapes!(Edition::Repeat);

/// Tapes whose last line has its sum.
pub static SUM_TAPES: Drawing = tapes!(Edition::Sum);

pub fn of(edition: Edition) -> &'static Drawing {
    match edition {
        Edition::Repeat => &TAPES,
        Edition::Sum => &SUM_TAPES,
    }
}

pub fn load_case(seed: u64, index: u64, limits: Limits) -> LoadCase {
    TAPES.load_case(seed, index, limits)
}

fn open(edition: Edition, random: &mut Random, limits: Limits) -> LoadCase {
    let drawing = of(edition);
    // One kind more: it says whether a program knows of this edition.
    let kinds = if edition == Edition::Sum { 13 } else { 12 };
    match random.below(kinds) {
        0..=3 => drawing.mutated(random, limits),
        4 | 5 => odd::at_edges(edition, random, limits),
        6 => odd::fixed(random, limits),
        7 | 8 => odd::longest(edition, random, limits),
        9 => drawing.scrambled(random, limits),
        10 => odd::many_lines(edition, random, limits),
        12 => odd::either_check(random, limits),
        _ => drawing.three_faults(random, limits),
    }
}

/// An allowed window, mostly one that has addresses of a tape, often at their
/// end.
fn any_window(random: &mut Random, limits: Limits) -> (u64, u64) {
    let length = any_length(random, limits);
    let base = match random.below(10) {
        0 | 1 => 0,
        2..=4 => random.below(REACH),
        5 => REACH - length,
        6 | 7 => REACH - random.below(length + 1),
        8 => REACH,
        _ => random.below(TOP),
    };
    window_at(base, length)
}
