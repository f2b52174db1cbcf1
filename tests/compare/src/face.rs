//! The functions of C that give whole answers, by the library and by the second
//! reading, with all that they leave; and what must hold of them whatever that says.

pub mod images;
pub mod parts;
pub mod sheets;
pub mod texts;
pub mod writes;

mod crowded;
mod lines;

use crate::format::{Format, RECORDS, SUM_TAPES, TAPES};
use crate::whole::Entry;
use second::random::Random;
use second::spans::{origin, origin_tape, span, span_tape, Origin, Span};
use second::tape::Edition;

/// A format by its numbers.
pub struct Face {
    pub format: &'static Format,
    /// Those that are tried, any of which names it.
    numbers: &'static [u32],
    /// By the second reading.
    span: fn(&[u8]) -> Option<Span>,
    origin: fn(&[u8], u32) -> Option<Origin>,
    /// What stands between lines.
    separators: &'static [u8],
    /// What a write can answer. Row 17 is none of a question for room.
    write_numbers: [u32; 6],
}

/// Any number but 0 and 1, and such as are 0 or 1 in their low bits.
const OTHERS: [u32; 9] = [
    2,
    2,
    3,
    0x100,
    0x101,
    0x1_0000,
    0x1_0001,
    0x8000_0000,
    u32::MAX,
];

pub static FACES: [Face; 3] = [
    Face {
        format: &RECORDS,
        numbers: &OTHERS,
        span,
        origin,
        separators: b"\r\n",
        write_numbers: [0, 1, 15, 16, 17, 18],
    },
    Face {
        format: &TAPES,
        numbers: &[0],
        span: |text| span_tape(Edition::Repeat, text),
        origin: |text, address| origin_tape(Edition::Repeat, text, address),
        separators: b"\r\n\0\x13",
        write_numbers: [0, 1, 11, 16, 17, 19],
    },
    Face {
        format: &SUM_TAPES,
        numbers: &[1],
        span: |text| span_tape(Edition::Sum, text),
        origin: |text, address| origin_tape(Edition::Sum, text, address),
        separators: b"\r\n\0\x13",
        write_numbers: [0, 1, 11, 16, 17, 19],
    },
];

impl Face {
    fn number(&self, random: &mut Random) -> u32 {
        random.pick(self.numbers)
    }

    /// The highest address of the format.
    fn top(&self) -> u64 {
        self.format.reach - 1
    }
}

/// Any number but 0 says that there is an entry. Without one its number is not read.
fn entry_words(random: &mut Random, entry: Option<u32>) -> Entry {
    let any = random.word() as u32;
    match entry {
        Some(entry) => (random.pick(&[1, 1, 1, 2, 0x100, u32::MAX]), entry),
        None => (0, random.pick(&[0, 1, any])),
    }
}

/// An error if two answers differ.
fn same<T: PartialEq + std::fmt::Debug>(name: &str, found: T, wanted: T) -> Result<(), String> {
    if found == wanted {
        return Ok(());
    }
    Err(format!("{name}: {found:X?}, not {wanted:X?}"))
}

/// An error if something does not hold.
fn hold(holds: bool, what: impl FnOnce() -> String) -> Result<(), String> {
    if holds {
        return Ok(());
    }
    Err(what())
}
