//! S-records, and tapes of either edition: all that the checks need to know of each.

use crate::content::{Change, Content, CHANGES};
use crate::library::{self, Load, Write};
use crate::settings::Settings;
use crate::texts;
use second::cases::{self, tapes, Drawing, Limits, LoadCase, WriteCase};
use second::random::Random;
use second::script;
use second::tape::Edition;

pub struct Format {
    pub name: &'static str,
    /// By the library.
    pub load: Load,
    pub write: Write,
    /// By the second reading, with how cases are drawn.
    pub wanted: &'static Drawing,
    /// One of so many cases is drawn: tapes, with one width and two editions, need fewer.
    pub one_of: u64,
    /// What a write can answer that C asks for by its length alone.
    pub write_numbers: &'static [u32],
    /// Cases with about as many lines as the editions agree on, and how many.
    pub numbered: fn(u64) -> Vec<(usize, LoadCase)>,
    /// Cases with very many lines, and what they answer.
    pub large_loads: fn(u64) -> Vec<LoadCase>,
    pub large_writes: fn(u64) -> Vec<WriteCase>,
    pub large_load_numbers: &'static [u32],
    pub large_write_numbers: &'static [u32],
    /// The digit behind the first character of a written text's last line.
    pub last_kinds: &'static [u8],
    /// The number of addresses.
    pub reach: u64,
    /// Whether a text has an entry, and may have a header.
    pub has_entry: bool,
    /// What can differ between two texts.
    pub changes: &'static [Change],
    /// A text of a content, in a drawn style.
    pub text: fn(&Content, &mut Random) -> Vec<u8>,
    /// How a written text is divided into lines.
    pub divided: fn(&Content, &[u8]) -> Result<(), String>,
    /// A line's characters besides data, and those of all lines without cells.
    pub line: usize,
    pub other_lines: usize,
    /// For the program `vectors`.
    pub script: script::Format,
}

pub static RECORDS: Format = Format {
    name: "S-records",
    load: library::load,
    write: library::write,
    wanted: &cases::RECORDS,
    one_of: 1,
    write_numbers: &[0, 1, 15, 16, 17],
    numbered: |_| Vec::new(),
    large_loads: cases::large_load_cases,
    large_writes: cases::large_write_cases,
    large_load_numbers: &[0, 10],
    large_write_numbers: &[0, 17],
    last_kinds: &[7, 8, 9],
    reach: 1 << 32,
    has_entry: true,
    changes: &CHANGES,
    text: texts::records_of,
    divided: texts::narrowest_width,
    line: 15,
    other_lines: 11 + 26,
    script: script::Format::Srec,
};

/// All that tapes of an edition need, for functions that name it.
macro_rules! tapes {
    ($name:expr, $edition:expr, $drawing:expr) => {
        Format {
            name: $name,
            load: |text, base, memory, marks| {
                library::load_tape($edition, text, base, memory, marks)
            },
            write: |base, memory, marks, _, _, out| {
                library::write_tape($edition, base, memory, marks, out)
            },
            wanted: &$drawing,
            one_of: 4,
            write_numbers: &[0, 1, 11, 16, 17],
            numbered: |seed| numbered_tapes($edition, seed),
            large_loads: |seed| tapes::large_load_cases($edition, seed),
            large_writes: tapes::large_write_cases,
            large_load_numbers: &[0, 10, 14],
            large_write_numbers: &[0, 11, 17],
            last_kinds: &[0],
            reach: 1 << 16,
            has_entry: false,
            changes: &[Change::CellByte, Change::CellAdded, Change::CellTaken],
            text: |content, random| texts::tape_of($edition, content, random),
            divided: texts::full_lines,
            line: 13,
            other_lines: 13,
            script: script::Format::Tape($edition),
        }
    };
}

pub static TAPES: Format = tapes!("tapes", Edition::Repeat, tapes::TAPES);

pub static SUM_TAPES: Format = tapes!("tapes with sums", Edition::Sum, tapes::SUM_TAPES);

pub static FORMATS: [&Format; 3] = [&RECORDS, &TAPES, &SUM_TAPES];

fn numbered_tapes(edition: Edition, seed: u64) -> Vec<(usize, LoadCase)> {
    let case = |&number: &usize| (number, tapes::numbered_load_case(edition, seed, number));
    tapes::NUMBERS.iter().map(case).collect()
}

impl Format {
    /// How many cases a check draws that takes so many of every 100.
    pub fn share(&self, settings: &Settings, percent: u64) -> u64 {
        settings.share(percent) / self.one_of
    }

    /// A write as C can ask for its length alone: S-records always with an entry, the base for
    /// want of another, and a tape without header and entry. So rows 18 and 19
    /// do not apply, and all others do.
    pub fn write_from_c(&self, seed: u64, index: u64, limits: Limits) -> WriteCase {
        let case = self.wanted.write_case(seed, index, limits);
        if self.has_entry {
            let entry = case.entry.or(Some(case.base));
            WriteCase { entry, ..case }
        } else {
            WriteCase {
                header: Vec::new(),
                entry: None,
                ..case
            }
        }
    }

    /// The length that include/srec.h calls always enough.
    pub fn enough(&self, header: usize, cells: usize) -> usize {
        self.other_lines + 2 * header + self.line * cells + 2 * cells
    }
}
