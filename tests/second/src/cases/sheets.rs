//! Texts behind symbol blocks, and patch sheets: right ones, and such with something
//! wrong that has a name.
//!
//! Blocks, addresses and fields are made from their parts, and what is made wrong is
//! known. So is the refusal that it must have, with the line or the field.

mod bad_blocks;
mod bad_fields;
mod bad_terms;
mod blocks;
mod fields;
mod terms;
mod ways;

use super::drawing::{pass_top, unequal_marks};
use super::{any_window, in_window, Limits, LoadCase, RECORDS};
use crate::random::Random;
use crate::reading::{load, row_1, Loaded, Refusal};
use crate::sheets::load_sheet;
use crate::symbols::{load_behind, refused};
use blocks::Page;
use fields::Sheet;
pub use ways::ways;

/// What a load behind a block can answer: 0, or the row that refuses it.
pub const BEHIND_NUMBERS: [u32; 17] = [0, 1, 2, 3, 4, 5, 6, 7, 8, 10, 11, 12, 13, 14, 22, 23, 24];

/// What a load of a sheet can answer.
pub const SHEET_NUMBERS: [u32; 10] = [0, 1, 12, 13, 22, 23, 24, 25, 26, 27];

#[derive(Clone, Copy, Debug, PartialEq, Eq, PartialOrd, Ord)]
pub enum Call {
    /// A text behind a symbol block.
    Behind,
    /// A sheet, with the symbols of a text.
    Sheet,
}

pub const CALLS: [Call; 2] = [Call::Behind, Call::Sheet];

/// How large the drawn cases may be.
#[derive(Clone, Copy, Debug)]
pub struct Size {
    /// Cells of the window of a sheet.
    pub window: usize,
    /// Symbols of a block, where it is not about their number.
    pub symbols: usize,
    /// About how many pairs a sheet has.
    pub pairs: usize,
    /// Data bytes of a pair.
    pub data: usize,
    /// Whether there are blocks of about 1,024 symbols, and fields of 256 bytes.
    pub large: bool,
}

pub const SMALL: Size = Size {
    window: 12,
    symbols: 5,
    pairs: 3,
    data: 5,
    large: false,
};

pub const FULL: Size = Size {
    window: 400,
    symbols: 14,
    pairs: 7,
    data: 300,
    large: true,
};

/// The arguments of a call, with memory and marks as they are before it.
#[derive(Clone, Debug, PartialEq, Eq)]
pub struct Case {
    pub call: Call,
    /// The text with the block, and the window.
    pub load: LoadCase,
    /// Empty where no sheet is read.
    pub sheet: Vec<u8>,
    /// What is wrong with it, by name.
    pub made: Vec<String>,
    /// The refusal that it must have by its making, where one is known.
    pub aim: Option<Refusal>,
}

impl Case {
    /// The answer, and memory and marks behind it.
    pub fn run(&self) -> (Loaded, Vec<u8>, Vec<u8>) {
        let (text, base) = (&self.load.text, self.load.base);
        let (mut memory, mut marks) = (self.load.memory.clone(), self.load.marks.clone());
        let loaded = match self.call {
            Call::Behind => load_behind(text, base, &mut memory, &mut marks),
            Call::Sheet => load_sheet(text, &self.sheet, base, &mut memory, &mut marks),
        };
        (loaded, memory, marks)
    }
}

/// Something that can be wrong, by name, the row that refuses it, and how it is made.
#[derive(Clone, Copy)]
struct Fault<M> {
    row: u32,
    name: &'static str,
    make: M,
}

/// Names, and how what they name is made.
type Table<M> = &'static [(&'static str, M)];

impl<M: Copy> Fault<M> {
    /// Those of tables, with their rows.
    fn all(tables: &[(u32, Table<M>)]) -> Vec<Fault<M>> {
        let faults = tables.iter().flat_map(|&(row, table)| {
            let fault = move |&(name, make)| Fault { row, name, make };
            table.iter().map(fault)
        });
        faults.collect()
    }

    fn way(&self) -> String {
        format!("row {} by {}", self.row, self.name)
    }
}

/// The calls take turns, and so do the things that can be wrong, each by itself.
pub fn sheets_case(seed: u64, index: u64, size: Size) -> Case {
    let random = &mut Random::new(seed, index);
    let turn = index / 2;
    match CALLS[(index % 2) as usize] {
        Call::Behind => behind_case(random, size, turn),
        Call::Sheet => sheet_case(random, size, turn),
    }
}

fn behind_case(random: &mut Random, size: Size, turn: u64) -> Case {
    let next = turn / 4;
    match turn % 4 {
        0 => {
            let page = bad_blocks::wrong(random, size, next);
            behind(random, &page, next)
        }
        // The rest takes its own turns.
        part @ (1 | 2) => {
            let page = right_page(random, size);
            behind(random, &page, 2 * next + part - 1)
        }
        _ => {
            let page = match random.chance(1, 3) {
                true => bad_blocks::wrong(random, size, next),
                false => right_page(random, size),
            };
            // A rest that is accepted.
            let case = behind(random, &page, 2);
            match next % 2 {
                0 => with_row_1(random, case),
                _ => changed(random, case),
            }
        }
    }
}

fn sheet_case(random: &mut Random, size: Size, turn: u64) -> Case {
    let next = turn / 8;
    // What cannot be made wrong in this window, or with these symbols, is drawn again.
    loop {
        let window = any_window(random, limits(size));
        let block = blocks::any(random, size, window);
        let right = block.page(random);
        let sheet = Sheet::any(random, size, window, &block);
        let sheet = match turn % 8 {
            1 => sheet.with_bad_text(random, next),
            2 => sheet.with_bad_field(random, next),
            3 => sheet.with_bad_cells(random, next),
            4 => sheet.with_two_faults(random, next),
            _ => Some(sheet),
        };
        let Some(sheet) = sheet else {
            continue;
        };
        let case = match turn % 8 {
            0 => {
                let page = bad_blocks::wrong(random, size, next);
                Some(with_sheet(random, &page, sheet, window))
            }
            7 => other_case(random, size, next, (&right, sheet, window)),
            _ => Some(with_sheet(random, &right, sheet, window)),
        };
        if let Some(case) = case {
            return case;
        }
    }
}

/// Row 1, a block and a sheet that are both wrong, a text in no order, or changes.
fn other_case(
    random: &mut Random,
    size: Size,
    turn: u64,
    (right, sheet, window): (&Page, Sheet, (u64, u64)),
) -> Option<Case> {
    let next = turn / 4;
    match turn % 4 {
        0 => {
            let sheet = match random.chance(1, 2) {
                true => sheet.with_bad_field(random, next)?,
                false => sheet,
            };
            let page = &bad_blocks::wrong(random, size, next);
            let page = random.pick(&[right, page]);
            let case = with_sheet(random, page, sheet, window);
            Some(with_row_1(random, case))
        }
        1 => {
            let page = bad_blocks::wrong(random, size, next);
            let sheet = sheet.with_bad_text(random, next)?;
            let mut case = with_sheet(random, &page, sheet, window);
            // Of the two only the block is told: nothing else is read.
            let both = "a wrong block before a wrong sheet".to_string();
            case.made = [page.made(), vec![both]].concat();
            Some(case)
        }
        2 => {
            let sheet = sheet.with_odd_text(random);
            Some(with_sheet(random, right, sheet, window))
        }
        _ => {
            let case = with_sheet(random, right, sheet, window);
            Some(changed(random, case))
        }
    }
}

/// No text is limited by it here.
fn limits(size: Size) -> Limits {
    Limits {
        window: size.window,
        ..super::SMALL
    }
}

fn right_page(random: &mut Random, size: Size) -> Page {
    let window = any_window(random, limits(size));
    blocks::any(random, size, window).page(random)
}

/// A text of S-records behind a block. Only a right block has it read.
fn behind(random: &mut Random, page: &Page, turn: u64) -> Case {
    let mut case = RECORDS.load_case(random.word(), turn, super::SMALL);
    let (mut text, aim) = page.text(random);
    let start = text.len();
    // Where there is no bare line, no record may stand behind it.
    if aim.is_none_or(|aim| aim.place < start) {
        let rest = [blocks::any_end(random), &case.text].concat();
        let nothing = random.chance(1, 24);
        text.extend(if nothing { Vec::new() } else { rest });
    }
    case.text = text;
    let (mut memory, mut marks) = (case.memory.clone(), case.marks.clone());
    let rest = &case.text[start..];
    let is_row_1 = row_1(case.base, memory.len(), marks.len());
    let (made, aim) = match aim {
        _ if is_row_1 => (before_all(page.made()), refused(1, 0, 0)),
        Some(aim) => (page.made(), aim),
        None => {
            let loaded = load(rest, case.base, &mut memory, &mut marks);
            (Vec::new(), loaded.refusal)
        }
    };
    Case {
        call: Call::Behind,
        load: case,
        sheet: Vec::new(),
        made,
        aim: Some(aim),
    }
}

/// What row 1 leaves to tell of all that is wrong.
fn before_all(made: Vec<String>) -> Vec<String> {
    let mut made = made.into_iter();
    let other = made.next().map(|_| "row 1 before another row".to_string());
    other.into_iter().collect()
}

/// What may stand behind a bare line, to a sheet's load, which does not look there.
const RESTS: [&[u8]; 8] = [
    b"",
    b"",
    b"\n",
    b"\r\nS9030000FC\r\n",
    b"\nS0030000FC\nS1040000AA51\nS9030000FD\n",
    b"\nZZZ $1\n$$",
    b"\n$$ M\n$$\n",
    b"\n\0\xFF",
];

/// A sheet, and the text that its symbols are taken from.
fn with_sheet(random: &mut Random, page: &Page, sheet: Sheet, window: (u64, u64)) -> Case {
    let (mut text, aim) = page.text(random);
    if aim.is_none_or(|aim| aim.place < text.len()) {
        text.extend(random.pick(&RESTS));
    }
    let made = [page.made(), sheet.made.clone()].concat();
    Case {
        call: Call::Sheet,
        load: in_window(random, text, window),
        sheet: sheet.bytes(),
        made,
        aim: aim.or_else(|| sheet.aim()),
    }
}

/// The same with row 1 on top.
fn with_row_1(random: &mut Random, mut case: Case) -> Case {
    let way = if random.chance(1, 2) {
        pass_top(random, super::SMALL, &mut case.load);
        "row 1 by the top"
    } else {
        unequal_marks(random, super::SMALL, &mut case.load);
        "row 1 by the marks"
    };
    case.made = before_all(case.made);
    case.made.push(way.to_string());
    case.aim = Some(refused(1, 0, 0));
    case
}

/// The same with a change of a byte or two, whatever comes of it.
fn changed(random: &mut Random, mut case: Case) -> Case {
    let in_sheet = case.call == Call::Sheet && random.chance(2, 3);
    for _ in 0..random.size(1, 2) {
        match in_sheet {
            true => change(random, &mut case.sheet, b"\0\0\x01\x01\x02\x03$+-()A1 "),
            false => change(random, &mut case.load.text, b"$$  AAaz019\r\n\t_\0"),
        }
    }
    let way = match in_sheet {
        true => "changed sheet",
        false => "changed text",
    };
    case.made = vec![way.to_string()];
    case.aim = None;
    case
}

/// One byte other, more or fewer, or a cut.
fn change(random: &mut Random, bytes: &mut Vec<u8>, usual: &[u8]) {
    let any = random.byte();
    let byte = random.pick(&[usual, &[any]].concat());
    let place = random.size(0, bytes.len());
    match random.below(8) {
        _ if place == bytes.len() => bytes.push(byte),
        0..=2 => bytes[place] = byte,
        3 | 4 => bytes.insert(place, byte),
        5 => drop(bytes.remove(place)),
        6 => bytes[place] ^= random.pick(&[0x01, 0x20, 0x80]),
        _ => bytes.truncate(place),
    }
}
