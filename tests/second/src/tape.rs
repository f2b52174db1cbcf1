//! Tapes of MOS Technology: the loader and the writer, in the plainest reading
//! of the rules. Answers and refusals are those of the S-records.
//!
//! A line is `;`, a length, two bytes of an address, data and a check of two
//! bytes. One with length 00 is the last line: the number of data lines stands
//! in place of the address. There are two editions of its check.

use crate::reading::{
    lines, load_records, put_line, row_1, row_11, row_12, row_13, row_16, row_2, row_3, row_5,
    rows_of_cells, rows_of_refused, write_text, Format, Loaded, Reader, Record, Records, Role, Row,
    WriteRow, Written,
};

/// The most characters a line can have: 255 data bytes.
const LONGEST: usize = 521;

/// The number of addresses.
const REACH: u64 = 1 << 16;

/// The most data bytes of a written line.
const CUT: usize = 24;

/// The end of a written line.
const LINE_END: &[u8] = b"\r\n";

/// What the check of a last line is. They are the same below 256 data lines.
#[derive(Clone, Copy, Debug, PartialEq, Eq)]
pub enum Edition {
    /// The number of data lines again.
    Repeat,
    /// The usual sum, of the bytes of length and number.
    Sum,
}

pub const EDITIONS: [Edition; 2] = [Edition::Repeat, Edition::Sum];

impl Edition {
    pub fn other(self) -> Edition {
        match self {
            Edition::Repeat => Edition::Sum,
            Edition::Sum => Edition::Repeat,
        }
    }
}

/// Loads a tape of an edition into the window from `base` on. Its header is
/// empty and its entry absent.
pub fn load_tape(
    edition: Edition,
    text: &[u8],
    base: u32,
    memory: &mut [u8],
    marks: &mut [u8],
) -> Loaded {
    // The number in the last line is no entry.
    Loaded {
        entry: None,
        ..load_records(tape_lines(edition), text, base, memory, marks)
    }
}

/// All rows that apply to the first refused line of a tape, in rising order;
/// none if no line is refused. The first of them is the refusal number. Rows 1
/// and 14 are about no line and left out.
pub fn rows_of_refused_line(edition: Edition, text: &[u8], base: u32, length: usize) -> Vec<u32> {
    rows_of_refused(tape_lines(edition), text, base, length)
}

/// CR, LF, NUL and XOFF stand between lines and are part of none.
pub fn is_separator(character: u8) -> bool {
    matches!(character, b'\r' | b'\n' | 0 | 0x13)
}

/// The formats of the editions, which differ in row 7 alone.
pub(crate) static REPEAT: Format = format(&REPEAT_ROWS);
static SUM: Format = format(&SUM_ROWS);

const fn format(rows: &'static [(u32, Row)]) -> Format {
    Format {
        separates: is_separator,
        longest: LONGEST,
        lead: 1,
        check: 2,
        kind,
        rows,
        // A right check is never told: it has two bytes.
        want: |_, _| 0,
    }
}

pub(crate) fn tape_lines(edition: Edition) -> Records {
    match edition {
        Edition::Repeat => |text| lines(&REPEAT, text),
        Edition::Sum => |text| lines(&SUM, text),
    }
}

/// What stands in place of the address has two bytes in the last line, too.
fn kind(line: &Record) -> Option<(Role, usize)> {
    match line.byte(0) {
        0 => Some((Role::Terminator, 2)),
        _ => Some((Role::Data, 2)),
    }
}

/// The index of the check's first byte pair, which is none of length or address.
fn check_pair(line: &Record) -> usize {
    line.last().max(3)
}

/// What the check must be: in the last line of an edition the number again, else
/// the sum of length, address and data.
fn right_check(edition: Edition, line: &Record) -> u64 {
    if edition == Edition::Repeat && line.is(Role::Terminator) {
        return line.address();
    }
    let summed = (0..check_pair(line)).map(|index| u64::from(line.byte(index)));
    let sum: u64 = summed.sum();
    sum % 65_536
}

type Rows = [(u32, Row); 10];

static REPEAT_ROWS: Rows = rows(|_, line| row_7(Edition::Repeat, line));
static SUM_ROWS: Rows = rows(|_, line| row_7(Edition::Sum, line));

/// The rows tried for each line, from the top. Numbers 8 and 9 are never given.
const fn rows(row_7: Row) -> Rows {
    [
        (2, row_2),
        (3, row_3),
        (4, row_4),
        (5, row_5),
        (6, row_6),
        (7, row_7),
        (10, row_10),
        (11, row_11),
        (12, row_12),
        (13, row_13),
    ]
}

/// Fewer than 3 characters, or no `;`.
fn row_4(_: &Reader, line: &Record) -> bool {
    line.line.len() < 3 || line.line[0] != b';'
}

/// The length field does not agree with the line's length.
fn row_6(_: &Reader, line: &Record) -> bool {
    line.line.len() != 11 + 2 * usize::from(line.byte(0))
}

/// The check differs.
fn row_7(edition: Edition, line: &Record) -> bool {
    let first = check_pair(line);
    line.number(first..first + 2) != right_check(edition, line)
}

/// A last line with another number than that of the data lines before it.
fn row_10(reader: &Reader, line: &Record) -> bool {
    line.is(Role::Terminator) && line.address() != reader.data_records as u64
}

/// Writes the canonical tape of the marked cells, in an edition. A tape has no
/// header and no entry, so there may be none.
pub fn write_tape(
    edition: Edition,
    base: u32,
    memory: &[u8],
    marks: &[u8],
    header: &[u8],
    entry: Option<u32>,
    out: &mut [u8],
) -> Written {
    let too_high = |&index: &usize| marks[index] == 1 && u64::from(base) + index as u64 >= REACH;
    let rows: [WriteRow; 4] = [
        (1, &|| row_1(base, memory.len(), marks.len()).then_some(0)),
        (16, &|| row_16(marks)),
        (19, &|| (!header.is_empty() || entry.is_some()).then_some(0)),
        (11, &|| (0..marks.len()).find(too_high)),
    ];
    write_text(&rows, || canonical_tape(edition, base, memory, marks), out)
}

/// The canonical tape, for arguments to which rows 1, 16 and 11 do not apply.
pub fn canonical_tape(edition: Edition, base: u32, memory: &[u8], marks: &[u8]) -> Vec<u8> {
    // A run is cut from its own start on.
    let lines = rows_of_cells(base, memory, marks, |_, length| length < CUT);
    let mut text = Vec::new();
    for line in &lines {
        let mut bytes = vec![line.data.len() as u8];
        bytes.extend((line.address as u16).to_be_bytes());
        bytes.extend(&line.data);
        put_checked(&mut text, &bytes, sum(&bytes));
    }
    // At most every other of 2^16 cells starts a line, so the number fits.
    let number = lines.len() as u16;
    let last = [&[0], &number.to_be_bytes()[..]].concat();
    let check = match edition {
        Edition::Repeat => number,
        Edition::Sum => sum(&last),
    };
    put_checked(&mut text, &last, check);
    text
}

fn sum(bytes: &[u8]) -> u16 {
    let add = |sum: u16, &byte: &u8| sum.wrapping_add(u16::from(byte));
    bytes.iter().fold(0, add)
}

/// A line with its check.
fn put_checked(text: &mut Vec<u8>, bytes: &[u8], check: u16) {
    let bytes = [bytes, &check.to_be_bytes()].concat();
    put_line(text, b";", &bytes, LINE_END);
}
