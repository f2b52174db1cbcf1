//! What texts and sheets address, without a window, and how long a written text is.
//!
//! A text is read as if there were a window that holds everything, and as if cells
//! could be addressed twice: up to the first record that a row other than 12 and 13
//! refuses. That record is none of those read.

use crate::expressions::value;
use crate::reading::{records, Reader, Record, Records, Role, Writer, Written};
use crate::sheets::{Field, ADDRESS, DATA};
use crate::symbols::{read_block, Symbols};
use crate::tape::{tape_lines, Edition};
use std::ops::Range;

/// The lowest and the highest address.
#[derive(Clone, Copy, Debug, PartialEq, Eq)]
pub struct Span {
    pub lowest: u64,
    /// Above FFFFFFFF only in a sheet.
    pub highest: u64,
}

/// A record that addresses a cell: its number from 1, the place of its first
/// character, and the cell's byte.
#[derive(Clone, Copy, Debug, PartialEq, Eq)]
pub struct Origin {
    pub record: usize,
    pub place: usize,
    pub byte: u8,
}

/// From the lowest to the highest address of the data records of a text; none if no
/// cell is addressed.
pub fn span(text: &[u8]) -> Option<Span> {
    span_of(records, text)
}

pub fn span_tape(edition: Edition, text: &[u8]) -> Option<Span> {
    span_of(tape_lines(edition), text)
}

/// The first record of a text that addresses a cell.
pub fn origin(text: &[u8], address: u32) -> Option<Origin> {
    origin_of(records, text, address)
}

pub fn origin_tape(edition: Edition, text: &[u8], address: u32) -> Option<Origin> {
    origin_of(tape_lines(edition), text, address)
}

fn span_of(records: Records, text: &[u8]) -> Option<Span> {
    let read = read(records, text);
    let data = read.iter().filter(|record| record.is(Role::Data));
    hull(data.map(|record| stretch(record.address(), &record.data())))
}

fn origin_of(records: Records, text: &[u8], address: u32) -> Option<Origin> {
    let read = read(records, text);
    let mut numbered = (1..).zip(&read).filter(|(_, record)| record.is(Role::Data));
    numbered.find_map(|(number, record)| {
        let mut cells = (record.address()..).zip(record.data());
        let (_, byte) = cells.find(|(own, _)| *own == u64::from(address))?;
        Some(Origin {
            record: number,
            place: record.place,
            byte,
        })
    })
}

/// The records before the first that is refused in any window.
fn read(records: Records, text: &[u8]) -> Vec<Record<'_>> {
    let mut reader = Reader::new(0, 0);
    let mut read = Vec::new();
    for record in records(text) {
        let rows = reader.all_rows(&record);
        if rows.iter().any(|row| ![12, 13].contains(row)) {
            break;
        }
        reader.pass(&record);
        read.push(record);
    }
    read
}

/// The addresses of data.
fn stretch(address: u64, data: &[u8]) -> Range<u64> {
    address..address + data.len() as u64
}

/// What is between the outermost addresses of all stretches.
fn hull(stretches: impl Iterator<Item = Range<u64>>) -> Option<Span> {
    let cells: Vec<Range<u64>> = stretches.filter(|cells| !cells.is_empty()).collect();
    let lowest = cells.iter().map(|cells| cells.start).min()?;
    let highest = cells.iter().map(|cells| cells.end - 1).max()?;
    Some(Span { lowest, highest })
}

/// The same of the pairs of a sheet, with the symbols of the block at the start of a
/// text: up to the first field that a row refuses, whatever the window. A bad block
/// leaves none.
pub fn span_sheet(text: &[u8], sheet: &[u8]) -> Option<Span> {
    let block = read_block(text).ok()?;
    let mut pairs = Vec::new();
    let mut place = 0;
    while let Some((cells, next)) = pair(sheet, place, &block.symbols) {
        pairs.push(cells);
        place = next;
    }
    hull(pairs.into_iter())
}

/// The addresses of the pair at a place, and where the next one begins. None if one
/// of its fields is refused, or missing.
fn pair(sheet: &[u8], place: usize, symbols: &Symbols) -> Option<(Range<u64>, usize)> {
    // Which field it is matters to the refusal alone.
    let text = Field::at(sheet, 0, place, ADDRESS).ok()?;
    let data = Field::at(sheet, 0, text.end(), DATA).ok()?;
    let address = value(text.bytes, symbols).ok()?;
    Some((stretch(u64::from(address), data.bytes), data.end()))
}

/// What a write would answer if the output were just long enough.
pub fn room(
    write: Writer,
    base: u32,
    memory: &[u8],
    marks: &[u8],
    header: &[u8],
    entry: Option<u32>,
) -> Written {
    // S0, S5 and the terminator, and a record for each cell; a tape is shorter.
    let enough = 37 + 2 * header.len() + 17 * memory.len();
    write(base, memory, marks, header, entry, &mut vec![0; enough])
}
