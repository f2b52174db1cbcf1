//! Patch sheets: bytes for addresses that are given by symbol names.
//!
//! A sheet is pairs of fields. A field is a tag, two bytes of a length, high byte
//! first, and so many bytes: with tag 1 an address as text, with tag 2 the bytes for
//! it.

use crate::expressions::value;
use crate::reading::{Loaded, Refusal};
use crate::symbols::{refused, row_1_or_block, Symbols};
use std::collections::BTreeMap;

/// The tag of an address as text.
pub const ADDRESS: u8 = 1;

/// The tag of the bytes for it.
pub const DATA: u8 = 2;

/// The bytes of a field before those that its length counts.
pub const HEAD: usize = 3;

/// Loads a patch sheet, with the symbols of the block at the start of a text. The
/// header is empty and the entry absent; each pair is one data record.
pub fn load_sheet(
    text: &[u8],
    sheet: &[u8],
    base: u32,
    memory: &mut [u8],
    marks: &mut [u8],
) -> Loaded {
    // No answer depends on what the marks held before.
    marks.fill(0);
    let block = row_1_or_block(text, base, memory.len(), marks.len());
    let patch = block.and_then(|block| {
        let patch = Patch::new(base, memory.len());
        patch.read(sheet, &block.symbols)
    });
    let patch = match patch {
        Ok(patch) => patch,
        Err(refusal) => return Loaded::nothing(refusal),
    };
    // Nothing was stored so far: a refusal must leave the memory as it was.
    for (address, byte) in &patch.cells {
        let index = (address - u64::from(base)) as usize;
        memory[index] = *byte;
        marks[index] = 1;
    }
    Loaded {
        records: patch.pairs,
        cells: patch.cells.len(),
        ..Loaded::nothing(Refusal::default())
    }
}

/// A field, its number from 1 among all of them, and the place of its tag.
pub(crate) struct Field<'a> {
    number: usize,
    place: usize,
    pub bytes: &'a [u8],
}

impl<'a> Field<'a> {
    /// The field that must have this tag. Row 25 applies if it does not, or if the
    /// sheet ends before the field does.
    pub fn at(sheet: &'a [u8], number: usize, place: usize, tag: u8) -> Result<Field<'a>, Refusal> {
        let bytes = match sheet[place..] {
            [found, high, low, ref rest @ ..] if found == tag => {
                let length = u16::from_be_bytes([high, low]);
                rest.get(..usize::from(length))
            }
            _ => None,
        };
        let field = |bytes| Field {
            number,
            place,
            bytes,
        };
        bytes.map(field).ok_or(refused(25, number, place))
    }

    /// Where the next field begins.
    pub fn end(&self) -> usize {
        self.place + HEAD + self.bytes.len()
    }

    fn refused(&self, row: u32) -> Refusal {
        refused(row, self.number, self.place)
    }
}

/// The window, and what the pairs taken so far have put there.
struct Patch {
    base: u64,
    end: u64,
    pairs: usize,
    cells: BTreeMap<u64, u8>,
}

impl Patch {
    fn new(base: u32, length: usize) -> Patch {
        Patch {
            base: u64::from(base),
            end: u64::from(base) + length as u64,
            pairs: 0,
            cells: BTreeMap::new(),
        }
    }

    /// Takes in all pairs, field by field: the first faulty field counts.
    fn read(mut self, sheet: &[u8], symbols: &Symbols) -> Result<Patch, Refusal> {
        let mut place = 0;
        while place < sheet.len() {
            let number = 2 * self.pairs + 1;
            let text = Field::at(sheet, number, place, ADDRESS)?;
            // With nothing after it the field is bad itself, whatever its text is.
            if text.end() == sheet.len() {
                return Err(text.refused(25));
            }
            let address = value(text.bytes, symbols).map_err(|row| text.refused(row))?;
            let data = Field::at(sheet, number + 1, text.end(), DATA)?;
            self.take(u64::from(address), &data)?;
            place = data.end();
        }
        Ok(self)
    }

    /// Takes in the bytes of a pair.
    fn take(&mut self, address: u64, data: &Field) -> Result<(), Refusal> {
        let cells = || (address..).zip(data.bytes.iter().copied());
        if cells().any(|(address, _)| !(self.base..self.end).contains(&address)) {
            return Err(data.refused(12));
        }
        if cells().any(|(address, _)| self.cells.contains_key(&address)) {
            return Err(data.refused(13));
        }
        self.cells.extend(cells());
        self.pairs += 1;
        Ok(())
    }
}
