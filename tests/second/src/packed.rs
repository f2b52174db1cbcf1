//! Packed marks, one bit a cell: cell i has bit i modulo 8 of byte i / 8, and the
//! spare bits of the last byte are zero.
//!
//! Each call gives what the byte form gives for the unpacked marks. Here stands
//! what packed marks have of their own: their length, the spare bits and the
//! number of ones.

use crate::overlay::{self, Image, Merged, Title, Word};
use crate::parts::{self, State};
use crate::reading::{Loaded, Loader, Refusal, Writer, Written};

/// The bytes that so many cells have: an eighth of them, rounded up.
pub fn length(cells: usize) -> usize {
    cells.div_ceil(8)
}

/// The byte with the mark of a cell, and the mark's bit in it.
fn bit(index: usize) -> (usize, u8) {
    (index / 8, 1 << (index % 8))
}

fn is_set(packed: &[u8], index: usize) -> bool {
    let (byte, bit) = bit(index);
    packed[byte] & bit != 0
}

/// Marks of 0 and 1 as bits.
pub fn pack(marks: &[u8]) -> Vec<u8> {
    let mut packed = vec![0; length(marks.len())];
    for (index, &mark) in marks.iter().enumerate() {
        let (byte, bit) = bit(index);
        packed[byte] |= bit * mark;
    }
    packed
}

/// The marks of so many cells as bytes, whatever the spare bits are.
pub fn unpack(packed: &[u8], cells: usize) -> Vec<u8> {
    let mark = |index| u8::from(is_set(packed, index));
    (0..cells).map(mark).collect()
}

/// How many bits are set.
pub fn ones(packed: &[u8]) -> usize {
    packed.iter().map(|byte| byte.count_ones() as usize).sum()
}

/// Whether a bit is set that belongs to none of so many cells.
pub fn has_spare_bit(packed: &[u8], cells: usize) -> bool {
    (cells..8 * packed.len()).any(|index| is_set(packed, index))
}

fn fits(packed: &[u8], cells: usize) -> bool {
    packed.len() == length(cells)
}

/// The marks that the byte form is lent. For packed bytes that do not fit there is
/// one too many, so that row 1 applies to them as well.
fn lent(packed: &[u8], cells: usize) -> Vec<u8> {
    if fits(packed, cells) {
        unpack(packed, cells)
    } else {
        vec![0; cells + 1]
    }
}

/// Packs what the byte form left of such marks. It has zeroed all of those that do
/// not fit, by row 1.
fn give_back(packed: &mut [u8], cells: usize, marks: &[u8]) {
    packed.fill(0);
    if fits(packed, cells) {
        packed.copy_from_slice(&pack(marks));
    }
}

/// Loads as a loader of the byte form does. What the packed bytes held is ignored.
pub fn load(
    loader: Loader,
    text: &[u8],
    base: u32,
    memory: &mut [u8],
    packed: &mut [u8],
) -> Loaded {
    let cells = memory.len();
    let mut marks = lent(packed, cells);
    let loaded = loader(text, base, memory, &mut marks);
    give_back(packed, cells, &marks);
    counted(loaded, packed)
}

/// The cells of an accepted load are the ones. A refused one has none, whatever
/// the packed bytes are behind it.
fn counted(loaded: Loaded, packed: &[u8]) -> Loaded {
    let cells = match loaded.refusal.number {
        0 => ones(packed),
        _ => 0,
    };
    Loaded { cells, ..loaded }
}

/// The rows of a write, a look and a merge that are tried before row 16.
const BEFORE_16: [u32; 2] = [1, 15];

/// Row 16, where a spare bit is set and no earlier row applies.
fn row_16(earlier: Refusal, spare_bit: bool, cells: usize) -> Option<Refusal> {
    let applies = spare_bit && !BEFORE_16.contains(&earlier.number);
    applies.then_some(Refusal {
        number: 16,
        place: cells,
        ..Refusal::default()
    })
}

/// Writes as a writer of the byte form does.
pub fn write(
    writer: Writer,
    base: u32,
    memory: &[u8],
    packed: &[u8],
    header: &[u8],
    entry: Option<u32>,
    out: &mut [u8],
) -> Written {
    let cells = memory.len();
    let marks = lent(packed, cells);
    // Row 16 must leave the output as it was.
    let mut text = out.to_vec();
    let written = writer(base, memory, &marks, header, entry, &mut text);
    let spare_bit = has_spare_bit(packed, cells);
    if let Some(refusal) = row_16(written.refusal, spare_bit, cells) {
        return Written { refusal, length: 0 };
    }
    out.copy_from_slice(&text);
    written
}

/// Begins a load in parts. All bits are zero then, whatever they were.
pub fn begin(base: u32, memory: &mut [u8], packed: &mut [u8]) -> State {
    let cells = memory.len();
    let mut marks = lent(packed, cells);
    let state = parts::begin(base, memory, &mut marks);
    give_back(packed, cells, &marks);
    state
}

/// Reads the next part of the text. Spare bits are cleared first, but no call
/// changes anything behind a refusal.
pub fn feed(state: State, part: &[u8], base: u32, memory: &mut [u8], packed: &mut [u8]) -> State {
    if state.refusal().is_some() {
        return state;
    }
    let cells = memory.len();
    let mut marks = lent(packed, cells);
    let state = parts::feed(state, part, base, memory, &mut marks);
    give_back(packed, cells, &marks);
    state
}

/// Ends a load in parts. The state goes on counting data bytes; the answer's cells
/// are the ones that are left.
pub fn end(state: State, base: u32, memory: &mut [u8], packed: &mut [u8]) -> (Loaded, State) {
    let behind_refusal = state.refusal().is_some();
    let cells = memory.len();
    let mut marks = lent(packed, cells);
    let (loaded, state) = parts::end(state, base, memory, &mut marks);
    if !behind_refusal {
        give_back(packed, cells, &marks);
    }
    (counted(loaded, packed), state)
}

/// Whether a spare bit is set in the marks of either image.
fn either_has_spare_bit(base: Image, patch: Image) -> bool {
    let has = |image: Image| has_spare_bit(image.marks, image.memory.len());
    has(base) || has(patch)
}

/// Looks at an address. The marks of both images are packed.
pub fn look<'a>(start: u32, base: Image<'a>, patch: Image<'a>, address: u32) -> (&'a [u8], Word) {
    let marks = [base, patch].map(|image| lent(image.marks, image.memory.len()));
    let [below, above] = [(base, &marks[0]), (patch, &marks[1])].map(|(image, marks)| Image {
        memory: image.memory,
        marks,
    });
    let (part, word) = overlay::look(start, below, above, address);
    let earlier = match word {
        Word::Refused(refusal) => refusal,
        _ => Refusal::default(),
    };
    let spare_bit = either_has_spare_bit(base, patch);
    let nothing = &base.memory[..0];
    if let Some(refusal) = row_16(earlier, spare_bit, base.memory.len()) {
        return (nothing, Word::Refused(refusal));
    }
    // The same part of the memory that was lent here.
    let run = |memory: &'a [u8]| &memory[(address - start) as usize..][..part.len()];
    match word {
        Word::Patch => (run(patch.memory), word),
        Word::Base => (run(base.memory), word),
        _ => (nothing, word),
    }
}

/// Merges a patch into the memory and the packed marks of a base image. The marks
/// of the patch are packed, too.
pub fn merge(
    start: u32,
    memory: &mut [u8],
    packed: &mut [u8],
    title: &Title,
    patch: Image,
    patch_title: &Title,
) -> Merged {
    let cells = memory.len();
    let base = Image {
        memory,
        marks: packed,
    };
    let spare_bit = either_has_spare_bit(base, patch);
    let (mut bytes, mut marks) = (memory.to_vec(), lent(packed, cells));
    let above = Image {
        memory: patch.memory,
        marks: &lent(patch.marks, patch.memory.len()),
    };
    let merged = overlay::merge(start, &mut bytes, &mut marks, title, above, patch_title);
    if let Some(refusal) = row_16(merged.refusal, spare_bit, cells) {
        let title = Title::default();
        return Merged { refusal, title };
    }
    if merged.refusal.number == 0 {
        memory.copy_from_slice(&bytes);
        packed.copy_from_slice(&pack(&marks));
    }
    merged
}
