//! An image dealt over two or four memory chips, and such chips collected.
//!
//! Each cell is moved by itself, by its address: no rows are made here. That is
//! slow, and as near to the request's words as can be.

use crate::overlay::Title;
use crate::reading::Refusal;

/// How many chips are lent. Those from k on are lent empty.
pub const CHIPS: usize = 4;

/// Memory and marks, of the whole or of a chip.
#[derive(Clone, Debug, Default, PartialEq, Eq)]
pub struct Buffers {
    pub memory: Vec<u8>,
    pub marks: Vec<u8>,
}

/// A byte and its mark.
#[derive(Clone, Copy)]
struct Cell {
    byte: u8,
    mark: u8,
}

impl Buffers {
    /// The cell at an address, in the window from `base` on.
    fn cell(&self, base: u32, address: u32) -> Cell {
        let index = (address - base) as usize;
        Cell {
            byte: self.memory[index],
            mark: self.marks[index],
        }
    }

    /// Takes a cell over: its mark, and its byte if that mark is 1.
    fn receive(&mut self, base: u32, address: u32, cell: Cell) {
        let index = (address - base) as usize;
        self.marks[index] = cell.mark;
        if cell.mark == 1 {
            self.memory[index] = cell.byte;
        }
    }
}

/// The answer of a collect. Header and entry are always empty and absent.
#[derive(Clone, Debug, PartialEq, Eq)]
pub struct Collected {
    pub refusal: Refusal,
    pub title: Title,
}

/// Deals the whole, which starts at `base`, over k chips.
pub fn deal(k: u32, base: u32, whole: &Buffers, chips: &mut [Buffers; CHIPS]) -> Refusal {
    let sending = [&whole.marks];
    if let Some(refusal) = first_row(k, base, whole, chips, &sending) {
        return refusal;
    }
    for address in addresses(base, whole) {
        let cell = whole.cell(base, address);
        let chip = chip_of(k, address);
        chips[chip].receive(base / k, address / k, cell);
    }
    Refusal::default()
}

/// Collects k chips into the whole, which starts at `base`.
pub fn collect(k: u32, base: u32, whole: &mut Buffers, chips: &[Buffers; CHIPS]) -> Collected {
    let title = Title::default();
    let sending = chips.each_ref().map(|chip| &chip.marks);
    if let Some(refusal) = first_row(k, base, whole, chips, &sending) {
        return Collected { refusal, title };
    }
    for address in addresses(base, whole) {
        let chip = chip_of(k, address);
        let cell = chips[chip].cell(base / k, address / k);
        whole.receive(base, address, cell);
    }
    let refusal = Refusal::default();
    Collected { refusal, title }
}

/// The addresses of all cells, for a window that is not too long.
fn addresses(base: u32, whole: &Buffers) -> impl Iterator<Item = u32> {
    (base..=u32::MAX).take(whole.memory.len())
}

/// The chip that has the cell at an address.
fn chip_of(k: u32, address: u32) -> usize {
    (address % k) as usize
}

/// The first row that applies. The sending marks are those of the whole, or those of
/// the chips from chip 0 on.
fn first_row(
    k: u32,
    base: u32,
    whole: &Buffers,
    chips: &[Buffers; CHIPS],
    sending: &[&Vec<u8>],
) -> Option<Refusal> {
    let refused = |number, place| {
        Some(Refusal {
            number,
            place,
            ..Refusal::default()
        })
    };
    if row_21(k, base, whole) {
        return refused(21, 0);
    }
    if row_1(k, base, whole, chips) {
        return refused(1, 0);
    }
    for marks in sending {
        if let Some(place) = marks.iter().position(|&mark| mark > 1) {
            return refused(16, place);
        }
    }
    None
}

/// There are not two or four chips, or they do not divide base and length.
fn row_21(k: u32, base: u32, whole: &Buffers) -> bool {
    if k != 2 && k != 4 {
        return true;
    }
    let length = whole.memory.len();
    !base.is_multiple_of(k) || !length.is_multiple_of(k as usize)
}

/// The window passes 2^32, or some length is another than it has to be.
fn row_1(k: u32, base: u32, whole: &Buffers, chips: &[Buffers; CHIPS]) -> bool {
    let (k, length) = (k as usize, whole.memory.len());
    if u64::from(base) + length as u64 > 1 << 32 {
        return true;
    }
    let differs = |chip: usize| {
        let cells = if chip < k { length / k } else { 0 };
        chips[chip].memory.len() != cells || chips[chip].marks.len() != cells
    };
    whole.marks.len() != length || (0..CHIPS).any(differs)
}
