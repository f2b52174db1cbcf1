//! What a text says, and what else a text may say.

use second::random::Random;
use std::collections::BTreeMap;

/// The end of the 32-bit addresses.
const TOP: u64 = 1 << 32;

#[derive(Clone, Debug, PartialEq, Eq)]
pub struct Content {
    pub header: Vec<u8>,
    /// The addressed cells with their bytes.
    pub cells: BTreeMap<u64, u8>,
    pub entry: Option<u32>,
}

impl Content {
    /// The lowest cell and the place behind the highest.
    fn span(&self) -> Option<(u64, u64)> {
        let (&low, _) = self.cells.first_key_value()?;
        let (&high, _) = self.cells.last_key_value()?;
        Some((low, high + 1))
    }

    /// The place behind the highest cell.
    pub fn end(&self) -> u64 {
        self.span().map_or(0, |(_, end)| end)
    }

    /// Base and length of a window that holds all cells.
    pub fn window(&self, random: &mut Random) -> (u32, usize) {
        let (low, end) = self.span().unwrap_or_else(|| {
            let low = random.below(TOP);
            (low, low)
        });
        let base = low - spare(random).min(low);
        let end = (end + spare(random)).min(TOP);
        (base as u32, (end - base) as usize)
    }

    /// The cells in pieces of a drawn length, each with its first address.
    pub fn pieces(&self, random: &mut Random, longest: usize) -> Vec<(u64, Vec<u8>)> {
        let any = random.size(1, longest);
        let most = random.pick(&[1, 2, 16, 17, longest, any]);
        let mut pieces = Vec::new();
        let mut piece: Vec<u8> = Vec::new();
        for (&address, &byte) in &self.cells {
            piece.push(byte);
            let joined = self.cells.contains_key(&(address + 1));
            if !joined || piece.len() == most || random.chance(1, 60) {
                let start = address + 1 - piece.len() as u64;
                pieces.push((start, std::mem::take(&mut piece)));
            }
        }
        pieces
    }
}

/// How far a window goes past the cells, often not at all, seldom far.
fn spare(random: &mut Random) -> u64 {
    let near = random.below(40);
    let far = random.below(70_000);
    match random.below(100) {
        0 => far,
        1..=40 => 0,
        _ => near,
    }
}

/// The ways in which one content can differ from another.
#[derive(Clone, Copy, Debug, PartialEq, Eq, PartialOrd, Ord)]
pub enum Change {
    CellByte,
    CellAdded,
    CellTaken,
    HeaderByte,
    HeaderLength,
    Entry,
}

pub const CHANGES: [Change; 6] = [
    Change::CellByte,
    Change::CellAdded,
    Change::CellTaken,
    Change::HeaderByte,
    Change::HeaderLength,
    Change::Entry,
];

/// The content with one change, or nothing if it has no place for it; there are
/// `reach` addresses.
pub fn changed(
    content: &Content,
    change: Change,
    reach: u64,
    random: &mut Random,
) -> Option<Content> {
    let mut other = content.clone();
    let cells: Vec<u64> = content.cells.keys().copied().collect();
    let bit = 1 << random.below(8);
    match change {
        Change::CellByte if cells.is_empty() => return None,
        Change::CellByte => *other.cells.get_mut(&random.pick(&cells))? ^= bit,
        Change::CellTaken if cells.is_empty() => return None,
        Change::CellTaken => drop(other.cells.remove(&random.pick(&cells))?),
        Change::CellAdded => {
            let address = content.end() + spare(random);
            if address >= reach {
                return None;
            }
            other.cells.insert(address, random.byte());
        }
        Change::HeaderByte if other.header.is_empty() => return None,
        Change::HeaderByte => {
            let index = random.size(0, other.header.len() - 1);
            other.header[index] ^= bit;
        }
        Change::HeaderLength if other.header.len() < 252 && random.chance(1, 2) => {
            other.header.push(0);
        }
        Change::HeaderLength => drop(other.header.pop()?),
        Change::Entry => *other.entry.as_mut()? ^= 1 << random.below(32),
    }
    Some(other)
}
