//! A patch laid over a base image: what an address shows, and the two made one.
//!
//! Each cell is asked for by itself, and a run is the longest of all stretches
//! from its start. That is slow, and as near to the request's words as can be.

use crate::reading::{Refusal, HEADER_ROOM};

/// Memory and marks that are lent. Byte i is the cell at the window's start + i.
#[derive(Clone, Copy, Debug)]
pub struct Image<'a> {
    pub memory: &'a [u8],
    pub marks: &'a [u8],
}

impl Image<'_> {
    /// The byte of each marked cell. What unmarked memory holds is not part of it.
    pub fn cells(&self) -> Vec<Option<u8>> {
        let cells = self.memory.iter().zip(self.marks);
        cells.map(|(&b, &m)| (m == 1).then_some(b)).collect()
    }
}

/// What an image has besides its cells.
#[derive(Clone, Debug, Default, PartialEq, Eq)]
pub struct Title {
    pub header: Vec<u8>,
    pub entry: Option<u32>,
}

/// What a look says of its part.
#[derive(Clone, Copy, Debug, PartialEq, Eq)]
pub enum Word {
    Patch,
    Base,
    Neither,
    Refused(Refusal),
}

/// The answer of a merge. Header and entry are empty and absent after a refusal.
#[derive(Clone, Debug, PartialEq, Eq)]
pub struct Merged {
    pub refusal: Refusal,
    pub title: Title,
}

/// Shows the longest run from an address on whose cells all come from the same
/// image, as a part of that image's memory. Both windows start at `start`.
pub fn look<'a>(start: u32, base: Image<'a>, patch: Image<'a>, address: u32) -> (&'a [u8], Word) {
    let nothing = &base.memory[..0];
    if let Some(refusal) = first_row(start, base, patch, &[]) {
        return (nothing, Word::Refused(refusal));
    }
    let length = base.memory.len();
    let is_at = |index: &usize| u64::from(start) + *index as u64 == u64::from(address);
    let Some(first) = (0..length).find(is_at) else {
        return (nothing, Word::Neither);
    };
    let word = source(base, patch, first);
    let alike = |end: &usize| (first..*end).all(|index| source(base, patch, index) == word);
    let longest = (first..=length).rev().find(alike);
    let run = first..longest.unwrap_or(first);
    match word {
        Word::Patch => (&patch.memory[run], word),
        Word::Base => (&base.memory[run], word),
        _ => (nothing, word),
    }
}

/// Which image a cell comes from: the patch where it is marked, else the base.
fn source(base: Image, patch: Image, index: usize) -> Word {
    match (patch.marks[index], base.marks[index]) {
        (1, _) => Word::Patch,
        (_, 1) => Word::Base,
        _ => Word::Neither,
    }
}

/// Merges a patch into the memory and the marks of a base image.
pub fn merge(
    start: u32,
    memory: &mut [u8],
    marks: &mut [u8],
    title: &Title,
    patch: Image,
    patch_title: &Title,
) -> Merged {
    let base = Image { memory, marks };
    let headers = [&title.header[..], &patch_title.header];
    if let Some(refusal) = first_row(start, base, patch, &headers) {
        return Merged {
            refusal,
            title: Title::default(),
        };
    }
    for index in 0..memory.len() {
        if patch.marks[index] == 1 {
            memory[index] = patch.memory[index];
            marks[index] = 1;
        }
    }
    Merged {
        refusal: Refusal::default(),
        title: merged_title(title, patch_title),
    }
}

/// The patch's header wins unless it is empty, and its entry unless it is absent.
fn merged_title(base: &Title, patch: &Title) -> Title {
    let header_wins = !patch.header.is_empty();
    let header = if header_wins { patch } else { base }.header.clone();
    let entry = match patch.entry {
        Some(address) => Some(address),
        None => base.entry,
    };
    Title { header, entry }
}

/// The first row that applies. A look is given no headers.
fn first_row(start: u32, base: Image, patch: Image, headers: &[&[u8]]) -> Option<Refusal> {
    let refused = |number, place| {
        Some(Refusal {
            number,
            place,
            ..Refusal::default()
        })
    };
    if unfit(start, base, patch) {
        return refused(1, 0);
    }
    if headers.iter().any(|header| header.len() > HEADER_ROOM) {
        return refused(15, 0);
    }
    for marks in [base.marks, patch.marks] {
        if let Some(place) = marks.iter().position(|&mark| mark > 1) {
            return refused(16, place);
        }
    }
    None
}

/// Two of the four lengths differ, or the window passes 2^32.
fn unfit(start: u32, base: Image, patch: Image) -> bool {
    let lengths = [base.memory, base.marks, patch.memory, patch.marks].map(<[u8]>::len);
    let differs = |one: &usize| lengths.iter().any(|other| other != one);
    lengths.iter().any(differs) || u64::from(start) + lengths[0] as u64 > 1 << 32
}
