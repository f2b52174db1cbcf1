//! The calls in either form of the marks, for cases that name one.

use crate::overlay::{self, Image, Merged, Title, Word};
use crate::packed;
use crate::parts::{self, State};
use crate::reading::{Loaded, Loader, Writer, Written};

/// What marks are.
#[derive(Clone, Copy, Debug, PartialEq, Eq, PartialOrd, Ord)]
pub enum Form {
    /// A byte for each cell.
    Bytes,
    /// A bit for each cell.
    Packed,
}

pub const FORMS: [Form; 2] = [Form::Bytes, Form::Packed];

impl Form {
    /// How many mark bytes so many cells have.
    pub fn length(self, cells: usize) -> usize {
        match self {
            Form::Bytes => cells,
            Form::Packed => packed::length(cells),
        }
    }

    /// Marks that are given as bytes of 0 and 1.
    pub fn marks(self, marks: Vec<u8>) -> Vec<u8> {
        match self {
            Form::Bytes => marks,
            Form::Packed => packed::pack(&marks),
        }
    }

    pub fn load(
        self,
        loader: Loader,
        text: &[u8],
        base: u32,
        memory: &mut [u8],
        marks: &mut [u8],
    ) -> Loaded {
        match self {
            Form::Bytes => loader(text, base, memory, marks),
            Form::Packed => packed::load(loader, text, base, memory, marks),
        }
    }

    pub fn write(
        self,
        writer: Writer,
        base: u32,
        memory: &[u8],
        marks: &[u8],
        (header, entry): (&[u8], Option<u32>),
        out: &mut [u8],
    ) -> Written {
        match self {
            Form::Bytes => writer(base, memory, marks, header, entry, out),
            Form::Packed => packed::write(writer, base, memory, marks, header, entry, out),
        }
    }

    pub fn begin(self, base: u32, memory: &mut [u8], marks: &mut [u8]) -> State {
        match self {
            Form::Bytes => parts::begin(base, memory, marks),
            Form::Packed => packed::begin(base, memory, marks),
        }
    }

    pub fn feed(
        self,
        state: State,
        part: &[u8],
        base: u32,
        memory: &mut [u8],
        marks: &mut [u8],
    ) -> State {
        match self {
            Form::Bytes => parts::feed(state, part, base, memory, marks),
            Form::Packed => packed::feed(state, part, base, memory, marks),
        }
    }

    pub fn end(
        self,
        state: State,
        base: u32,
        memory: &mut [u8],
        marks: &mut [u8],
    ) -> (Loaded, State) {
        match self {
            Form::Bytes => parts::end(state, base, memory, marks),
            Form::Packed => packed::end(state, base, memory, marks),
        }
    }

    pub fn look<'a>(
        self,
        start: u32,
        base: Image<'a>,
        patch: Image<'a>,
        address: u32,
    ) -> (&'a [u8], Word) {
        match self {
            Form::Bytes => overlay::look(start, base, patch, address),
            Form::Packed => packed::look(start, base, patch, address),
        }
    }

    pub fn merge(
        self,
        start: u32,
        memory: &mut [u8],
        marks: &mut [u8],
        title: &Title,
        patch: Image,
        patch_title: &Title,
    ) -> Merged {
        match self {
            Form::Bytes => overlay::merge(start, memory, marks, title, patch, patch_title),
            Form::Packed => packed::merge(start, memory, marks, title, patch, patch_title),
        }
    }
}
