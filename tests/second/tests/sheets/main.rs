//! Symbol blocks and patch sheets, with the answers worked out by hand from the
//! request.

mod behind;
mod blocks;
mod drawn;
mod expressions;
mod fields;
mod order;
mod windows;

use second::reading::{Loaded, Refusal};
use second::sheets::load_sheet;
use second::symbols::load_behind;

/// Some symbols, and no line end behind the bare `$$`.
const BLOCK: &str = "$$ MAIN\nSTART $100 END $10F\nstart $4 TOP $ffffffff zero $0\n$$";

/// Where the window starts, unless a test is about that; it has 16 cells then.
const BASE: u32 = 0x100;

/// An answer, with memory and marks behind it.
struct Outcome {
    loaded: Loaded,
    memory: Vec<u8>,
    marks: Vec<u8>,
}

impl Outcome {
    /// Number, record and place.
    fn refusal(&self) -> (u32, usize, usize) {
        let Refusal {
            number,
            record,
            place,
            ..
        } = self.loaded.refusal;
        (number, record, place)
    }
}

/// Makes a call with a memory of 0xEE and marks of 7. A refused one must leave the
/// memory, and no mark.
#[track_caller]
fn outcome(length: usize, call: impl Fn(&mut [u8], &mut [u8]) -> Loaded) -> Outcome {
    let mut memory = vec![0xEE; length];
    let mut marks = vec![7; length];
    let loaded = call(&mut memory, &mut marks);
    if loaded.refusal.number != 0 {
        assert!(memory.iter().all(|&byte| byte == 0xEE));
        assert!(marks.iter().all(|&mark| mark == 0));
        assert_eq!((loaded.header_len, loaded.header), (0, [0; 252]));
        assert_eq!((loaded.entry, loaded.records, loaded.cells), (None, 0, 0));
    } else {
        assert_eq!(loaded.refusal, Refusal::default());
        let marked = marks.iter().filter(|&&mark| mark == 1).count();
        assert_eq!(loaded.cells, marked);
        assert!(marks.iter().all(|&mark| mark <= 1));
    }
    Outcome {
        loaded,
        memory,
        marks,
    }
}

#[track_caller]
fn behind_at(text: &[u8], base: u32, length: usize) -> Outcome {
    outcome(length, |memory, marks| {
        load_behind(text, base, memory, marks)
    })
}

/// A sheet has no header, no entry and no checksum to be told.
#[track_caller]
fn sheet_at(text: &[u8], sheet: &[u8], base: u32, length: usize) -> Outcome {
    let outcome = outcome(length, |memory, marks| {
        load_sheet(text, sheet, base, memory, marks)
    });
    let loaded = &outcome.loaded;
    assert_eq!((loaded.header_len, loaded.header), (0, [0; 252]));
    assert_eq!((loaded.entry, loaded.refusal.want), (None, 0));
    outcome
}

/// A sheet with the symbols of `BLOCK`, in the usual window.
#[track_caller]
fn sheet_here(sheet: &[u8]) -> Outcome {
    sheet_at(BLOCK.as_bytes(), sheet, BASE, 16)
}

/// A field, with its length.
fn field(tag: u8, bytes: &[u8]) -> Vec<u8> {
    let length = u16::try_from(bytes.len()).unwrap().to_be_bytes();
    [&[tag], &length[..], bytes].concat()
}

/// A pair of an address and the bytes for it.
fn pair(address: &str, data: &[u8]) -> Vec<u8> {
    [field(1, address.as_bytes()), field(2, data)].concat()
}
