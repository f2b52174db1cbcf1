//! Texts and windows, with the answers worked out by hand from the rules.

mod published;
mod records;
mod tapes;

use second::reading::{Loaded, Loader, Refusal, Written};

struct Outcome {
    loaded: Loaded,
    memory: Vec<u8>,
    marks: Vec<u8>,
}

impl Outcome {
    /// Number, record and place.
    fn refusal(&self) -> (u32, usize, usize) {
        let refusal = self.loaded.refusal;
        (refusal.number, refusal.record, refusal.place)
    }

    fn header(&self) -> &[u8] {
        &self.loaded.header[..self.loaded.header_len]
    }

    /// Record count, cell count and entry.
    fn counts(&self) -> (usize, usize, Option<u32>) {
        (self.loaded.records, self.loaded.cells, self.loaded.entry)
    }
}

/// Loads into a memory of 0xEE with marks of 7.
#[track_caller]
fn load_at(load: Loader, text: &str, base: u32, length: usize) -> Outcome {
    let mut memory = vec![0xEE; length];
    let mut marks = vec![7; length];
    let loaded = load(text.as_bytes(), base, &mut memory, &mut marks);
    if loaded.refusal.number != 0 {
        assert!(memory.iter().all(|&byte| byte == 0xEE));
        assert!(marks.iter().all(|&mark| mark == 0));
        assert_eq!((loaded.header_len, loaded.header), (0, [0; 252]));
        assert_eq!((loaded.entry, loaded.records, loaded.cells), (None, 0, 0));
    }
    if loaded.refusal.number != 7 {
        assert_eq!(loaded.refusal.want, 0);
    }
    Outcome {
        loaded,
        memory,
        marks,
    }
}

/// A window whose marks are of another length, whatever the text is.
#[track_caller]
fn unequal_marks_are_refused(load: Loader, text: &str) {
    let mut memory = [5; 2];
    let mut marks = [5; 3];
    let loaded = load(text.as_bytes(), 0, &mut memory, &mut marks);
    assert_eq!((loaded.refusal.number, loaded.refusal.record), (1, 0));
    assert_eq!((memory, marks), ([5; 2], [0; 3]));
}

/// What the writer answers for a refusal.
fn unwritten(number: u32, place: usize) -> Written {
    Written {
        refusal: Refusal {
            number,
            record: 0,
            place,
            want: 0,
        },
        length: 0,
    }
}
