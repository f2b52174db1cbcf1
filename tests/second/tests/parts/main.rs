//! A load in parts: against the whole load, and by hand where the caller changes
//! something between the calls.

mod agreement;
mod calls;

use second::parts::{begin, end, feed, State};
use second::reading::Loaded;

/// A load in parts with the buffers that are lent to it.
#[derive(Clone)]
struct Bench {
    state: State,
    base: u32,
    memory: Vec<u8>,
    marks: Vec<u8>,
}

impl Bench {
    fn begin(base: u32, mut memory: Vec<u8>, mut marks: Vec<u8>) -> Bench {
        let state = begin(base, &mut memory, &mut marks);
        Bench {
            state,
            base,
            memory,
            marks,
        }
    }

    fn feed(&mut self, part: &[u8]) {
        let state = self.state.clone();
        self.state = feed(state, part, self.base, &mut self.memory, &mut self.marks);
    }

    /// The caller goes on with the state from before the end.
    fn end(&mut self) -> Loaded {
        let state = self.state.clone();
        end(state, self.base, &mut self.memory, &mut self.marks).0
    }
}

/// Number, record and place.
fn refusal(loaded: &Loaded) -> (u32, usize, usize) {
    let refusal = loaded.refusal;
    (refusal.number, refusal.record, refusal.place)
}

/// All but the refusal is zero or absent.
#[track_caller]
fn assert_empty(loaded: &Loaded) {
    assert_eq!((loaded.header_len, loaded.header), (0, [0; 252]));
    assert_eq!((loaded.entry, loaded.records, loaded.cells), (None, 0, 0));
}
