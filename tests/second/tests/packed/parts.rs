//! Loads in parts, and what the caller can change between the calls.

use super::row;
use second::packed::{begin, end, feed};
use second::parts::{Number, State};
use second::reading::{Loaded, Refusal};

const CELL_0: &[u8] = b"S1040000AA51\n";
const CELLS_7_8: &[u8] = b"S1050007AABB8E\n";
const END: &[u8] = b"S9030000FC\n";

/// A load with the buffers that are lent to it.
#[derive(Clone)]
struct Bench {
    state: State,
    base: u32,
    memory: Vec<u8>,
    packed: Vec<u8>,
}

impl Bench {
    fn begin(cells: usize, length: usize) -> Bench {
        let (mut memory, mut packed) = (vec![0xEE; cells], vec![0xFF; length]);
        let state = begin(0, &mut memory, &mut packed);
        Bench {
            state,
            base: 0,
            memory,
            packed,
        }
    }

    fn feed(&mut self, part: &[u8]) {
        let state = self.state.clone();
        self.state = feed(state, part, self.base, &mut self.memory, &mut self.packed);
    }

    fn end(&mut self) -> Loaded {
        let state = self.state.clone();
        let (loaded, state) = end(state, self.base, &mut self.memory, &mut self.packed);
        self.state = state;
        loaded
    }
}

/// Ten cells, fed these parts.
fn fed(parts: &[&[u8]]) -> Bench {
    let mut bench = Bench::begin(10, 2);
    parts.iter().for_each(|part| bench.feed(part));
    bench
}

#[track_caller]
fn assert_accepted(bench: &mut Bench, cells: usize) {
    let loaded = bench.end();
    assert_eq!((loaded.refusal, loaded.cells), (Refusal::default(), cells));
}

#[test]
fn all_bits_are_zero_from_the_beginning() {
    for (cells, length) in [(10, 2), (10, 1), (10, 3), (10, 10), (0, 0), (0, 1)] {
        let mut bench = Bench::begin(cells, length);
        assert_eq!(bench.packed, vec![0; length]);
        let fits = matches!((cells, length), (10, 2) | (0, 0));
        let number = if fits { 14 } else { 1 };
        assert_eq!(bench.end().refusal, row(number, 0));
        assert_eq!(bench.packed, vec![0; length]);
    }
}

#[test]
fn records_show_in_their_bits() {
    let mut bench = fed(&[CELL_0]);
    assert_eq!(bench.packed, [0x01, 0x00]);
    bench.feed(CELLS_7_8);
    assert_eq!(bench.packed, [0x81, 0x01]);
    bench.feed(END);
    assert_accepted(&mut bench, 3);
    assert_eq!(bench.packed, [0x81, 0x01]);
}

/// By every call, also one that completes no record.
#[test]
fn spare_bits_are_cleared_first() {
    for part in [&b""[..], b"S", b"\n", CELLS_7_8] {
        let mut bench = fed(&[CELL_0]);
        bench.packed[1] |= 0xFC;
        bench.feed(part);
        let last = u8::from(part == CELLS_7_8);
        assert_eq!(bench.packed[1], last);
    }
    let mut bench = fed(&[CELL_0, END]);
    bench.packed[1] |= 0x80;
    assert_accepted(&mut bench, 1);
    assert_eq!(bench.packed, [0x01, 0x00]);
}

/// They stand for no cell, so row 13 does not ask for them.
#[test]
fn spare_bits_are_no_marks() {
    let mut bench = fed(&[]);
    bench.packed = vec![0x00, 0xFC];
    bench.feed(b"S1040009BB37\n");
    bench.packed[1] |= 0xFC;
    bench.feed(END);
    assert_accepted(&mut bench, 1);
    assert_eq!(bench.packed, [0x00, 0x02]);
}

#[test]
fn nothing_changes_behind_a_refusal() {
    let mut bench = fed(&[CELL_0, CELL_0]);
    assert_eq!(bench.packed, [0; 2]);
    bench.packed = vec![0x5A, 0xF5];
    bench.feed(END);
    bench.feed(b"");
    let loaded = bench.end();
    assert_eq!((loaded.refusal.number, loaded.cells), (13, 0));
    assert_eq!(bench.packed, [0x5A, 0xF5]);
    // Nor in packed bytes of another length.
    bench.packed = vec![0xFF; 5];
    bench.feed(CELL_0);
    assert_eq!(bench.end().refusal.number, 13);
    assert_eq!(bench.packed, [0xFF; 5]);
}

/// The state's own number goes on with the data bytes.
#[test]
fn cells_are_the_ones_at_the_end() {
    for (packed, cells) in [([0x00, 0x00], 0), ([0x06, 0x02], 3), ([0xFF, 0xFF], 10)] {
        let mut bench = fed(&[CELL_0, END]);
        bench.packed = packed.to_vec();
        assert_accepted(&mut bench, cells);
        assert_eq!(bench.state.number(Number::Cells), 1);
    }
    // The last record belongs to it.
    let mut bench = fed(&[CELL_0, b"\nS9030000FC"]);
    bench.packed[0] = 0x10;
    assert_accepted(&mut bench, 1);
}

#[test]
fn bit_that_was_set_counts_as_addressed() {
    for (packed, refused) in [
        ([0x80, 0x00], true),
        ([0x00, 0x01], true),
        ([0x7F, 0xFE], false),
    ] {
        let mut bench = fed(&[]);
        bench.packed = packed.to_vec();
        bench.feed(CELLS_7_8);
        let number = if refused { 13 } else { 14 };
        assert_eq!(bench.end().refusal.number, number);
        assert_eq!(bench.packed, [0; 2]);
    }
}

#[test]
fn bit_that_was_cleared_lets_a_record_pass() {
    let mut bench = fed(&[CELL_0, CELLS_7_8]);
    bench.packed[0] &= 0xFE;
    bench.feed(CELL_0);
    bench.feed(END);
    assert_eq!(bench.state.number(Number::Cells), 4);
    assert_accepted(&mut bench, 3);
}

/// By the packed length of each call, and by the number of cells at the beginning.
#[test]
fn row_1_in_a_later_call() {
    for (cells, length) in [(10, 1), (10, 3), (10, 10), (9, 2), (11, 2), (8, 1), (0, 0)] {
        for part in [Some(&b""[..]), Some(CELL_0), None] {
            let mut bench = fed(&[CELL_0]);
            bench.memory = vec![0x55; cells];
            bench.packed = vec![0xFF; length];
            if let Some(part) = part {
                bench.feed(part);
                assert_eq!(bench.packed, vec![0; length]);
            }
            assert_eq!(bench.end().refusal, row(1, 0), "{cells} {length}");
            assert_eq!(bench.packed, vec![0; length]);
            assert_eq!(bench.memory, vec![0x55; cells]);
        }
    }
}
