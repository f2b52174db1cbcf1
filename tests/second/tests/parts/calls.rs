//! What the caller can change between the calls, with the answers worked out by
//! hand from the rules.

use super::{assert_empty, refusal, Bench};
use second::parts::MOST;
use second::reading::{Loaded, Refusal};

const CELL_0: &[u8] = b"S1040000AA51\n";
const CELL_1: &[u8] = b"S1040001BB3F\n";
const END: &[u8] = b"S9030000FC\n";

/// Four cells of 0xEE from 0 on, with marks of 7 before the beginning.
fn begun() -> Bench {
    Bench::begin(0, vec![0xEE; 4], vec![7; 4])
}

fn fed(parts: &[&[u8]]) -> Bench {
    let mut bench = begun();
    parts.iter().for_each(|part| bench.feed(part));
    bench
}

#[track_caller]
fn assert_refused(bench: &mut Bench, wanted: (u32, usize, usize)) -> Loaded {
    let loaded = bench.end();
    assert_eq!(refusal(&loaded), wanted);
    assert_empty(&loaded);
    loaded
}

/// Records, cells and entry of an accepted load.
#[track_caller]
fn counts(bench: &mut Bench) -> (usize, usize, Option<u32>) {
    let loaded = bench.end();
    assert_eq!(loaded.refusal, Refusal::default());
    (loaded.records, loaded.cells, loaded.entry)
}

#[test]
fn marks_are_zero_from_the_beginning() {
    assert_eq!(begun().marks, [0; 4]);
    assert_eq!(begun().memory, [0xEE; 4]);
    assert_refused(&mut begun(), (14, 0, 0));
    for (base, marks) in [(0, 3), (0, 5), (0, 0), (0xFFFF_FFFD, 4)] {
        let mut bench = Bench::begin(base, vec![0xEE; 4], vec![7; marks]);
        assert_eq!(bench.marks, vec![0; marks]);
        bench.feed(END);
        assert_refused(&mut bench, (1, 0, 0));
        assert_eq!(bench.memory, [0xEE; 4]);
    }
    // Up to the top is not past it.
    let mut bench = Bench::begin(0xFFFF_FFFC, vec![0xEE; 4], vec![7; 4]);
    bench.feed(END);
    assert_eq!(counts(&mut bench), (0, 0, Some(0)));
}

#[test]
fn record_is_read_at_its_line_end() {
    let mut bench = fed(&[b"S1040000AA5"]);
    for (part, memory, mark) in [(&b"1"[..], 0xEE, 0), (b"", 0xEE, 0), (b"\r", 0xAA, 1)] {
        bench.feed(part);
        assert_eq!((bench.memory[0], bench.marks[0]), (memory, mark));
    }
    bench.feed(b"\nS9030000FC");
    assert_eq!(counts(&mut bench), (1, 1, Some(0)));
}

#[track_caller]
fn told_at_the_line_end(parts: &[&[u8]], wanted: (u32, usize, usize)) {
    let mut bench = fed(parts);
    assert_eq!((bench.memory[0], bench.marks[0]), (0xAA, 1));
    assert_refused(&mut bench.clone(), wanted);
    bench.feed(b"\n");
    assert_eq!((bench.memory[0], bench.marks[0]), (0xAA, 0));
    assert_refused(&mut bench, wanted);
}

/// Rows 2 and 3 can be known before the line end, but are not told then.
#[test]
fn refusal_is_told_at_the_line_end() {
    told_at_the_line_end(&[CELL_0, END, b"x"], (2, 3, 24));
    told_at_the_line_end(&[CELL_0, &[b'0'; 600]], (3, 2, 13));
    told_at_the_line_end(&[CELL_0, b"X"], (4, 2, 13));
}

#[test]
fn right_checksum_is_kept() {
    let mut bench = fed(&[CELL_0, b"S1040001BB3E\n", END]);
    let loaded = assert_refused(&mut bench, (7, 2, 13));
    assert_eq!(loaded.refusal.want, 0x3F);
    let loaded = assert_refused(&mut fed(&[b"S9030000FD"]), (7, 1, 0));
    assert_eq!(loaded.refusal.want, 0xFC);
}

/// Lends a window of other lengths or base in a later call.
fn lend(bench: &mut Bench, base: u32, memory: usize, marks: usize) {
    bench.base = base;
    bench.memory = vec![0x55; memory];
    bench.marks = vec![9; marks];
}

/// Base and lengths that row 1 refuses once four cells were lent. Some of them
/// are allowed windows in themselves.
const UNFIT: [(u32, usize, usize); 9] = [
    (0, 5, 5),
    (0, 3, 3),
    (0, 0, 0),
    (0, 4, 3),
    (0, 4, 5),
    (0, 3, 4),
    (0, 5, 4),
    (0xFFFF_FFFD, 4, 4),
    (0xFFFF_FFFF, 9, 2),
];

#[test]
fn other_lengths_in_a_later_call() {
    for (base, memory, marks) in UNFIT {
        for part in [Some(&b""[..]), Some(CELL_1), Some(b"x\n"), None] {
            let mut bench = fed(&[CELL_0, END]);
            assert_eq!((bench.memory[0], bench.marks[0]), (0xAA, 1));
            lend(&mut bench, base, memory, marks);
            if let Some(part) = part {
                bench.feed(part);
                assert_eq!(bench.marks, vec![0; marks]);
            }
            assert_refused(&mut bench, (1, 0, 0));
            assert_eq!(bench.marks, vec![0; marks]);
            assert_eq!(bench.memory, vec![0x55; memory]);
        }
    }
}

/// The refusal stays when the first buffers are lent again.
#[test]
fn lengths_that_come_back() {
    let mut bench = fed(&[CELL_0]);
    let (memory, marks) = (bench.memory.clone(), bench.marks.clone());
    lend(&mut bench, 0, 5, 5);
    bench.feed(b"");
    (bench.memory, bench.marks) = (memory.clone(), marks.clone());
    bench.feed(CELL_1);
    bench.feed(END);
    assert_refused(&mut bench, (1, 0, 0));
    assert_eq!((bench.memory, bench.marks), (memory, marks));
}

/// Row 1 does not take the place of a refusal that was given before.
#[test]
fn other_lengths_behind_a_refusal() {
    let mut bench = fed(&[CELL_0, CELL_0]);
    lend(&mut bench, 0, 3, 5);
    bench.feed(END);
    assert_refused(&mut bench, (13, 2, 13));
    assert_eq!((bench.memory, bench.marks), (vec![0x55; 3], vec![9; 5]));
}

/// Other buffers of the same lengths are a window like the first.
#[test]
fn other_buffers_of_the_same_lengths() {
    let mut bench = fed(&[CELL_0]);
    lend(&mut bench, 0, 4, 4);
    bench.marks = vec![0; 4];
    bench.feed(CELL_0);
    bench.feed(END);
    assert_eq!(counts(&mut bench), (2, 2, Some(0)));
    assert_eq!((bench.memory[0], bench.marks[0]), (0xAA, 1));
}

/// A record goes by the base of the call that reads it.
#[test]
fn other_base_in_a_later_call() {
    let mut bench = fed(&[b"S1040000AA51"]);
    bench.base = 1;
    bench.feed(b"\n");
    assert_refused(&mut bench, (12, 1, 0));
    let mut bench = fed(&[CELL_0, b"S1040001BB3F"]);
    bench.base = 1;
    bench.marks[0] = 0;
    bench.feed(b"\n");
    bench.feed(END);
    assert_eq!(counts(&mut bench), (2, 2, Some(0)));
    assert_eq!(bench.memory, [0xBB, 0xEE, 0xEE, 0xEE]);
    assert_eq!(bench.marks, [1, 0, 0, 0]);
}

#[test]
fn mark_that_was_set_counts_as_addressed() {
    for mark in [1, 2, 255] {
        let mut bench = fed(&[CELL_0]);
        bench.marks[1] = mark;
        bench.feed(CELL_1);
        assert_eq!(bench.marks, [0; 4]);
        assert_eq!(bench.memory, [0xAA, 0xEE, 0xEE, 0xEE]);
        assert_refused(&mut bench, (13, 2, 13));
        // Also in the call that ends the load.
        let mut bench = fed(&[END.strip_suffix(b"\n").unwrap()]);
        bench.marks.fill(mark);
        assert_eq!(counts(&mut bench), (0, 0, Some(0)));
        assert_eq!(bench.marks, [mark; 4]);
        let mut bench = fed(&[b"S1040000AA51"]);
        bench.marks[0] = mark;
        assert_refused(&mut bench, (13, 1, 0));
        assert_eq!(bench.memory, [0xEE; 4]);
    }
}

/// A record without data asks for no mark.
#[test]
fn marks_stay_where_no_record_writes() {
    let mut bench = fed(&[CELL_0]);
    bench.marks = vec![2, 0, 255, 1];
    bench.feed(CELL_1);
    bench.feed(b"S1030002FA\n");
    bench.feed(END);
    assert_eq!(counts(&mut bench), (3, 2, Some(0)));
    assert_eq!(bench.marks, [2, 1, 255, 1]);
    assert_eq!(bench.memory, [0xAA, 0xBB, 0xEE, 0xEE]);
}

/// The cells are the sum of the data bytes, so this cell counts twice.
#[test]
fn mark_that_was_cleared_lets_a_record_pass() {
    let mut bench = fed(&[CELL_0]);
    bench.marks[0] = 0;
    bench.feed(b"S1040000CC2F\nS5030002FA\n");
    bench.feed(END);
    bench.marks[0] = 0;
    assert_eq!(counts(&mut bench), (2, 2, Some(0)));
    assert_eq!(bench.memory, [0xCC, 0xEE, 0xEE, 0xEE]);
    assert_eq!(bench.marks, [0; 4]);
}

/// A state that the caller still has is as good behind the end as before it.
#[test]
fn calls_behind_the_end() {
    let mut bench = fed(&[CELL_0, b"S9030000FC"]);
    let first = bench.end();
    assert_eq!(bench.end(), first);
    assert_eq!(counts(&mut bench), (1, 1, Some(0)));
    bench.feed(b"\nx");
    assert_refused(&mut bench, (2, 3, 24));
    assert_eq!(bench.marks, [0; 4]);
    // The end has stored the last record and cleared its mark, and the state from
    // before the end reads it again.
    let mut bench = fed(&[b"S1040000AA51"]);
    assert_refused(&mut bench, (14, 1, 12));
    assert_eq!((bench.memory[0], bench.marks[0]), (0xAA, 0));
    bench.feed(b"\n");
    bench.feed(END);
    assert_eq!(counts(&mut bench), (1, 1, Some(0)));
}

/// One record, and line ends up to so many characters below the most.
fn nearly_full(below: usize) -> Bench {
    let mut bench = fed(&[b"S0030000FC\n", CELL_0]);
    bench.state = bench.state.behind_line_ends(MOST - below - 24);
    bench
}

/// Row 20 is tested with a total that is set, as if so many line ends were fed.
/// Here that is the same.
#[test]
fn total_that_is_set() {
    for number in [0, 1, 2, 1_000] {
        for mut bench in [begun(), fed(&[CELL_0]), fed(&[CELL_0, END])] {
            let wanted = bench.state.clone().behind_line_ends(number);
            bench.feed(&vec![b'\n'; number]);
            assert_eq!(bench.state, wanted);
        }
    }
}

#[test]
fn total_of_the_most_characters() {
    assert_eq!(MOST, 0xFFFF_FFFF);
    let mut bench = nearly_full(END.len());
    bench.feed(END);
    bench.feed(b"");
    assert_eq!(counts(&mut bench), (1, 1, Some(0)));
    // No terminator: the place is the total.
    assert_refused(&mut nearly_full(0), (14, 2, MOST));
    // A record that is refused at the very end.
    let mut bench = nearly_full(4);
    bench.feed(b"S1x");
    bench.feed(b"y");
    assert_refused(&mut bench, (5, 3, MOST - 2));
}

#[test]
fn part_past_the_most_characters() {
    for (below, part) in [(0, &b"\n"[..]), (12, CELL_1), (5, CELL_1), (3, b"xxxx")] {
        let mut bench = nearly_full(below);
        assert_eq!(bench.marks, [1, 0, 0, 0]);
        bench.feed(part);
        assert_eq!(bench.marks, [0; 4]);
        assert_eq!(bench.memory, [0xAA, 0xEE, 0xEE, 0xEE]);
        bench.feed(b"");
        assert_refused(&mut bench, (20, 2, MOST - below));
    }
}

/// A record whose line end has not come is not complete, and no row asks for it.
#[test]
fn part_too_long_inside_a_record() {
    let mut bench = nearly_full(15);
    bench.feed(b"S1040001BB3F");
    bench.feed(b"\n123");
    assert_refused(&mut bench, (20, 2, MOST - 3));
    assert_eq!(bench.memory, [0xAA, 0xEE, 0xEE, 0xEE]);
    let mut bench = nearly_full(15);
    bench.feed(b"xxxxxxxxxxxx");
    bench.feed(b"\n123");
    assert_refused(&mut bench, (20, 2, MOST - 3));
}

/// Row 1 comes first, and a refusal that was given stays.
#[test]
fn part_too_long_and_other_rows() {
    let mut bench = nearly_full(0);
    lend(&mut bench, 0, 5, 5);
    bench.feed(b"x");
    assert_refused(&mut bench, (1, 0, 0));
    let mut bench = nearly_full(2);
    bench.feed(b"x\n");
    bench.feed(b"x\n");
    assert_refused(&mut bench, (4, 3, MOST - 2));
    // The part's own rows come behind it.
    let mut bench = nearly_full(2);
    bench.feed(b"x\n\n");
    assert_refused(&mut bench, (20, 2, MOST - 2));
    // Nor does row 1 take the place of row 20.
    lend(&mut bench, 0, 5, 5);
    bench.feed(b"");
    assert_refused(&mut bench, (20, 2, MOST - 2));
    assert_eq!(bench.marks, [9; 5]);
}
