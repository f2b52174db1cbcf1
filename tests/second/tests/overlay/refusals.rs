//! What is refused, in which order, and what is left then.

use super::{row, Both, START};
use second::overlay::{Title, Word};
use second::reading::Refusal;

/// The refusals of a look and a merge. What shows then, and what is left, is
/// always the same.
#[track_caller]
fn assert_refused(both: &Both, look: Option<Refusal>, merge: Refusal) {
    for address in [0, START, both.start, both.start.wrapping_add(2), u32::MAX] {
        let (part, word) = both.look(address);
        let Some(refusal) = look else {
            assert!(!matches!(word, Word::Refused(_)));
            continue;
        };
        assert_eq!((part.len(), word), (0, Word::Refused(refusal)));
        // It is a part of the base. Its end is one past the last byte.
        let base = both.memory.as_ptr_range();
        assert!(base.start <= part.as_ptr() && part.as_ptr() <= base.end);
    }
    let mut behind = both.clone();
    let merged = behind.merge();
    assert_eq!((merged.refusal, merged.title), (merge, Title::default()));
    assert_eq!(behind, *both);
}

fn titled() -> Both {
    Both::of("xx.x", ".xx.").titled((b"A", Some(1)), (b"B", Some(2)))
}

#[test]
fn row_1_when_any_two_lengths_differ() {
    let lengths = 0..4usize.pow(4);
    for lengths in lengths.map(|number| [0, 2, 4, 6].map(|shift| number >> shift & 3)) {
        let mut both = titled();
        both.memory.truncate(lengths[0]);
        both.marks.truncate(lengths[1]);
        both.patch_memory.truncate(lengths[2]);
        both.patch_marks.truncate(lengths[3]);
        if lengths == [lengths[0]; 4] {
            both.accept();
        } else {
            assert_refused(&both, Some(row(1, 0)), row(1, 0));
        }
    }
}

#[test]
fn row_1_when_the_window_is_too_long() {
    for (start, refused) in [
        (0, false),
        (u32::MAX - 4, false),
        (u32::MAX - 3, false),
        (u32::MAX - 2, true),
        (u32::MAX, true),
    ] {
        let mut both = titled();
        both.start = start;
        if refused {
            assert_refused(&both, Some(row(1, 0)), row(1, 0));
        } else {
            both.accept();
        }
    }
}

/// Looks do not ask for headers.
#[test]
fn row_15_for_either_header() {
    let long = [7; 253];
    for (base, patch) in [
        (&long[..], &b""[..]),
        (b"", &long),
        (&long, b"B"),
        (b"A", &long),
    ] {
        let both = titled().titled((base, Some(1)), (patch, Some(2)));
        assert_refused(&both, None, row(15, 0));
    }
    let (longer, longest) = ([7; 254], [7; 300]);
    let both = titled().titled((&longer, None), (&longest, None));
    assert_refused(&both, None, row(15, 0));
    titled()
        .titled((&long[..252], None), (&long[..252], None))
        .accept();
}

#[test]
fn row_16_for_every_mark_but_0_and_1() {
    for mark in 2..=255 {
        for index in 0..4 {
            let mut both = titled();
            both.marks[index] = mark;
            assert_refused(&both, Some(row(16, index)), row(16, index));
            let mut both = titled();
            both.patch_marks[index] = mark;
            assert_refused(&both, Some(row(16, index)), row(16, index));
        }
    }
}

/// The first bad mark of the base, and of the patch if the base has none.
#[test]
fn row_16_takes_base_marks_first() {
    for (base, patch, place) in [
        ([0, 2, 0, 3], [0, 0, 0, 0], 1),
        ([0, 0, 0, 0], [1, 1, 255, 2], 2),
        ([0, 0, 0, 2], [2, 0, 0, 0], 3),
        ([2, 0, 0, 0], [0, 0, 0, 2], 0),
        ([0, 0, 2, 0], [0, 0, 2, 0], 2),
    ] {
        let mut both = titled();
        (both.marks, both.patch_marks) = (base.to_vec(), patch.to_vec());
        assert_refused(&both, Some(row(16, place)), row(16, place));
    }
}

/// Both rows apply, and the lower one is given; a look skips row 15.
#[test]
fn rows_in_order() {
    let long = [7; 253];
    let bad = |mut both: Both| {
        both.marks[2] = 2;
        both
    };
    let long = |both: Both| both.titled((b"A", Some(1)), (&long, Some(2)));
    let shorter = |mut both: Both| {
        both.patch_marks.pop();
        both
    };
    let past = |mut both: Both| {
        both.start = u32::MAX;
        both
    };
    assert_refused(&bad(titled()), Some(row(16, 2)), row(16, 2));
    assert_refused(&long(titled()), None, row(15, 0));
    assert_refused(&bad(long(titled())), Some(row(16, 2)), row(15, 0));
    for unfit in [shorter(titled()), past(titled())] {
        assert_refused(&bad(unfit.clone()), Some(row(1, 0)), row(1, 0));
        assert_refused(&long(unfit.clone()), Some(row(1, 0)), row(1, 0));
        assert_refused(&bad(long(unfit)), Some(row(1, 0)), row(1, 0));
    }
}

/// A merge behind a refused one goes by what stood before.
#[test]
fn refused_merge_changes_nothing() {
    let mut both = titled();
    both.patch_marks[3] = 9;
    assert_eq!(both.merge().refusal, row(16, 3));
    both.patch_marks[3] = 0;
    both.patch_title = Title::default();
    both.accept();
    assert_eq!(both.memory, [0x10, 0xA1, 0xA2, 0x13]);
    assert_eq!(both.marks, [1, 1, 1, 1]);
    assert_eq!(
        (&both.title.header[..], both.title.entry),
        (&b"A"[..], Some(1))
    );
}
