//! What a merge leaves and answers.

use super::{all_marks, bytes, marks, Both, START};
use second::overlay::{Title, Word};
use second::reading::Refusal;

/// The base's memory and marks behind a merge.
#[track_caller]
fn assert_left(base: &str, patch: &str, memory: &[u8], left: &str) {
    let mut both = Both::of(base, patch);
    both.accept();
    assert_eq!((&both.memory[..], both.marks), (memory, marks(left)));
}

#[test]
fn patch_cells_win() {
    assert_left("xxxx", ".xx.", &[0x10, 0xA1, 0xA2, 0x13], "xxxx");
    assert_left("....", ".xx.", &[0x10, 0xA1, 0xA2, 0x13], ".xx.");
    assert_left("x..x", "xx..", &[0xA0, 0xA1, 0x12, 0x13], "xx.x");
    assert_left("....", "xxxx", &[0xA0, 0xA1, 0xA2, 0xA3], "xxxx");
}

/// Unmarked bytes of the base stay, and those of the patch are not copied.
#[test]
fn other_bytes_and_marks_stay() {
    assert_left("xxxx", "....", &[0x10, 0x11, 0x12, 0x13], "xxxx");
    assert_left("x..x", "....", &[0x10, 0x11, 0x12, 0x13], "x..x");
    assert_left("....", "....", &[0x10, 0x11, 0x12, 0x13], "....");
    assert_left("", "", &[], "");
}

#[test]
fn all_marks_of_small_windows() {
    for both in (0..=5).flat_map(all_marks) {
        let mut merged = both.clone();
        merged.accept();
        for index in 0..both.memory.len() {
            let wanted = match (both.patch_marks[index], both.marks[index]) {
                (1, _) => (both.patch_memory[index], 1),
                (_, mark) => (both.memory[index], mark),
            };
            assert_eq!((merged.memory[index], merged.marks[index]), wanted);
        }
        assert_eq!(merged.patch_memory, both.patch_memory);
        assert_eq!(merged.patch_marks, both.patch_marks);
    }
}

/// Parts one behind the other, or the next cell where one is empty, are the cells
/// of the merged image.
#[test]
fn looks_walk_over_the_merged_image() {
    for both in (0..=5).flat_map(all_marks) {
        let mut merged = both.clone();
        merged.accept();
        let mut shown = vec![None; both.memory.len()];
        let mut index = 0;
        while index < both.memory.len() {
            let (part, word) = both.at(index);
            assert_eq!(part.is_empty(), word == Word::Neither);
            for (cell, &byte) in shown[index..].iter_mut().zip(part) {
                *cell = Some(byte);
            }
            index += part.len().max(1);
        }
        let cells = merged.memory.iter().zip(&merged.marks);
        let cells: Vec<Option<u8>> = cells.map(|(&b, &m)| (m == 1).then_some(b)).collect();
        assert_eq!(shown, cells);
    }
}

/// Header and entry of a merge, whatever the marks are.
#[track_caller]
fn assert_title(
    base: (&[u8], Option<u32>),
    patch: (&[u8], Option<u32>),
    wanted: (&[u8], Option<u32>),
) {
    for (base_marks, patch_marks) in [("xx", ".x"), ("..", "..")] {
        let mut both = Both::of(base_marks, patch_marks).titled(base, patch);
        let merged = both.merge();
        assert_eq!(merged.refusal, Refusal::default());
        let Title { header, entry } = merged.title;
        assert_eq!((&header[..], entry), wanted);
    }
}

#[test]
fn patch_header_wins_unless_it_is_empty() {
    assert_title((b"AB", None), (b"C", None), (b"C", None));
    assert_title((b"AB", None), (b"", None), (b"AB", None));
    assert_title((b"", None), (b"C", None), (b"C", None));
    assert_title((b"", None), (b"", None), (b"", None));
    // Zeros are header bytes.
    assert_title((b"AB", None), (b"\0\0", None), (b"\0\0", None));
    assert_title((b"AB\0", None), (b"", None), (b"AB\0", None));
}

#[test]
fn patch_entry_wins_unless_it_is_absent() {
    assert_title((b"", Some(1)), (b"", Some(2)), (b"", Some(2)));
    assert_title((b"", Some(1)), (b"", None), (b"", Some(1)));
    assert_title((b"", None), (b"", Some(2)), (b"", Some(2)));
    assert_title((b"", None), (b"", None), (b"", None));
    // 0 is an entry like others.
    assert_title((b"", Some(1)), (b"", Some(0)), (b"", Some(0)));
    assert_title((b"", Some(0)), (b"", None), (b"", Some(0)));
}

#[test]
fn header_and_entry_go_by_themselves() {
    assert_title((b"A", Some(1)), (b"B", None), (b"B", Some(1)));
    assert_title((b"A", Some(1)), (b"", Some(2)), (b"A", Some(2)));
    assert_title((b"A", None), (b"B", Some(2)), (b"B", Some(2)));
    assert_title((b"", Some(1)), (b"B", Some(2)), (b"B", Some(2)));
}

#[test]
fn headers_of_252_bytes() {
    let (one, two) = (&[1; 252], &[2; 252]);
    assert_title((one, None), (b"", None), (one, None));
    assert_title((b"A", None), (two, None), (two, None));
    assert_title((one, None), (two, None), (two, None));
}

#[test]
fn three_patches_one_after_the_other() {
    let mut both = Both::of("xx..", ".xx.").titled((b"A", None), (b"B", Some(2)));
    both.accept();
    assert_eq!(both.memory, [0x10, 0xA1, 0xA2, 0x13]);
    (both.patch_memory, both.patch_marks) = (bytes(0xB0, 4), marks("x.xx"));
    both = both.clone().titled((b"B", Some(2)), (b"", Some(3)));
    both.accept();
    assert_eq!(both.memory, [0xB0, 0xA1, 0xB2, 0xB3]);
    (both.patch_memory, both.patch_marks) = (bytes(0xC0, 4), marks("...x"));
    both.patch_title = Title {
        header: b"CD\0".to_vec(),
        entry: None,
    };
    both.accept();
    assert_eq!(both.memory, [0xB0, 0xA1, 0xB2, 0xC3]);
    assert_eq!(both.marks, [1; 4]);
    let wanted = (&b"CD\0"[..], Some(3));
    assert_eq!((&both.title.header[..], both.title.entry), wanted);
}

#[test]
fn window_at_either_end_of_the_addresses() {
    for start in [0, START, u32::MAX - 1] {
        let mut both = Both::of("x.", ".x");
        both.start = start;
        both.accept();
        assert_eq!((both.memory, both.marks), (vec![0x10, 0xA1], vec![1, 1]));
    }
}
