//! What an address shows.

use super::{all_marks, Both, START};
use second::overlay::Word::{self, Base, Neither, Patch};

/// Looks at every cell of the window.
#[track_caller]
fn assert_shown(base: &str, patch: &str, wanted: &[(&[u8], Word)]) {
    let both = Both::of(base, patch);
    let shown: Vec<(&[u8], Word)> = (0..base.len()).map(|index| both.at(index)).collect();
    assert_eq!(shown, wanted);
}

#[test]
fn patch_where_it_is_marked_else_base() {
    assert_shown(
        "xx..",
        "x.x.",
        &[
            (&[0xA0], Patch),
            (&[0x11], Base),
            (&[0xA2], Patch),
            (&[], Neither),
        ],
    );
}

#[test]
fn base_run_ends_at_a_patch_cell() {
    assert_shown(
        "xxxx",
        "..x.",
        &[
            (&[0x10, 0x11], Base),
            (&[0x11], Base),
            (&[0xA2], Patch),
            (&[0x13], Base),
        ],
    );
    // Whether the base holds that cell makes no difference.
    assert_shown(
        "xx.x",
        "..x.",
        &[
            (&[0x10, 0x11], Base),
            (&[0x11], Base),
            (&[0xA2], Patch),
            (&[0x13], Base),
        ],
    );
}

#[test]
fn base_run_ends_at_an_unmarked_cell_or_the_end() {
    assert_shown(
        "xx.xx",
        ".....",
        &[
            (&[0x10, 0x11], Base),
            (&[0x11], Base),
            (&[], Neither),
            (&[0x13, 0x14], Base),
            (&[0x14], Base),
        ],
    );
}

/// Whether the base holds the cells under a patch run makes no difference either.
#[test]
fn patch_run_ends_at_an_unmarked_cell_or_the_end() {
    assert_shown(
        "x.x..x",
        "xxx.xx",
        &[
            (&[0xA0, 0xA1, 0xA2], Patch),
            (&[0xA1, 0xA2], Patch),
            (&[0xA2], Patch),
            (&[], Neither),
            (&[0xA4, 0xA5], Patch),
            (&[0xA5], Patch),
        ],
    );
    assert_shown(
        "xxx",
        "xx.",
        &[(&[0xA0, 0xA1], Patch), (&[0xA1], Patch), (&[0x12], Base)],
    );
}

#[test]
fn equal_bytes_do_not_join_the_images() {
    let mut both = Both::of("xxxx", ".xx.");
    both.patch_memory = both.memory.clone();
    assert_eq!(both.at(0), (&[0x10][..], Base));
    assert_eq!(both.at(1), (&[0x11, 0x12][..], Patch));
    assert_eq!(both.at(3), (&[0x13][..], Base));
}

#[test]
fn part_is_of_the_lent_memory_itself() {
    let both = Both::of("xxxx.", "..xx.");
    let same = |part: &[u8], wanted: &[u8]| std::ptr::eq(part, wanted);
    assert!(same(both.at(1).0, &both.memory[1..2]));
    assert!(same(both.at(2).0, &both.patch_memory[2..4]));
    // An empty part is one of the base, too.
    let (part, word) = both.at(4);
    assert_eq!((part.len(), word), (0, Neither));
    assert!(both.memory.as_ptr_range().contains(&part.as_ptr()));
}

#[test]
fn outside_of_the_window() {
    for both in [Both::of("xxx", "..."), Both::of("...", "xxx")] {
        let outside = [0, START - 1, START + 3, START + 4, START + 0x1_0000];
        for address in outside.into_iter().chain([u32::MAX]) {
            let (part, word) = both.look(address);
            assert_eq!((part.len(), word), (0, Neither), "{address}");
            assert!(both.memory.as_ptr_range().contains(&part.as_ptr()));
        }
        for (address, length) in [(START, 3), (START + 2, 1)] {
            assert_eq!(both.look(address).0.len(), length);
        }
    }
}

#[test]
fn window_without_cells() {
    for start in [0, START, u32::MAX] {
        let mut both = Both::of("", "");
        both.start = start;
        for address in [0, START, u32::MAX] {
            assert_eq!(both.look(address), (&[][..], Neither));
        }
    }
}

/// The cells behind the last address are not the first ones.
#[test]
fn window_at_either_end_of_the_addresses() {
    let mut both = Both::of("xx.", "..x");
    both.start = u32::MAX - 2;
    assert_eq!(both.look(u32::MAX - 3), (&[][..], Neither));
    assert_eq!(both.look(u32::MAX - 2), (&[0x10, 0x11][..], Base));
    assert_eq!(both.look(u32::MAX), (&[0xA2][..], Patch));
    assert_eq!(both.look(0), (&[][..], Neither));
    both.start = 0;
    assert_eq!(both.look(u32::MAX), (&[][..], Neither));
    assert_eq!(both.look(0), (&[0x10, 0x11][..], Base));
    assert_eq!(both.look(2), (&[0xA2][..], Patch));
    assert_eq!(both.look(3), (&[][..], Neither));
}

/// The length of the run by where it ends, and its word.
fn run(both: &Both, index: usize) -> (usize, Word) {
    let patch = |index: usize| both.patch_marks[index] == 1;
    let base = |index: usize| both.marks[index] == 1 && !patch(index);
    let length = |ends: &dyn Fn(usize) -> bool| {
        let end = (index..both.memory.len()).find(|&index| ends(index));
        end.unwrap_or(both.memory.len()) - index
    };
    if patch(index) {
        (length(&|index| !patch(index)), Patch)
    } else if base(index) {
        (length(&|index| !base(index)), Base)
    } else {
        (0, Neither)
    }
}

#[test]
fn all_marks_of_small_windows() {
    for both in (0..=5).flat_map(all_marks) {
        for index in 0..both.memory.len() {
            let (length, word) = run(&both, index);
            let memory = if word == Patch {
                &both.patch_memory
            } else {
                &both.memory
            };
            let wanted = &memory[index..index + length];
            assert_eq!(both.at(index), (wanted, word), "{both:?}");
        }
    }
}
