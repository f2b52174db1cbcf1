//! Patches over a base image.

use super::row;
use second::overlay::{Image, Merged, Title, Word};
use second::packed::{look, merge};
use second::reading::Refusal;

/// Both images with buffers of their own: bytes 10 and so on, A0 and so on.
#[derive(Clone, Debug, PartialEq, Eq)]
struct Both {
    start: u32,
    memory: Vec<u8>,
    packed: Vec<u8>,
    patch_memory: Vec<u8>,
    patch_packed: Vec<u8>,
    header: Vec<u8>,
}

impl Both {
    fn of(cells: u8, packed: &[u8], patch: &[u8]) -> Both {
        Both {
            start: 0x100,
            memory: (0x10..0x10 + cells).collect(),
            packed: packed.to_vec(),
            patch_memory: (0xA0..0xA0 + cells).collect(),
            patch_packed: patch.to_vec(),
            header: Vec::new(),
        }
    }

    fn at(&self, index: u32) -> (&[u8], Word) {
        let base = Image {
            memory: &self.memory,
            marks: &self.packed,
        };
        let patch = Image {
            memory: &self.patch_memory,
            marks: &self.patch_packed,
        };
        look(self.start, base, patch, self.start.wrapping_add(index))
    }

    fn merge(&mut self) -> Merged {
        let patch = Image {
            memory: &self.patch_memory,
            marks: &self.patch_packed,
        };
        let title = Title {
            header: self.header.clone(),
            entry: Some(1),
        };
        let (memory, packed) = (&mut self.memory, &mut self.packed);
        merge(self.start, memory, packed, &title, patch, &Title::default())
    }
}

/// The look at each of some addresses, in the window and outside, and the merge.
#[track_caller]
fn assert_refused(both: &Both, shown: Refusal, merged: Refusal) {
    for index in [0, 5, u32::MAX, 99] {
        let (part, word) = both.at(index);
        assert_eq!((part, word), (&[][..], Word::Refused(shown)));
    }
    let mut behind = both.clone();
    let answer = behind.merge();
    assert_eq!((answer.refusal, answer.title), (merged, Title::default()));
    assert_eq!(behind, *both);
}

/// Base cells 6 to 9, patch cells 7 and 8: each run goes across two bytes or up to
/// the last bit of one.
#[test]
fn runs_across_bytes() {
    let mut both = Both::of(10, &[0xC0, 0x03], &[0x80, 0x01]);
    assert_eq!(both.at(5), (&[][..], Word::Neither));
    assert_eq!(both.at(6), (&[0x16][..], Word::Base));
    assert_eq!(both.at(7), (&[0xA7, 0xA8][..], Word::Patch));
    assert_eq!(both.at(8), (&[0xA8][..], Word::Patch));
    assert_eq!(both.at(9), (&[0x19][..], Word::Base));
    assert_eq!(both.at(10), (&[][..], Word::Neither));
    assert_eq!(both.merge().refusal, Refusal::default());
    assert_eq!(both.packed, [0xC0, 0x03]);
    assert_eq!(both.memory[6..], [0x16, 0xA7, 0xA8, 0x19]);
    let both = Both::of(10, &[0xFF, 0x03], &[0x00, 0x00]);
    assert_eq!(both.at(1), (&both.memory[1..], Word::Base));
}

#[test]
fn part_is_of_the_lent_memory_itself() {
    let both = Both::of(10, &[0xC0, 0x03], &[0x80, 0x01]);
    assert!(std::ptr::eq(both.at(7).0, &both.patch_memory[7..9]));
    assert!(std::ptr::eq(both.at(9).0, &both.memory[9..10]));
    let part = both.at(0).0;
    assert!(both.memory.as_ptr_range().contains(&part.as_ptr()));
}

#[test]
fn bits_are_joined() {
    let mut both = Both::of(17, &[0x01, 0x80, 0x00], &[0x81, 0x01, 0x01]);
    let merged = both.merge();
    assert_eq!(
        (merged.refusal, merged.title.entry),
        (Refusal::default(), Some(1))
    );
    assert_eq!(both.packed, [0x81, 0x81, 0x01]);
    let changed: Vec<u8> = both.memory.iter().copied().filter(|&b| b >= 0xA0).collect();
    assert_eq!(changed, [0xA0, 0xA7, 0xA8, 0xB0]);
}

/// In the base, in the patch and in both; the place is the memory's length.
#[test]
fn row_16_for_a_spare_bit() {
    for (base, patch) in [(0x04, 0x00), (0x00, 0x80), (0x10, 0x08)] {
        let both = Both::of(10, &[0x01, base], &[0x02, patch]);
        assert_refused(&both, row(16, 10), row(16, 10));
    }
}

/// A length that fits no cells, or other cells in the patch.
#[test]
fn row_1_by_any_length() {
    let right = Both::of(10, &[0x01, 0xFF], &[0x01, 0xFF]);
    let faults: [fn(&mut Both); 8] = [
        |both| both.packed.truncate(1),
        |both| both.packed.push(0),
        |both| both.patch_packed.truncate(1),
        |both| both.patch_packed.push(0),
        |both| both.patch_memory.push(0),
        |both| both.memory.truncate(9),
        |both| both.packed.resize(10, 0),
        |both| both.start = u32::MAX - 8,
    ];
    for fault in faults {
        let mut both = right.clone();
        fault(&mut both);
        both.header = vec![0; 253];
        assert_refused(&both, row(1, 0), row(1, 0));
    }
}

/// A look does not ask for headers.
#[test]
fn row_15_before_row_16() {
    let mut both = Both::of(10, &[0x01, 0x80], &[0x00, 0x00]);
    both.header = vec![0; 253];
    assert_refused(&both, row(16, 10), row(15, 0));
}
