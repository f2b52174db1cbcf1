//! Loads of whole texts.

use super::row;
use second::cases::tapes::{SUM_TAPES, TAPES};
use second::packed::load;
use second::reading::{self, Loaded, Refusal};

/// Cells 0 and 7 to 9: the last three go across two bytes.
const TEXT: &[u8] = b"S1040000AA51\nS1060007070809DA\nS9030000FC\n";

/// Loads a text into cells of 0xEE, with these packed bytes before.
fn loaded(text: &[u8], cells: usize, packed: &[u8]) -> (Loaded, Vec<u8>, Vec<u8>) {
    let (mut memory, mut packed) = (vec![0xEE; cells], packed.to_vec());
    let loaded = load(reading::load, text, 0, &mut memory, &mut packed);
    (loaded, memory, packed)
}

#[test]
fn old_bits_are_ignored() {
    for old in [0x00, 0x01, 0x80, 0xFC, 0xFF] {
        let (loaded, memory, packed) = loaded(TEXT, 10, &[old; 2]);
        assert_eq!(loaded.refusal, Refusal::default());
        assert_eq!((loaded.records, loaded.cells), (2, 4));
        assert_eq!(memory[..2], [0xAA, 0xEE]);
        assert_eq!(memory[7..], [7, 8, 9]);
        assert_eq!(packed, [0x81, 0x03]);
    }
}

/// Too short, too long, rounded down, and one byte a cell.
#[test]
fn row_1_by_the_packed_length() {
    for (cells, wrong) in [
        (0, &[1, 2][..]),
        (1, &[0, 2]),
        (8, &[0, 2, 8]),
        (9, &[0, 1, 3, 9]),
        (16, &[1, 3, 16]),
        (17, &[2, 4, 17]),
    ] {
        for &length in wrong {
            let (loaded, memory, packed) = loaded(TEXT, cells, &vec![0xFF; length]);
            assert_eq!(loaded.refusal, row(1, 0), "{cells} cells, {length} bytes");
            assert_eq!(memory, vec![0xEE; cells]);
            assert_eq!(packed, vec![0; length]);
        }
    }
}

/// All bits, whatever the row; none of them is 16.
#[test]
fn refused_load_leaves_no_bit() {
    for (text, number, record, place) in [
        (&TEXT[..41], 0, 0, 0),
        (&TEXT[..29], 14, 2, 29),
        (b"S1040000AA51\nS1040000AA51\n", 13, 2, 13),
        (b"S1040000AA51\nS104000ABB36\n", 12, 2, 13),
        (b"S1040000AA51\nx\n", 4, 2, 13),
    ] {
        let (loaded, memory, packed) = loaded(text, 10, &[0xFF; 2]);
        let refusal = loaded.refusal;
        let told = (refusal.number, refusal.record, refusal.place);
        assert_eq!(told, (number, record, place));
        if number > 0 {
            assert_eq!(packed, [0; 2]);
            assert_eq!(memory, [0xEE; 10]);
            assert_eq!((loaded.cells, loaded.entry), (0, None));
        }
    }
}

#[test]
fn window_past_the_top() {
    let mut packed = [0xFF; 2];
    let answer = load(reading::load, TEXT, u32::MAX - 8, &mut [0; 10], &mut packed);
    assert_eq!((answer.refusal, packed), (row(1, 0), [0; 2]));
}

#[test]
fn no_cells() {
    let (loaded, _, packed) = loaded(b"S1030000FC\nS9030000FC", 0, &[]);
    assert_eq!((loaded.refusal, loaded.cells), (Refusal::default(), 0));
    assert!(packed.is_empty());
}

#[test]
fn tapes_of_both_editions() {
    for drawing in [&TAPES, &SUM_TAPES] {
        let (mut memory, mut packed) = ([0xEE; 9], [0xFF; 2]);
        let text = b";020007AABB016E\n;0000010001";
        let loaded = load(drawing.load, text, 0, &mut memory, &mut packed);
        assert_eq!(loaded.refusal, Refusal::default());
        assert_eq!((loaded.records, loaded.cells, loaded.entry), (1, 2, None));
        assert_eq!(memory[7..], [0xAA, 0xBB]);
        assert_eq!(packed, [0x80, 0x01]);
        let loaded = load(drawing.load, text, 0, &mut memory[..8], &mut packed[..1]);
        assert_eq!((loaded.refusal.number, packed[0]), (12, 0));
    }
}
