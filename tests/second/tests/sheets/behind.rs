//! Texts behind a symbol block.

use super::{behind_at, BASE, BLOCK};
use second::cases::{LOAD_NUMBERS, RECORDS, SMALL};
use second::reading::{load, Refusal};
use second::symbols::load_behind;

/// Number, record and place of a rest behind `BLOCK`, in a window that holds cell 0.
#[track_caller]
fn rest(rest: &str) -> (u32, usize, usize) {
    let text = format!("{BLOCK}{rest}");
    behind_at(text.as_bytes(), 0, 16).refusal()
}

#[test]
fn a_text_of_its_own() {
    let text = format!("{BLOCK}\nS004000048B3\nS10501021122C4\nS5030001FB\nS9030107F4\n");
    let outcome = behind_at(text.as_bytes(), BASE, 8);
    let loaded = &outcome.loaded;
    assert_eq!(outcome.refusal(), (0, 0, 0));
    assert_eq!(&loaded.header[..loaded.header_len], b"H");
    assert_eq!(
        (loaded.entry, loaded.records, loaded.cells),
        (Some(0x107), 1, 2)
    );
    assert_eq!(
        outcome.memory,
        [0xEE, 0xEE, 0x11, 0x22, 0xEE, 0xEE, 0xEE, 0xEE]
    );
    assert_eq!(outcome.marks, [0, 0, 1, 1, 0, 0, 0, 0]);
}

/// Place 0 is right behind the second `$`: a line end, mostly.
#[test]
fn numbers_and_places_begin_behind_the_bare_line() {
    assert_eq!(rest("\nS9030000FC"), (0, 0, 0));
    assert_eq!(rest("\nS9030000FD"), (7, 1, 1));
    assert_eq!(rest("\r\nS9030000FD"), (7, 1, 2));
    assert_eq!(rest("\r\n\n\nS9030000FD"), (7, 1, 4));
    assert_eq!(rest("\nS0030000FC\nS9030000FD"), (7, 2, 12));
    assert_eq!(rest("\nS903000xFC"), (5, 1, 8));
    assert_eq!(rest("\nS0030000FC\nS90300x0FC"), (5, 2, 18));
}

#[test]
fn every_row_of_the_rest() {
    assert_eq!(rest("\nS9030000FC\nx"), (2, 2, 12));
    let long = format!("\nS1FF0000{}", "0".repeat(507));
    assert_eq!(rest(&long), (3, 1, 1));
    assert_eq!(rest("\ns9030000FC"), (4, 1, 1));
    assert_eq!(rest("\nS90300G0FC"), (5, 1, 7));
    assert_eq!(rest("\nS10200FD"), (6, 1, 1));
    assert_eq!(rest("\nS9030000FD"), (7, 1, 1));
    assert_eq!(rest("\nS5030000FC\nS0030000FC"), (8, 2, 12));
    assert_eq!(rest("\nS5030001FB"), (10, 1, 1));
    assert_eq!(rest("\nS105FFFF1122C9"), (11, 1, 1));
    assert_eq!(rest("\nS1040010AA41"), (12, 1, 1));
    assert_eq!(rest("\nS1040000AA51\nS1040000AA51"), (13, 2, 14));
    assert_eq!(rest("\nS1040000AA51\n"), (14, 1, 14));
}

#[test]
fn right_checksum_is_told() {
    let text = format!("{BLOCK}\nS9030000FD");
    let refusal = behind_at(text.as_bytes(), 0, 16).loaded.refusal;
    assert_eq!((refusal.number, refusal.want), (7, 0xFC));
}

/// Row 14, and not row 22: the block is there.
#[test]
fn nothing_behind_the_block() {
    assert_eq!(rest(""), (14, 0, 0));
    assert_eq!(rest("\n"), (14, 0, 1));
    assert_eq!(rest("\r\n\r\n"), (14, 0, 4));
}

/// A second block is no record.
#[test]
fn one_block_alone() {
    assert_eq!(rest("\n$$ MAIN\nA $1\n$$\nS9030000FC"), (4, 1, 1));
    assert_eq!(rest("\n$$\nS9030000FC"), (4, 1, 1));
    assert_eq!(rest("\nA $1\nS9030000FC"), (4, 1, 1));
    assert_eq!(rest("\nS9030000FC\n$$"), (2, 2, 12));
}

/// The block must be there.
#[test]
fn no_block() {
    for text in ["S9030000FC", "S0030000FC\nS9030000FC\n", "\n\nx"] {
        let place = text.find(['S', 'x']).unwrap();
        let refusal = behind_at(text.as_bytes(), 0, 16).refusal();
        assert_eq!(refusal, (22, 1, place));
    }
    assert_eq!(behind_at(b"", 0, 16).refusal(), (22, 0, 0));
}

/// Symbols are no cells: their values may be anything.
#[test]
fn values_of_symbols_do_not_matter() {
    for value in ["$0", "$FFFFFFFF"] {
        let text = format!("$$ M\nA {value}\n$$\nS1040000AA51\nS9030000FC");
        let outcome = behind_at(text.as_bytes(), 0, 1);
        assert_eq!(outcome.refusal(), (0, 0, 0));
        assert_eq!((outcome.memory, outcome.marks), (vec![0xAA], vec![1]));
    }
}

/// Each drawn text, behind blocks and line ends of many kinds, answers as it does
/// alone, but that those line ends are part of it.
#[test]
fn drawn_texts_behind_blocks() {
    let blocks = [BLOCK, "$$ M\n$$", "\n\n$$  M\rA $1\r\n$$"];
    let mut numbers = Vec::new();
    for index in 0..3_000 {
        let case = RECORDS.load_case(4, index, SMALL);
        let block = blocks[index as usize % 3];
        let end = ["\n", "\r", "\r\n", "\n\n\n"][index as usize % 4];
        let rest = [end.as_bytes(), &case.text].concat();
        let text = [block.as_bytes(), &rest].concat();
        let (mut memory, mut marks) = (case.memory.clone(), case.marks.clone());
        let alone = load(&rest, case.base, &mut memory, &mut marks);
        let (mut behind_memory, mut behind_marks) = (case.memory, case.marks);
        let behind = load_behind(&text, case.base, &mut behind_memory, &mut behind_marks);
        assert_eq!(behind, alone, "{index}");
        assert_eq!((behind_memory, behind_marks), (memory, marks));
        numbers.push(behind.refusal.number);
    }
    numbers.sort_unstable();
    numbers.dedup();
    assert_eq!(numbers, LOAD_NUMBERS);
}

#[test]
fn row_1_before_the_block() {
    let row_1 = Refusal {
        number: 1,
        ..Refusal::default()
    };
    for text in [BLOCK, "", "x", "$$ M\nA $1 A $2\n$$", "S9030000FC"] {
        for (base, cells, lent) in [(0, 2, 3), (0, 3, 2), (0, 0, 1), (0, 1, 0)] {
            let (mut memory, mut marks) = (vec![5; cells], vec![5; lent]);
            let loaded = load_behind(text.as_bytes(), base, &mut memory, &mut marks);
            assert_eq!(loaded.refusal, row_1);
            assert_eq!((memory, marks), (vec![5; cells], vec![0; lent]));
        }
        assert_eq!(behind_at(text.as_bytes(), u32::MAX, 2).refusal(), (1, 0, 0));
        assert_eq!(
            behind_at(text.as_bytes(), u32::MAX - 14, 16).refusal(),
            (1, 0, 0)
        );
    }
    let text = format!("{BLOCK}\nS9030000FC");
    assert_eq!(
        behind_at(text.as_bytes(), u32::MAX - 15, 16).refusal(),
        (0, 0, 0)
    );
}
