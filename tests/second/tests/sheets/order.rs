//! Which row comes first where several apply.

use super::blocks::crowd;
use super::{behind_at, field, pair, sheet_at, sheet_here, BLOCK};
use second::reading::Refusal;
use second::sheets::load_sheet;

/// Number, record and place of a block, by both calls.
#[track_caller]
fn block(text: &str) -> (u32, usize, usize) {
    let behind = behind_at(text.as_bytes(), 0, 3).refusal();
    assert_eq!(sheet_at(text.as_bytes(), b"x", 0, 3).refusal(), behind);
    behind
}

/// In one line, wherever in it they stand.
#[test]
fn row_22_before_row_23() {
    for line in [
        "A $1 A $2 B",
        "A $1 A $2 B $",
        "A $1 A $2 3B $1",
        "B $ A $1 A $2",
        "A $1 A $2 ",
        " A $1 A $2",
        "A $1 A $2 C $3 D $4 E $5",
        "A $1 A $123456789",
    ] {
        assert_eq!(block(&format!("$$ M\n{line}\n$$")), (22, 2, 5), "{line}");
        let text = format!("$$ M\nA $1\n{line}\n$$");
        assert_eq!(block(&text), (22, 3, 10), "{line}");
    }
}

#[test]
fn row_22_before_row_24() {
    let lines = format!("$$ M\n{}", crowd(1_024, 4));
    for line in [
        "A",
        "A $1 B",
        "A $1 B $",
        " A $1",
        "A $1 ",
        "A $1 B $2 C $3 D $4 E $5",
        "x",
    ] {
        let text = format!("{lines}{line}\n$$");
        assert_eq!(block(&text), (22, 258, lines.len()), "{line}");
    }
    // Only just too many with the line that is bad.
    let lines = format!("$$ M\n{}", crowd(1_023, 4));
    let text = format!("{lines}A $1 B $2 C\n$$");
    assert_eq!(block(&text), (22, 258, lines.len()));
    // Without a bare line there are too many all the same.
    let lines = format!("$$ M\n{}", crowd(1_024, 4));
    let text = format!("{lines}A $1\n");
    assert_eq!(block(&text), (24, 258, lines.len()));
}

/// Even where the name that is twice stands behind the symbol that is too many.
#[test]
fn row_23_before_row_24() {
    let lines = format!("$$ M\n{}", crowd(1_022, 4));
    for (line, row) in [
        ("A $1 B $2 C $3 A $4", 23),
        ("A $1 B $2 C $3 N7 $4", 23),
        ("N7 $1 A $2 B $3 C $4", 23),
        ("A $1 B $2 C $3 D $4", 24),
        ("A $1 B $2 N7 $4", 23),
        ("A $1 A $2", 23),
        ("N7 $1", 23),
    ] {
        let text = format!("{lines}{line}\n$$");
        assert_eq!(block(&text), (row, 258, lines.len()), "{line}");
    }
    let lines = format!("$$ M\n{}", crowd(1_024, 4));
    let text = format!("{lines}N7 $1\n$$");
    assert_eq!(block(&text), (23, 258, lines.len()));
}

#[test]
fn all_three_in_a_line() {
    let lines = format!("$$ M\n{}", crowd(1_024, 4));
    for line in ["N7 $1 A $2 B", "A $1 A $2 B $", "N7 $1 "] {
        let text = format!("{lines}{line}\n$$");
        assert_eq!(block(&text), (22, 258, lines.len()));
    }
}

/// The lines are taken in turn: an earlier line counts, by whatever row.
#[test]
fn first_line_that_is_wrong() {
    assert_eq!(block("x\nA $1 A $2\n$$"), (22, 1, 0));
    assert_eq!(block("$$ M\nA $1 A $2\nx\n$$"), (23, 2, 5));
    assert_eq!(block("$$ M\nx\nA $1 A $2\n$$"), (22, 2, 5));
    let lines = format!("$$ M\n{}", crowd(1_024, 4));
    for later in ["x", "N7 $1", "B $1", ""] {
        let text = format!("{lines}A $1\n{later}\n$$");
        assert_eq!(block(&text), (24, 258, lines.len()));
    }
    let text = format!("{lines}N7 $1\nA $1\n$$");
    assert_eq!(block(&text), (23, 258, lines.len()));
}

/// Whatever is wrong with the sheet.
#[test]
fn the_block_before_the_sheet() {
    for sheet in [
        b"\x07".to_vec(),
        pair("+", b""),
        pair("x", b""),
        pair("zero-$1", b""),
    ] {
        for (text, wanted) in [
            ("", (22, 0, 0)),
            ("$$ M\n", (22, 1, 5)),
            ("$$ M\nzero $0 zero $0\n$$", (23, 2, 5)),
        ] {
            assert_eq!(sheet_at(text.as_bytes(), &sheet, 0, 3).refusal(), wanted);
        }
        assert_ne!(sheet_here(&sheet).refusal().0, 0);
    }
}

/// The second call does not look behind the block, and the first one does.
#[test]
fn the_rest_is_of_no_matter_to_a_sheet() {
    for rest in ["\nx", "\nS9030000FD", "\n$$", "\n\0"] {
        let text = format!("{BLOCK}{rest}");
        let sheet = pair("START", b"a");
        let outcome = sheet_at(text.as_bytes(), &sheet, 0x100, 1);
        assert_eq!(outcome.refusal(), (0, 0, 0));
        assert_ne!(behind_at(text.as_bytes(), 0x100, 1).refusal().0, 0);
    }
}

#[test]
fn row_1_before_all() {
    let row_1 = Refusal {
        number: 1,
        ..Refusal::default()
    };
    let sheets = [
        vec![],
        pair("START", b"a"),
        pair("x", b"a"),
        b"\x07".to_vec(),
    ];
    for text in [BLOCK, "", "x", "$$ M\nA $1 A $2\n$$"] {
        for sheet in &sheets {
            for (cells, lent) in [(2, 3), (3, 2), (0, 1), (1, 0)] {
                let (mut memory, mut marks) = (vec![5; cells], vec![5; lent]);
                let loaded = load_sheet(text.as_bytes(), sheet, 0, &mut memory, &mut marks);
                assert_eq!(loaded.refusal, row_1);
                assert_eq!((memory, marks), (vec![5; cells], vec![0; lent]));
            }
            let refusal = sheet_at(text.as_bytes(), sheet, u32::MAX, 2).refusal();
            assert_eq!(refusal, (1, 0, 0));
        }
    }
    let empty = sheet_at(BLOCK.as_bytes(), b"", u32::MAX, 1).refusal();
    assert_eq!(empty, (0, 0, 0));
}

/// A pair of fields that are wrong, each by itself, with the row of the first.
#[test]
fn first_field_that_is_wrong() {
    let addresses = [("+", 25), ("end", 26), ("zero-$1", 27)];
    let data = [
        field(2, b"xy"),
        field(3, b""),
        field(2, b"x")[..3].to_vec(),
        vec![2],
    ];
    for (text, row) in addresses {
        for wrong in &data {
            let sheet = [&field(1, text.as_bytes()), &wrong[..]].concat();
            assert_eq!(sheet_here(&sheet).refusal(), (row, 1, 0));
        }
    }
    // Rows 12 and 13 of a pair come before all that stands behind it.
    for (first, row) in [("START-$1", 12), ("START", 13)] {
        for rest in [
            pair("+", b""),
            pair("end", b""),
            vec![7],
            field(1, b"START"),
        ] {
            let sheet = [pair("START", b"a"), pair(first, b"a"), rest].concat();
            let place = pair("START", b"a").len() + 3 + first.len();
            assert_eq!(sheet_here(&sheet).refusal(), (row, 4, place));
        }
    }
    // And each row of an earlier pair before those of a later one.
    let pairs = [("+", 25), ("end", 26), ("zero-$1", 27)];
    for (first, row) in pairs {
        for (later, _) in pairs {
            let sheet = [pair(first, b""), pair(later, b"")].concat();
            assert_eq!(sheet_here(&sheet).refusal(), (row, 1, 0));
        }
    }
}

/// An address that is wrong comes before what its data would be.
#[test]
fn an_address_before_the_window() {
    for (text, row) in [("START+", 25), ("end", 26), ("zero-$1", 27)] {
        let data = vec![0; 100];
        assert_eq!(sheet_here(&pair(text, &data)).refusal(), (row, 1, 0));
    }
}

/// A data field that is cut is bad before its cells are looked at.
#[test]
fn row_25_before_rows_12_and_13() {
    let cut = |sheet: Vec<u8>| sheet[..sheet.len() - 1].to_vec();
    let sheet = cut(pair("zero", b"ab"));
    assert_eq!(sheet_here(&sheet).refusal(), (25, 2, 7));
    let sheet = [pair("START", b"a"), cut(pair("START", b"ab"))].concat();
    assert_eq!(sheet_here(&sheet).refusal(), (25, 4, 20));
}
