//! Spans of S-record texts.

use super::*;
use second::spans::span;

#[track_caller]
fn spans(records: &[&str], wanted: Option<Span>) {
    assert_eq!(span(&lines(records)), wanted, "{records:?}");
}

#[test]
fn nothing_is_addressed() {
    spans(&[], None);
    spans(&[END], None);
    spans(&["S0030000FC", "S5030000FC", END], None);
    assert_eq!(span(b"\r\n\n\r"), None);
}

#[test]
fn the_first_and_the_last_cell() {
    spans(&[CELLS_10_11, END], from_to(0x10, 0x11));
    spans(&[CELL_20, END], from_to(0x20, 0x20));
    spans(&["S1040000AA51", END], from_to(0, 0));
}

#[test]
fn records_in_any_order() {
    spans(&[CELLS_10_11, CELL_20, END], from_to(0x10, 0x20));
    spans(&[CELL_20, CELLS_10_11, END], from_to(0x10, 0x20));
    spans(&[CELL_20, CELLS_10_11, CELL_11, END], from_to(0x10, 0x20));
    spans(
        &[CELLS_10_11, "S2050100107772", CELL_20, END],
        from_to(0x10, 0x1_0010),
    );
}

#[test]
fn a_cell_addressed_twice_ends_nothing() {
    spans(&[CELLS_10_11, CELL_11, CELL_20, END], from_to(0x10, 0x20));
    spans(&[CELLS_10_11, CELLS_10_11, END], from_to(0x10, 0x11));
    spans(&[CELL_11, CELLS_F_TO_12, END], from_to(0xF, 0x12));
}

#[test]
fn the_top_of_each_width() {
    spans(&["S104FFFF11EC", END], from_to(0xFFFF, 0xFFFF));
    spans(&["S205FFFFFF5AA3", END], from_to(0xFF_FFFF, 0xFF_FFFF));
    spans(
        &["S306FFFFFFFFA558", END],
        from_to(0xFFFF_FFFF, 0xFFFF_FFFF),
    );
    spans(
        &["S307FFFFFFFE0102FA", END],
        from_to(0xFFFF_FFFE, 0xFFFF_FFFF),
    );
    let all = ["S1040000AA51", "S306FFFFFFFFA558", END];
    spans(&all, from_to(0, 0xFFFF_FFFF));
}

/// Row 11: the record is refused in any window.
#[test]
fn past_the_top_of_a_width() {
    spans(&["S105FFFF1122C9", END], None);
    spans(
        &[CELL_20, "S105FFFF1122C9", CELL_11, END],
        from_to(0x20, 0x20),
    );
    spans(
        &[CELL_20, "S307FFFFFFFF0102F9", CELL_11],
        from_to(0x20, 0x20),
    );
}

#[test]
fn records_without_data_address_no_cell() {
    spans(&[NO_CELL_1234, END], None);
    spans(
        &[NO_CELL_1234, CELL_20, "S1030000FC", END],
        from_to(0x20, 0x20),
    );
    spans(&["S305FFFFFFFFFE", CELL_20, END], from_to(0x20, 0x20));
    // They are counted.
    spans(&[NO_CELL_1234, "S5030001FB", CELL_20], from_to(0x20, 0x20));
}

#[test]
fn a_header_addresses_no_cell() {
    spans(&["S0050010ABCD72", END], None);
    spans(&["S0050010ABCD72", CELL_20, END], from_to(0x20, 0x20));
}

/// Neither the refused record nor those behind it.
#[test]
fn a_refused_record_ends_it() {
    for bad in [
        "S104001199FF", // row 7
        "S10400119G51", // row 5
        "S1040011995",  // row 6
        "S0030000FC",   // row 8
        "S5030003F9",   // row 10
        "S6030000FC",   // row 4
        "s10400119951", // row 4
        "x",
    ] {
        spans(&[CELL_20, bad, CELLS_10_11, END], from_to(0x20, 0x20));
        spans(&[CELL_20, CELL_11, bad, CELLS_F_TO_12], from_to(0x11, 0x20));
    }
    spans(&["S104001199FF", CELL_20, END], None);
    let long = &"S".repeat(515)[..];
    spans(&[CELL_20, long, CELL_11, END], from_to(0x20, 0x20));
}

/// Count records go by all data records, also such as rows 12 and 13 would refuse.
#[test]
fn count_records() {
    spans(
        &[CELL_20, CELL_20, "S5030002FA", CELL_11],
        from_to(0x11, 0x20),
    );
    spans(
        &[CELL_20, CELL_20, "S5030001FB", CELL_11],
        from_to(0x20, 0x20),
    );
}

#[test]
fn behind_the_terminator() {
    spans(&[CELL_20, END, CELL_11], from_to(0x20, 0x20));
    spans(&[END, CELL_11], None);
    spans(&[CELL_20, END, "x"], from_to(0x20, 0x20));
    spans(
        &[CELL_20, "S804000000FB", CELL_11, END],
        from_to(0x20, 0x20),
    );
}

#[test]
fn without_a_terminator() {
    spans(&[CELL_20], from_to(0x20, 0x20));
    spans(&[CELL_20, CELL_11], from_to(0x11, 0x20));
    spans(&[NO_CELL_1234], None);
}

#[test]
fn line_ends() {
    for end in ["\n", "\r", "\r\n", "\n\r", "\n\n\r\r"] {
        let text = [end, CELL_20, end, CELL_11, end, END, end].concat();
        assert_eq!(span(text.as_bytes()), from_to(0x11, 0x20), "{end:?}");
    }
    // What separates lines of a tape is part of a record: row 5.
    for end in ["\0", "\x13", " ", "\t"] {
        let text = [CELL_20, end, CELL_11].concat();
        assert_eq!(span(text.as_bytes()), None, "{end:?}");
    }
}

#[test]
fn small_digits() {
    spans(&["S104ffff11ec", END], from_to(0xFFFF, 0xFFFF));
}
