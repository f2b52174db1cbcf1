//! Which record addresses a cell.

use super::*;
use second::spans::{origin, origin_tape, Origin};

fn at(record: usize, place: usize, byte: u8) -> Option<Origin> {
    Some(Origin {
        record,
        place,
        byte,
    })
}

#[track_caller]
fn comes_from(records: &[&str], address: u32, wanted: Option<Origin>) {
    let found = origin(&lines(records), address);
    assert_eq!(found, wanted, "{records:?}, {address:X}");
}

#[test]
fn number_place_and_byte() {
    // Two records of 10 characters, with a line end each, stand before it.
    let text = ["S0030000FC", "S5030000FC", CELLS_10_11, CELL_20, END];
    comes_from(&text, 0x10, at(3, 22, 0x11));
    comes_from(&text, 0x11, at(3, 22, 0x22));
    comes_from(&text, 0x20, at(4, 37, 0x33));
    for address in [0, 0xF, 0x12, 0x1F, 0x21, 0x1_0010, u32::MAX] {
        comes_from(&text, address, None);
    }
}

#[test]
fn the_first_record_counts() {
    let text = [CELLS_10_11, CELL_11, CELLS_F_TO_12];
    comes_from(&text, 0xF, at(3, 28, 1));
    comes_from(&text, 0x10, at(1, 0, 0x11));
    comes_from(&text, 0x11, at(1, 0, 0x22));
    comes_from(&text, 0x12, at(3, 28, 4));
}

#[test]
fn a_byte_of_0() {
    comes_from(&["S105001500667F", END], 0x15, at(1, 0, 0));
}

#[test]
fn records_without_data_are_counted_alone() {
    comes_from(&[NO_CELL_1234, END], 0x1234, None);
    comes_from(&[NO_CELL_1234, CELL_20, END], 0x20, at(2, 11, 0x33));
}

#[test]
fn a_header_addresses_no_cell() {
    let text = ["S0050010ABCD72", CELLS_10_11, END];
    comes_from(&text, 0x10, at(2, 15, 0x11));
    comes_from(&text[..1], 0x10, None);
}

#[test]
fn the_entry_and_a_count_are_no_cells() {
    comes_from(&["S5030000FC", END], 0, None);
}

#[test]
fn the_top() {
    let text = ["S104FFFF11EC", "S205FFFFFF5AA3", "S306FFFFFFFFA558"];
    comes_from(&text, 0xFFFF, at(1, 0, 0x11));
    comes_from(&text, 0xFF_FFFF, at(2, 13, 0x5A));
    comes_from(&text, u32::MAX, at(3, 28, 0xA5));
    comes_from(&text, 0, None);
}

#[test]
fn a_refused_record_ends_it() {
    for bad in ["S104001199FF", "S5030003F9", "x", END] {
        let text = [CELL_20, bad, CELL_11, CELL_20];
        comes_from(&text, 0x11, None);
        comes_from(&text, 0x20, at(1, 0, 0x33));
    }
}

#[test]
fn empty_lines_are_not_counted() {
    let text = "\r\nS0030000FC\r\n\r\nS104002033A8\r\n\nS10400119951";
    assert_eq!(origin(text.as_bytes(), 0x20), at(2, 16, 0x33));
    assert_eq!(origin(text.as_bytes(), 0x11), at(3, 31, 0x99));
}

#[test]
fn tapes() {
    let text = "\0\x13;02001011220045\r\n\0;0100119900AB\x13;010020330054\n;0000030003";
    for edition in EDITIONS {
        let found = |address| origin_tape(edition, text.as_bytes(), address);
        assert_eq!(found(0x10), at(1, 2, 0x11));
        assert_eq!(found(0x11), at(1, 2, 0x22));
        assert_eq!(found(0x20), at(3, 34, 0x33));
        for address in [0, 3, 0xF, 0x12, 0x1_0010, u32::MAX] {
            assert_eq!(found(address), None);
        }
    }
}

#[test]
fn tapes_up_to_a_refused_line() {
    for bad in [";0100119900AC", ";0000010001"] {
        let tape = lines(&[TAPE_20, bad, TAPE_11]);
        for edition in EDITIONS {
            assert_eq!(origin_tape(edition, &tape, 0x11), None);
            assert_eq!(origin_tape(edition, &tape, 0x20), at(1, 0, 0x33));
        }
    }
}
