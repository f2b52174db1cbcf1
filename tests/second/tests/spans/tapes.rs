//! Spans of tapes, of either edition.

use super::*;
use second::spans::span_tape;
use second::tape::Edition;

#[track_caller]
fn spans(tape: &[&str], wanted: Option<Span>) {
    for edition in EDITIONS {
        let found = span_tape(edition, &lines(tape));
        assert_eq!(found, wanted, "{tape:?}, {edition:?}");
    }
}

#[test]
fn nothing_is_addressed() {
    spans(&[], None);
    spans(&[";0000000000"], None);
    for edition in EDITIONS {
        assert_eq!(span_tape(edition, b"\0\x13\r\n"), None);
    }
}

#[test]
fn the_first_and_the_last_cell() {
    spans(&[TAPE_10_11, TAPE_20, TAPE_END_2], from_to(0x10, 0x20));
    spans(&[TAPE_20, TAPE_10_11, TAPE_END_2], from_to(0x10, 0x20));
    spans(&[";010000000001", ";0000010001"], from_to(0, 0));
}

#[test]
fn a_cell_addressed_twice_ends_nothing() {
    spans(&[TAPE_10_11, TAPE_11, TAPE_20], from_to(0x10, 0x20));
    spans(&[TAPE_11, TAPE_11, TAPE_END_2], from_to(0x11, 0x11));
}

#[test]
fn the_top() {
    spans(&[";01FFFF110210"], from_to(0xFFFF, 0xFFFF));
    spans(&[TAPE_20, ";01FFFF110210"], from_to(0x20, 0xFFFF));
    // Row 11.
    spans(&[TAPE_20, ";02FFFF11220233", TAPE_11], from_to(0x20, 0x20));
}

#[test]
fn a_refused_line_ends_it() {
    for bad in [
        ";0100119900AC",
        ";01001199G0AB",
        ";0100119900A",
        ":0100119900AB",
        ";0",
        ";0000020002",
        ";0000010002",
    ] {
        spans(&[TAPE_20, bad, TAPE_10_11], from_to(0x20, 0x20));
    }
    spans(&[&";".repeat(522), TAPE_20], None);
}

#[test]
fn behind_the_last_line() {
    spans(&[TAPE_20, ";0000010001", TAPE_11], from_to(0x20, 0x20));
    spans(&[";0000000000", TAPE_11], None);
}

#[test]
fn line_ends() {
    for end in ["\n", "\r\n", "\0", "\x13", "\x13\0\r\n"] {
        let text = [end, TAPE_20, end, TAPE_11, end, TAPE_END_2].concat();
        for edition in EDITIONS {
            let found = span_tape(edition, text.as_bytes());
            assert_eq!(found, from_to(0x11, 0x20), "{end:?}");
        }
    }
}

/// Behind 256 lines the editions differ in what ends the tape.
#[test]
fn the_last_line_of_an_edition() {
    let mut tape = vec![TAPE_20; 256];
    tape.extend([";0001000100", TAPE_11]);
    for edition in EDITIONS {
        // Row 7 in one edition, and a line behind the last in the other.
        let found = span_tape(edition, &lines(&tape));
        assert_eq!(found, from_to(0x20, 0x20));
    }
    // What is an S-record is no line.
    assert_eq!(span_tape(Edition::Sum, CELL_20.as_bytes()), None);
}
