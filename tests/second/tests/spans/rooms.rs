//! How much room a write needs.

use second::reading::{write, Refusal, Written};
use second::spans::room;
use second::tape::{write_tape, Edition};

fn long(length: usize) -> Written {
    Written {
        refusal: Refusal::default(),
        length,
    }
}

fn refused(number: u32, place: usize) -> Written {
    let refusal = Refusal {
        number,
        place,
        ..Refusal::default()
    };
    Written { refusal, length: 0 }
}

fn records(base: u32, marks: &[u8], header: &[u8], entry: Option<u32>) -> Written {
    room(write, base, &vec![0; marks.len()], marks, header, entry)
}

fn tape(base: u32, marks: &[u8], header: &[u8], entry: Option<u32>) -> Written {
    let write = |base, memory: &[u8], marks: &[u8], header: &[u8], entry, out: &mut [u8]| {
        write_tape(Edition::Sum, base, memory, marks, header, entry, out)
    };
    room(write, base, &vec![0; marks.len()], marks, header, entry)
}

#[test]
fn records_without_cells() {
    assert_eq!(records(0, &[], &[], Some(0)), long(33));
    assert_eq!(records(7, &[0, 0], &[], Some(0)), long(33));
    // The terminator has 2 characters more for each byte of its width.
    assert_eq!(records(0, &[], &[], Some(0x1_0000)), long(35));
    assert_eq!(records(0, &[], &[], Some(u32::MAX)), long(37));
    assert_eq!(records(0, &[], &[5; 252], Some(0)), long(33 + 504));
}

#[test]
fn records_with_cells() {
    // The text of 65 bytes that the papers show.
    assert_eq!(records(0xFFFF, &[1, 1], &[], Some(0xFFFF)), long(65));
    // A record of one cell has 12 characters and its end, and one of 16 cells 42.
    assert_eq!(records(0, &[1; 16], &[], Some(0)), long(33 + 43));
    assert_eq!(records(0, &[1; 17], &[], Some(0)), long(33 + 43 + 13));
    assert_eq!(records(1, &[1; 16], &[], Some(0)), long(33 + 41 + 13));
    assert_eq!(records(0, &[1, 0, 1], &[], Some(0)), long(33 + 13 + 13));
}

#[test]
fn refused_records() {
    let room_of_marks = room(write, 0, &[1], &[1, 1], &[], Some(0));
    assert_eq!(room_of_marks, refused(1, 0));
    assert_eq!(records(u32::MAX, &[0, 0], &[], Some(0)), refused(1, 0));
    assert_eq!(records(0, &[2], &[5; 253], None), refused(15, 0));
    assert_eq!(records(0, &[1, 1, 2, 3], &[], None), refused(16, 2));
    assert_eq!(records(0, &[1], &[], None), refused(18, 0));
}

#[test]
fn tapes() {
    assert_eq!(tape(0, &[], &[], None), long(13));
    assert_eq!(tape(0, &[1], &[], None), long(13 + 15));
    assert_eq!(tape(0, &[1; 24], &[], None), long(13 + 61));
    assert_eq!(tape(0, &[1; 25], &[], None), long(13 + 61 + 15));
    assert_eq!(tape(0xFFFF, &[1, 0], &[], None), long(13 + 15));
}

#[test]
fn refused_tapes() {
    assert_eq!(tape(u32::MAX, &[3, 0], &[5], None), refused(1, 0));
    assert_eq!(tape(0xFFFF, &[0, 1, 2], &[5], None), refused(16, 2));
    assert_eq!(tape(0xFFFF, &[0, 1], &[5], None), refused(19, 0));
    assert_eq!(tape(0xFFFF, &[0, 1], &[], Some(0)), refused(19, 0));
    assert_eq!(tape(0xFFFF, &[1, 1], &[], None), refused(11, 1));
}
