//! Where the bytes of a sheet go, and rows 12 and 13.

use super::{field, pair, sheet_at, sheet_here, BASE, BLOCK};
use second::overlay::{merge, Image, Title};
use second::reading::Refusal;

/// One pair in a window: 0, or the row at its second field.
#[track_caller]
fn row(address: &str, length: usize, base: u32, cells: usize) -> u32 {
    let data = vec![0xAB; length];
    let outcome = sheet_at(BLOCK.as_bytes(), &pair(address, &data), base, cells);
    let (number, record, place) = outcome.refusal();
    if number == 0 {
        assert_eq!((outcome.loaded.records, outcome.loaded.cells), (1, length));
    } else {
        assert_eq!((record, place), (2, 3 + address.len()));
    }
    number
}

#[test]
fn ends_of_the_window() {
    for (address, length, wanted) in [
        ("$FF", 1, 12),
        ("$FF", 2, 12),
        ("$FE", 1, 12),
        ("$FE", 18, 12),
        ("$100", 1, 0),
        ("$100", 16, 0),
        ("$100", 17, 12),
        ("$10F", 1, 0),
        ("$10F", 2, 12),
        ("$10E", 2, 0),
        ("$10E", 3, 12),
        ("$110", 1, 12),
        ("$200", 1, 12),
        ("zero", 1, 12),
        ("TOP", 1, 12),
    ] {
        assert_eq!(row(address, length, BASE, 16), wanted, "{address} {length}");
    }
}

#[test]
fn windows_without_cells() {
    for base in [0, BASE, u32::MAX] {
        for address in ["zero", "START", "TOP"] {
            assert_eq!(row(address, 1, base, 0), 12);
            assert_eq!(row(address, 0, base, 0), 0);
        }
    }
}

/// Past 2^32 there is no cell, and no address is counted from 0 again. It is row 12:
/// there is no row 11 here.
#[test]
fn top_of_the_addresses() {
    assert_eq!(row("TOP", 1, u32::MAX, 1), 0);
    assert_eq!(row("TOP", 1, u32::MAX - 15, 16), 0);
    assert_eq!(row("TOP-$F", 16, u32::MAX - 15, 16), 0);
    assert_eq!(row("TOP-$F", 17, u32::MAX - 15, 16), 12);
    assert_eq!(row("TOP", 2, u32::MAX - 15, 16), 12);
    assert_eq!(row("TOP", 2, 0, 16), 12);
    assert_eq!(row("TOP", 17, 0, 16), 12);
    assert_eq!(row("zero", 16, 0, 16), 0);
    assert_eq!(row("TOP", 65_535, 0, 65_535), 12);
}

/// Some cell of an earlier pair, even with an equal byte; at tag 2 of the later one.
#[test]
fn cells_twice() {
    for (address, data, wanted) in [
        ("$104", &b"abcd"[..], 13),
        ("$104", b"wxyz", 13),
        ("$104", b"a", 13),
        ("$107", b"d", 13),
        ("$107", b"de", 13),
        ("$103", b"_a", 13),
        ("$100", b"0123a", 13),
        ("$100", b"0123456789ABCDEF", 13),
        ("$100", b"0123", 0),
        ("$108", b"89ABCDEF", 0),
        ("$105", b"", 0),
    ] {
        let first = pair("$104", b"abcd");
        let sheet = [&first[..], &pair(address, data)].concat();
        let place = first.len() + 3 + address.len();
        let refusal = sheet_here(&sheet).refusal();
        let wanted = if wanted == 0 {
            (0, 0, 0)
        } else {
            (wanted, 4, place)
        };
        assert_eq!(refusal, wanted, "{address}");
    }
}

/// Also of a pair that is not the one before.
#[test]
fn cells_twice_with_others_between() {
    let sheet = [
        pair("$100", b"a"),
        pair("$101", b"b"),
        pair("$101", b""),
        pair("$102", b"c"),
        pair("$100", b"a"),
    ]
    .concat();
    // Two pairs of 11 bytes, one of 10 and one of 11, and a text of 4 with its head.
    assert_eq!(sheet_here(&sheet).refusal(), (13, 10, 50));
}

/// Row 12 before row 13, in one field; and the field before the later one.
#[test]
fn row_12_before_row_13() {
    let sheet = [pair("END", b"x"), pair("END", b"xy")].concat();
    assert_eq!(sheet_here(&sheet).refusal(), (12, 4, 16));
    let sheet = [pair("START", b"x"), pair("START-$1", b"xy")].concat();
    assert_eq!(sheet_here(&sheet).refusal(), (12, 4, 23));
    let sheet = [pair("END", b"x"), pair("END", b"x"), pair("END", b"xy")].concat();
    assert_eq!(sheet_here(&sheet).refusal(), (13, 4, 16));
}

/// A cell that was not addressed stays, whatever the marks held.
#[test]
fn other_bytes_stay() {
    let outcome = sheet_here(&pair("$107", b"ab"));
    let mut memory = vec![0xEE; 16];
    memory[7..9].copy_from_slice(b"ab");
    assert_eq!(outcome.memory, memory);
    // 0 is a byte like all others.
    let outcome = sheet_here(&pair("$100", &[0; 16]));
    assert_eq!((outcome.memory, outcome.marks), (vec![0; 16], vec![1; 16]));
}

/// Nothing of a refused sheet is stored, not even what stands before the fault.
#[test]
fn nothing_of_a_refused_sheet() {
    let right = pair("START", b"abcdef");
    for wrong in [
        pair("START+", b"x"),
        pair("end", b"x"),
        pair("zero-$1", b"x"),
        pair("zero", b"x"),
        pair("START", b"x"),
        field(1, b"END"),
        vec![1],
    ] {
        // That memory and marks are left is seen in all of them.
        let refusal = sheet_here(&[&right[..], &wrong].concat()).refusal();
        assert_ne!(refusal.0, 0);
    }
}

/// A sheet is a patch that can be merged: no header and no entry win.
#[test]
fn patch_over_a_base() {
    let sheet = [pair("START+start", b"ab"), pair("END", b"z")].concat();
    let outcome = sheet_here(&sheet);
    let mut memory: Vec<u8> = (0..16).collect();
    let mut marks = vec![1; 16];
    marks[4] = 0;
    marks[9] = 0;
    let title = Title {
        header: b"base".to_vec(),
        entry: Some(5),
    };
    let loaded = &outcome.loaded;
    let patch_title = Title {
        header: loaded.header[..loaded.header_len].to_vec(),
        entry: loaded.entry,
    };
    let patch = Image {
        memory: &outcome.memory,
        marks: &outcome.marks,
    };
    let merged = merge(BASE, &mut memory, &mut marks, &title, patch, &patch_title);
    assert_eq!((merged.refusal, merged.title), (Refusal::default(), title));
    let wanted = [0, 1, 2, 3, b'a', b'b', 6, 7, 8, 9, 10, 11, 12, 13, 14, b'z'];
    assert_eq!(memory, wanted);
    assert_eq!(marks, [1, 1, 1, 1, 1, 1, 1, 1, 1, 0, 1, 1, 1, 1, 1, 1]);
}
