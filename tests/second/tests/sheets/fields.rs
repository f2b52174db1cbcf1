//! The fields of a sheet: what is accepted, and where rows 25, 26 and 27 are given.

use super::{field, pair, sheet_at, sheet_here, BASE, BLOCK};

#[test]
fn no_fields() {
    let outcome = sheet_here(b"");
    assert_eq!(outcome.refusal(), (0, 0, 0));
    assert_eq!((outcome.loaded.records, outcome.loaded.cells), (0, 0));
    assert_eq!(
        (outcome.memory, outcome.marks),
        (vec![0xEE; 16], vec![0; 16])
    );
    assert_eq!(sheet_at(BLOCK.as_bytes(), b"", 0, 0).refusal(), (0, 0, 0));
}

#[test]
fn one_pair() {
    let outcome = sheet_here(&pair("START+$2", b"ab"));
    assert_eq!(outcome.refusal(), (0, 0, 0));
    assert_eq!((outcome.loaded.records, outcome.loaded.cells), (1, 2));
    let mut memory = [0xEE; 16];
    memory[2..4].copy_from_slice(b"ab");
    assert_eq!(outcome.memory, memory);
    let mut marks = [0; 16];
    marks[2..4].fill(1);
    assert_eq!(outcome.marks, marks);
}

/// As bytes, so that tags and lengths are seen: the high byte stands first.
#[test]
fn bytes_of_a_pair() {
    let sheet = b"\x01\x00\x04$102\x02\x00\x02ab";
    assert_eq!(pair("$102", b"ab"), sheet);
    let outcome = sheet_here(sheet);
    assert_eq!(outcome.refusal(), (0, 0, 0));
    assert_eq!(outcome.memory[1..5], [0xEE, b'a', b'b', 0xEE]);
    // The low byte first is a length of 1,024.
    let swapped = b"\x01\x04\x00$102\x02\x02\x00ab";
    assert_eq!(sheet_here(swapped).refusal(), (25, 1, 0));
    let swapped = b"\x01\x00\x04$102\x02\x02\x00ab";
    assert_eq!(sheet_here(swapped).refusal(), (25, 2, 7));
}

#[test]
fn several_pairs_in_any_order() {
    let sheet = [
        pair("END", b"z"),
        pair("start+START", b"45"),
        pair("$100", b"0123"),
        pair("END-$1", b"y"),
    ];
    let outcome = sheet_here(&sheet.concat());
    assert_eq!(outcome.refusal(), (0, 0, 0));
    assert_eq!((outcome.loaded.records, outcome.loaded.cells), (4, 8));
    assert_eq!(&outcome.memory[..6], b"012345");
    assert_eq!(&outcome.memory[14..], b"yz");
    assert_eq!(
        outcome.marks,
        [1, 1, 1, 1, 1, 1, 0, 0, 0, 0, 0, 0, 0, 0, 1, 1]
    );
}

/// The length has two bytes, in both fields.
#[test]
fn long_fields() {
    let data: Vec<u8> = (0..600u32).map(|i| i as u8).collect();
    for length in [255, 256, 257, 511, 512, 600] {
        let sheet = pair("START", &data[..length]);
        let outcome = sheet_at(BLOCK.as_bytes(), &sheet, BASE, 600);
        assert_eq!(outcome.refusal(), (0, 0, 0));
        assert_eq!(outcome.loaded.cells, length);
        assert_eq!(outcome.memory[..length], data[..length]);
    }
    for terms in [85, 86, 128, 10_000] {
        let text = vec!["$1"; terms].join("+");
        let outcome = sheet_at(BLOCK.as_bytes(), &pair(&text, b"x"), 0, 16_000);
        assert_eq!(outcome.refusal(), (0, 0, 0));
        assert_eq!(outcome.memory[terms], b'x');
    }
    // The longest fields that there are.
    let text = format!("$0001{}", "+zero".repeat(13_106));
    assert_eq!(text.len(), 65_535);
    let data = vec![7; 65_535];
    let outcome = sheet_at(BLOCK.as_bytes(), &pair(&text, &data), 1, 65_535);
    assert_eq!(outcome.refusal(), (0, 0, 0));
    assert_eq!(outcome.loaded.cells, 65_535);
    assert_eq!(outcome.memory, data);
}

/// One record without data, wherever it is.
#[test]
fn no_data_bytes() {
    for address in ["START", "END", "END+$1", "START-$1", "zero", "TOP", "$100"] {
        let sheet = [pair("$100", b"a"), pair(address, b""), pair("END", b"b")];
        let outcome = sheet_here(&sheet.concat());
        assert_eq!(outcome.refusal(), (0, 0, 0));
        assert_eq!((outcome.loaded.records, outcome.loaded.cells), (3, 2));
    }
    let outcome = sheet_at(BLOCK.as_bytes(), &pair("TOP", b""), 0, 0);
    assert_eq!((outcome.loaded.records, outcome.loaded.cells), (1, 0));
    // Its address must be right all the same.
    assert_eq!(sheet_here(&pair("", b"")).refusal(), (25, 1, 0));
    assert_eq!(sheet_here(&pair("end", b"")).refusal(), (26, 1, 0));
    assert_eq!(sheet_here(&pair("TOP+$1", b"")).refusal(), (27, 1, 0));
}

/// A pair of one cell.
const FIRST: [u8; 11] = *b"\x01\x00\x04$100\x02\x00\x01a";

/// A sheet whose first pair is right.
fn second(rest: &[u8]) -> Vec<u8> {
    [&FIRST, rest].concat()
}

/// Each tag in each field of two pairs.
#[test]
fn wrong_tags() {
    let fields = [
        field(1, b"$100"),
        field(2, b"a"),
        field(1, b"$101"),
        field(2, b"b"),
    ];
    for (index, right) in [1, 2, 1, 2].into_iter().enumerate() {
        let place = fields[..index].concat().len();
        for tag in 0..=255 {
            let mut fields = fields.clone();
            fields[index][0] = tag;
            let refusal = sheet_here(&fields.concat()).refusal();
            let wanted = match tag == right {
                true => (0, 0, 0),
                false => (25, index + 1, place),
            };
            assert_eq!(refusal, wanted, "tag {tag} in field {}", index + 1);
        }
    }
}

#[test]
fn fields_that_are_not_in_pairs() {
    let (text, data) = (field(1, b"$101"), field(2, b"b"));
    for (fields, wanted) in [
        (vec![&data], (25, 1, 0)),
        (vec![&data, &text], (25, 1, 0)),
        (vec![&text, &text, &data], (25, 2, 7)),
        (vec![&text, &data, &data], (25, 3, 11)),
        (vec![&text, &data, &data, &text], (25, 3, 11)),
        (vec![&text, &text], (25, 2, 7)),
    ] {
        let sheet: Vec<u8> = fields.into_iter().flatten().copied().collect();
        assert_eq!(sheet_here(&sheet).refusal(), wanted);
    }
}

/// A right sheet, cut anywhere. Behind a pair it is right, behind a field of tag 1
/// that field is bad, and anywhere else the field that is cut.
#[test]
fn every_cut() {
    let fields = [
        field(1, b"START"),
        field(2, b"ab"),
        field(1, b"$102+zero"),
        field(2, b""),
        field(1, b"END"),
        field(2, b"xyz"),
    ];
    let sheet = fields.concat();
    let starts: Vec<usize> = (0..=fields.len())
        .map(|n| fields[..n].concat().len())
        .collect();
    for cut in 0..sheet.len() {
        // The last field that begins before the cut.
        let index = starts.iter().rposition(|&start| start < cut);
        let wanted = match index {
            _ if [0, starts[2], starts[4]].contains(&cut) => (0, 0, 0),
            Some(index) => (25, index + 1, starts[index]),
            None => (0, 0, 0),
        };
        assert_eq!(sheet_here(&sheet[..cut]).refusal(), wanted, "{cut}");
    }
    // END is the last cell, so that its data passes the window.
    assert_eq!(sheet_here(&sheet).refusal(), (12, 6, starts[5]));
}

/// With nothing after it a whole field of tag 1 is bad, whatever its text is.
#[test]
fn nothing_behind_an_address() {
    for text in ["START", "", "+", "end", "TOP+$1", "zero-$1+end"] {
        let lone = field(1, text.as_bytes());
        assert_eq!(sheet_here(&lone).refusal(), (25, 1, 0));
        assert_eq!(sheet_here(&second(&lone)).refusal(), (25, 3, 11));
    }
}

/// A single byte behind it is a second field, if a bad one.
#[test]
fn bad_field_behind_an_address() {
    for rest in [
        &b"\x02"[..],
        b"\x02\0",
        b"\x02\0\x01",
        b"\x01",
        b"\0",
        b"\x03\0\0",
        b"\xFF\xFF",
    ] {
        for (text, wanted) in [
            ("$101", (25, 4, 18)),
            ("end", (26, 3, 11)),
            ("TOP+$1", (27, 3, 11)),
            ("$1+", (25, 3, 11)),
        ] {
            let sheet = second(&[&field(1, text.as_bytes()), rest].concat());
            assert_eq!(sheet_here(&sheet).refusal(), wanted, "{text}");
        }
    }
}

#[test]
fn bytes_behind_the_last_field() {
    for rest in [
        &b"\0"[..],
        b"\x01",
        b"\x02",
        b"\x01\0",
        b"\x01\0\x01",
        b"\n",
        b"\xFF\0\0",
        b"\x02\0\0",
    ] {
        assert_eq!(sheet_here(&second(rest)).refusal(), (25, 3, 11));
    }
}

/// The length says how long a field is, and nothing else does.
#[test]
fn lengths_of_fields() {
    // One less: the last character begins the next field.
    assert_eq!(
        sheet_here(b"\x01\0\x03$100\x02\0\x01a").refusal(),
        (25, 2, 6)
    );
    // One more: the tag of the next field is part of the text.
    assert_eq!(
        sheet_here(b"\x01\0\x05$100\x02\0\x01a").refusal(),
        (25, 1, 0)
    );
    assert_eq!(
        sheet_here(b"\x01\0\x04$100\x02\0\x02a").refusal(),
        (25, 2, 7)
    );
    assert_eq!(
        sheet_here(b"\x01\0\x04$100\x02\0\0a").refusal(),
        (25, 3, 10)
    );
    assert_eq!(
        sheet_here(b"\x01\x01\x04$100\x02\0\x01a").refusal(),
        (25, 1, 0)
    );
    assert_eq!(
        sheet_here(b"\x01\xFF\xFF$100\x02\0\x01a").refusal(),
        (25, 1, 0)
    );
    assert_eq!(
        sheet_here(b"\x01\0\x04$100\x02\xFF\xFFa").refusal(),
        (25, 2, 7)
    );
}

#[test]
fn rows_of_expressions() {
    for (text, row) in [
        ("", 25),
        ("START ", 25),
        ("(START", 25),
        ("[START]", 25),
        ("-START", 25),
        ("START+$123456789", 25),
        ("end", 26),
        ("MAIN", 26),
        ("START+x", 26),
        ("zero-$1", 27),
        ("TOP+START", 27),
        ("START-END+$10F", 27),
    ] {
        assert_eq!(
            sheet_here(&pair(text, b"")).refusal(),
            (row, 1, 0),
            "{text}"
        );
        let sheet = second(&pair(text, b"b"));
        assert_eq!(sheet_here(&sheet).refusal(), (row, 3, 11), "{text}");
    }
}

/// Names and values come from the block, and not from what stands behind it.
#[test]
fn symbols_of_the_block() {
    let sheet = pair("A-B+C", b"x");
    for (block, wanted) in [
        ("$$ M\nA $5 B $3 C $1\n$$", (0, 0, 0)),
        ("$$ M\nA $5\nB $3\nC $1\n$$\nx", (0, 0, 0)),
        ("$$ M\nA $5 B $3\n$$\nC $1\n$$", (26, 1, 0)),
        ("$$ M\n$$", (26, 1, 0)),
        ("$$ M\nA $3 B $5 C $9\n$$", (27, 1, 0)),
        ("$$ M\nA $4 B $0 C $1\n$$", (12, 2, 8)),
    ] {
        let outcome = sheet_at(block.as_bytes(), &sheet, 0, 5);
        assert_eq!(outcome.refusal(), wanted, "{block}");
    }
}

/// Tabs, line ends and NUL are no part of a text, though a block has line ends.
#[test]
fn white_space_in_addresses() {
    for c in [" ", "\n", "\r", "\r\n", "\t", "\0"] {
        for text in [
            format!("START{c}"),
            format!("{c}START"),
            format!("START{c}+$1"),
        ] {
            assert_eq!(sheet_here(&pair(&text, b"a")).refusal(), (25, 1, 0));
        }
    }
}
