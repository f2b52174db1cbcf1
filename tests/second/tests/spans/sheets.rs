//! Spans of patch sheets.

use super::*;
use second::spans::span_sheet;

const BLOCK: &str = "$$ MAIN\nSTART $100 TOP $ffffffff zero $0\n$$";

fn field(tag: u8, bytes: &[u8]) -> Vec<u8> {
    let length = u16::try_from(bytes.len()).unwrap().to_be_bytes();
    [&[tag], &length[..], bytes].concat()
}

fn pair(address: &str, data: &[u8]) -> Vec<u8> {
    [field(1, address.as_bytes()), field(2, data)].concat()
}

#[track_caller]
fn spans(pairs: &[Vec<u8>], wanted: Option<Span>) {
    let found = span_sheet(BLOCK.as_bytes(), &pairs.concat());
    assert_eq!(found, wanted, "{pairs:02X?}");
}

#[test]
fn no_pairs() {
    spans(&[], None);
}

#[test]
fn pairs_in_any_order() {
    let (start, five) = (pair("START", &[1, 2]), pair("START-$FB", &[3]));
    spans(&[start.clone()], from_to(0x100, 0x101));
    spans(&[start.clone(), five.clone()], from_to(5, 0x101));
    spans(&[five, start], from_to(5, 0x101));
    spans(&[pair("zero", &[0])], from_to(0, 0));
}

#[test]
fn a_cell_given_twice_ends_nothing() {
    let twice = [pair("$10", &[1, 2]), pair("$11", &[3]), pair("$20", &[4])];
    spans(&twice, from_to(0x10, 0x20));
}

#[test]
fn pairs_without_bytes() {
    spans(&[pair("TOP", &[])], None);
    spans(&[pair("zero", &[]), pair("$20", &[4])], from_to(0x20, 0x20));
}

/// Row 12 is about the window alone, also past the top.
#[test]
fn past_the_top() {
    spans(&[pair("TOP", &[1])], from_to(0xFFFF_FFFF, 0xFFFF_FFFF));
    spans(&[pair("TOP", &[1, 2])], from_to(0xFFFF_FFFF, 0x1_0000_0000));
    let most = pair("TOP", &[7; 65_535]);
    spans(&[most, pair("$1", &[1])], from_to(1, 0x1_0000_FFFD));
}

/// Rows 25 to 27, in either field.
#[test]
fn a_bad_field_ends_it() {
    let first = pair("$20", &[4]);
    let last = pair("$1", &[1]);
    for bad in [
        pair("", &[1]),
        pair("$1+", &[1]),
        pair("other", &[1]),
        pair("TOP+$1", &[1]),
        pair("zero-$1", &[1]),
        field(2, &[1]),
        field(3, b"$1"),
        [field(1, b"$30"), field(1, b"$30")].concat(),
        [field(1, b"$30"), field(3, &[1])].concat(),
    ] {
        let pairs = [first.clone(), bad, last.clone()];
        spans(&pairs, from_to(0x20, 0x20));
    }
}

#[test]
fn a_sheet_that_is_cut() {
    let first = pair("$20", &[4]);
    let second = pair("$30", &[1, 2]);
    for length in 0..second.len() {
        let cut = second[..length].to_vec();
        spans(&[first.clone(), cut], from_to(0x20, 0x20));
    }
    spans(&[first, second], from_to(0x20, 0x31));
}

#[test]
fn a_bad_block() {
    let sheet = pair("$20", &[4]);
    for bad in [
        "",
        "$$ MAIN\n",
        "$$ MAIN\nA $1 A $2\n$$",
        "$$ MAIN\nA $\n$$",
        "$$",
        "S9030000FC",
    ] {
        assert_eq!(span_sheet(bad.as_bytes(), &sheet), None, "{bad}");
    }
    // Nothing behind the bare line is looked at.
    let text = [BLOCK, "\nx"].concat();
    assert_eq!(span_sheet(text.as_bytes(), &sheet), from_to(0x20, 0x20));
}

#[test]
fn too_many_symbols() {
    let block = |number: usize| {
        let symbols: String = (0..number).map(|i| format!("n{i} $1\n")).collect();
        format!("$$ MAIN\n{symbols}$$").into_bytes()
    };
    let sheet = pair("n0", &[4]);
    assert_eq!(span_sheet(&block(1_024), &sheet), from_to(1, 1));
    assert_eq!(span_sheet(&block(1_025), &sheet), None);
}
