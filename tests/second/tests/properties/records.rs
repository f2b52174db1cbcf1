//! S-record texts.

use super::{bytes, number, Format, Image};
use second::cases::{large_load_cases, large_write_cases, LoadCase, RECORDS};
use second::reading::{load, Refusal};

const FORMAT: Format = Format {
    drawing: &RECORDS,
    image,
    check_want,
    check_form,
};

fn image(text: &[u8]) -> Image {
    let text = std::str::from_utf8(text).unwrap();
    let mut image = Image::default();
    for line in text.split(['\r', '\n']).filter(|line| !line.is_empty()) {
        let width = match &line[1..2] {
            "3" | "7" => 4,
            "2" | "8" => 3,
            _ => 2,
        };
        let (address, data) = line[4..line.len() - 2].split_at(2 * width);
        let (address, data) = (number(address), bytes(data));
        match &line[1..2] {
            "0" => image.header = data,
            "5" => {}
            "7" | "8" | "9" => image.entry = Some(address as u32),
            _ => {
                image.records += 1;
                image.cells.extend((address..).zip(data));
            }
        }
    }
    image
}

/// In row 7 the byte makes the bytes of the record come to 255, modulo 256, and
/// is not the one that stands there. With it the record passes row 7.
fn check_want(case: &LoadCase, refusal: &Refusal) {
    if refusal.number != 7 {
        assert_eq!(refusal.want, 0);
        return;
    }
    let (before, rest) = case.text.split_at(refusal.place);
    let ends = |&c: &u8| c == b'\r' || c == b'\n';
    let length = rest.iter().position(ends).unwrap_or(rest.len());
    let (line, behind) = rest.split_at(length);
    let (line, given) = line.split_at(length - 2);
    let number = |pair| number(std::str::from_utf8(pair).unwrap());
    let sum: u64 = line[2..].chunks(2).map(number).sum();
    assert_eq!((sum + u64::from(refusal.want)) % 256, 255);
    assert_ne!(u64::from(refusal.want), number(given));
    let right = format!("{:02x}", refusal.want);
    let text = [before, line, right.as_bytes(), behind].concat();
    let (mut memory, mut marks) = (case.memory.clone(), case.marks.clone());
    let again = load(&text, case.base, &mut memory, &mut marks).refusal;
    assert_ne!((again.number, again.record), (7, refusal.record));
}

/// Order, rows, count record and width.
fn check_form(text: &str, found: &Image) {
    assert!(text.ends_with('\n') && !text.contains(['\r', 'a', 'b', 'c', 'd', 'e', 'f']));
    let last_cell = found.cells.keys().next_back().map_or(0, |&address| address);
    let entry = u64::from(found.entry.unwrap());
    let bits = 64 - last_cell.max(entry).leading_zeros();
    let (data, end) = match bits {
        0..=16 => ('1', '9'),
        17..=24 => ('2', '8'),
        _ => ('3', '7'),
    };
    let kinds: String = text.lines().map(|line| &line[1..2]).collect();
    let rows: String = std::iter::repeat_n(data, found.records).collect();
    let count = if found.records <= 65_535 { "5" } else { "" };
    assert_eq!(kinds, format!("0{rows}{count}{end}"));
    // A row starts where the cell before is not addressed, or at a multiple of 16.
    let addressed = |address: u64| found.cells.contains_key(&address);
    let starts = |address: u64| address.is_multiple_of(16) || !addressed(address - 1);
    let wanted: Vec<u64> = found.cells.keys().copied().filter(|&a| starts(a)).collect();
    let digits = 2 * (data as usize - '0' as usize + 1);
    let written: Vec<u64> = text
        .lines()
        .filter(|line| line[1..].starts_with(data))
        .map(|line| number(&line[4..4 + digits]))
        .collect();
    assert_eq!(written, wanted);
}

fn check_load(case: &LoadCase) -> bool {
    super::check_load(&FORMAT, case)
}

#[test]
fn loads() {
    let accepted = super::loads(&RECORDS, check_load, &large_load_cases(5));
    assert_eq!(accepted, [true, false, true, false, false, true]);
}

#[test]
fn writes() {
    let texts = super::writes(&FORMAT, &large_write_cases(8));
    let counted: Vec<bool> = texts
        .iter()
        .map(|text| text.windows(3).any(|part| part == b"\nS5"))
        .collect();
    assert_eq!(counted, [true, false, false, false]);
    let refused: Vec<bool> = texts.iter().map(Vec::is_empty).collect();
    assert_eq!(refused, [false, false, true, false]);
}
