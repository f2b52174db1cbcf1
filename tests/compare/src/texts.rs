//! Texts that say a content in many ways, and how written ones are divided.

use crate::content::Content;
use second::random::Random;
use second::tape::Edition;

/// The most data bytes of a tape's line, when read and when written.
const LONGEST_LINE: usize = 255;
const WRITTEN_LINE: usize = 24;

/// An S-record text: widths, cuts, order and style are drawn. Without a width
/// for all, each record has its own.
pub fn records_of(content: &Content, random: &mut Random) -> Vec<u8> {
    let one_width = random.size(width_of_all(content), 4);
    let width = random.chance(1, 3).then_some(one_width);
    let mut data = data_records(content, random, width);
    random.shuffle(&mut data);
    let mut records = Vec::new();
    if !content.header.is_empty() || random.chance(1, 2) {
        records.push(record(b'0', 2, random.below(1 << 16), &content.header));
    }
    let counts = random.pick(&[0, 1, 4]);
    for (number, data) in data.into_iter().enumerate() {
        if random.chance(counts, 8) {
            records.push(record(b'5', 2, number as u64, &[]));
        }
        records.push(data);
    }
    let entry = entry_of(content);
    let width = width.unwrap_or_else(|| random.size(width_of(entry), 4));
    let end_kind = b'0' + 11 - width as u8;
    records.push(record(end_kind, width, entry, &[]));
    let ends: [&[u8]; 5] = [b"\n", b"\r\n", b"\r", b"\n\n", b"\n\r\r\n"];
    styled(random, &records, &ends)
}

/// The pieces of a content as records, and a few records without data.
fn data_records(content: &Content, random: &mut Random, width: Option<usize>) -> Vec<Vec<u8>> {
    let mut records = Vec::new();
    for _ in 0..random.pick(&[0, 0, 1, 3]) {
        let width = width.unwrap_or_else(|| random.size(2, 4));
        let address = random.below(1 << (8 * width));
        records.push(data_record(width, address, &[]));
    }
    for (start, data) in content.pieces(random, 254 - width.unwrap_or(4)) {
        let last = start + data.len() as u64 - 1;
        let width = width.unwrap_or_else(|| random.size(width_of(last), 4));
        records.push(data_record(width, start, &data));
    }
    records
}

/// The entry as a number; S-records have one.
fn entry_of(content: &Content) -> u64 {
    u64::from(content.entry.unwrap_or(0))
}

/// The fewest address bytes that hold the entry and all cells.
fn width_of_all(content: &Content) -> usize {
    let last_cell = content.end().saturating_sub(1);
    width_of(last_cell.max(entry_of(content)))
}

/// The fewest bytes that hold an address.
pub fn width_of(address: u64) -> usize {
    match address {
        0..=0xFFFF => 2,
        0x1_0000..=0xFF_FFFF => 3,
        _ => 4,
    }
}

pub fn data_record(width: usize, address: u64, data: &[u8]) -> Vec<u8> {
    record(b'0' + width as u8 - 1, width, address, data)
}

pub fn record(kind: u8, width: usize, address: u64, data: &[u8]) -> Vec<u8> {
    let mut bytes = vec![(width + data.len() + 1) as u8];
    bytes.extend(&address.to_be_bytes()[8 - width..]);
    bytes.extend(data);
    bytes.push(!(sum(&bytes) as u8));
    [&[b'S', kind], &digits(&bytes)[..]].concat()
}

/// A tape: cuts, order and style are drawn.
pub fn tape_of(edition: Edition, content: &Content, random: &mut Random) -> Vec<u8> {
    let pieces = content.pieces(random, LONGEST_LINE);
    let mut lines: Vec<Vec<u8>> = pieces
        .iter()
        .map(|(start, data)| data_line(*start as u16, data))
        .collect();
    random.shuffle(&mut lines);
    lines.push(last_line(edition, lines.len() as u16));
    let ends: [&[u8]; 7] = [
        b"\n",
        b"\r\n",
        b"\r",
        b"\0",
        b"\x13",
        b"\r\n\0\0",
        b"\x13\n\r",
    ];
    styled(random, &lines, &ends)
}

pub fn data_line(address: u16, data: &[u8]) -> Vec<u8> {
    let mut bytes = vec![data.len() as u8];
    bytes.extend(address.to_be_bytes());
    bytes.extend(data);
    bytes.extend((sum(&bytes) as u16).to_be_bytes());
    [b";", &digits(&bytes)[..]].concat()
}

pub fn last_line(edition: Edition, number: u16) -> Vec<u8> {
    let check = match edition {
        Edition::Repeat => number,
        Edition::Sum => sum(&number.to_be_bytes()) as u16,
    };
    format!(";00{number:04X}{check:04X}").into_bytes()
}

fn sum(bytes: &[u8]) -> u32 {
    bytes.iter().map(|&byte| u32::from(byte)).sum()
}

fn digits(bytes: &[u8]) -> Vec<u8> {
    let digits: String = bytes.iter().map(|byte| format!("{byte:02X}")).collect();
    digits.into_bytes()
}

/// One text of the lines, in a style of line ends and digits.
fn styled(random: &mut Random, lines: &[Vec<u8>], ends: &[&[u8]]) -> Vec<u8> {
    let end = random.pick(ends);
    let lower_of_four = random.pick(&[0, 2, 4]);
    let mut text = Vec::new();
    for line in lines {
        for (index, &character) in line.iter().enumerate() {
            let lower = index >= 1 && random.chance(lower_of_four, 4);
            text.push(if lower {
                character.to_ascii_lowercase()
            } else {
                character
            });
        }
        text.extend(end);
    }
    if random.chance(1, 3) {
        text.truncate(text.len() - end.len());
    }
    text
}

/// Data records and terminator have the narrowest width that holds all.
pub fn narrowest_width(content: &Content, text: &[u8]) -> Result<(), String> {
    let kinds: Vec<u8> = text
        .split(|&c| c == b'\n')
        .filter_map(|line| line.get(1).copied())
        .filter(|kind| !b"05".contains(kind))
        .collect();
    let width = width_of_all(content) as u8;
    let (data_kind, end_kind) = (b'0' + width - 1, b'0' + 11 - width);
    let (end, data) = kinds.split_last().ok_or("no terminator")?;
    if *end == end_kind && data.iter().all(|&kind| kind == data_kind) {
        return Ok(());
    }
    Err(format!("not {width} bytes wide: {}", text.escape_ascii()))
}

/// A line of a tape has 24 data bytes, or fewer at the end of a run.
pub fn full_lines(content: &Content, text: &[u8]) -> Result<(), String> {
    let mut left = content.cells.keys().copied().peekable();
    let mut lengths = Vec::new();
    while let Some(mut last) = left.next() {
        let mut length = 1;
        while length < WRITTEN_LINE && left.next_if_eq(&(last + 1)).is_some() {
            (last, length) = (last + 1, length + 1);
        }
        lengths.push(11 + 2 * length);
    }
    lengths.push(11);
    let lines = text.split(|&c| c == b'\n').filter(|line| !line.is_empty());
    if lines.map(|line| line.len() - 1).eq(lengths) {
        return Ok(());
    }
    Err(format!("other lines: {}", text.escape_ascii()))
}
