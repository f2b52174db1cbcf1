//! What must hold of every accepted load and every write, by the definitions
//! of addressed cell, header and entry.

mod records;
mod tapes;

use second::cases::{Drawing, LoadCase, WriteCase};
use second::reading::Refusal;
use std::collections::BTreeMap;

type Cells = BTreeMap<u64, u8>;

/// What a text says, read with no regard to rows or windows.
#[derive(Clone, Debug, Default, PartialEq, Eq)]
struct Image {
    header: Vec<u8>,
    cells: Cells,
    entry: Option<u32>,
    records: usize,
}

struct Format {
    drawing: &'static Drawing,
    /// Reads a text that is known to be right.
    image: fn(&[u8]) -> Image,
    /// The right check that a refusal tells.
    check_want: fn(&LoadCase, &Refusal),
    /// The canonical form of a text that says this.
    check_form: fn(&str, &Image),
}

fn number(digits: &str) -> u64 {
    u64::from_str_radix(digits, 16).unwrap()
}

/// The bytes of so many pairs of digits.
fn bytes(digits: &str) -> Vec<u8> {
    let pairs = (0..digits.len()).step_by(2).map(|at| &digits[at..at + 2]);
    pairs.map(|pair| number(pair) as u8).collect()
}

fn cells_of_window(base: u32, memory: &[u8], marks: &[u8]) -> Cells {
    let cells = (u64::from(base)..).zip(memory.iter().zip(marks));
    cells
        .filter(|(_, (_, &mark))| mark == 1)
        .map(|(address, (&byte, _))| (address, byte))
        .collect()
}

/// The least window that holds the cells, and a larger one.
fn windows(cells: &Cells) -> [(u32, usize); 2] {
    let low = cells.keys().next().map_or(77, |&address| address);
    let high = cells.keys().next_back().map_or(77, |&address| address + 1);
    [(0, 0), (21, 5)].map(|(before, after)| {
        let low = low.saturating_sub(before);
        (low as u32, ((high + after).min(1 << 32) - low) as usize)
    })
}

/// The text of a window, with the header and the entry of an image.
fn written(drawing: &Drawing, base: u32, memory: &[u8], marks: &[u8], image: &Image) -> Vec<u8> {
    let mut out = vec![0; 600 + 17 * memory.len()];
    let (header, entry) = (&image.header, image.entry);
    let written = (drawing.write)(base, memory, marks, header, entry, &mut out);
    assert_eq!(written.refusal, Refusal::default());
    out.truncate(written.length);
    out
}

/// Checks one load and gives whether it was accepted.
fn check_load(format: &Format, case: &LoadCase) -> bool {
    let (mut memory, mut marks) = (case.memory.clone(), case.marks.clone());
    let loaded = (format.drawing.load)(&case.text, case.base, &mut memory, &mut marks);
    let (header, behind) = loaded.header.split_at(loaded.header_len);
    assert!(behind.iter().all(|&byte| byte == 0));
    let found = Image {
        header: header.to_vec(),
        cells: cells_of_window(case.base, &memory, &marks),
        entry: loaded.entry,
        records: loaded.records,
    };
    assert_eq!(found.cells.len(), loaded.cells);
    let zeros = marks.iter().filter(|&&mark| mark == 0).count();
    assert_eq!(zeros, marks.len() - loaded.cells);
    let kept = |index: usize| marks.get(index) == Some(&1) || memory[index] == case.memory[index];
    assert!((0..memory.len()).all(kept));
    if loaded.refusal.number != 0 {
        assert_eq!(found, Image::default());
        (format.check_want)(case, &loaded.refusal);
        return false;
    }
    assert_eq!(loaded.refusal, Refusal::default());
    assert_eq!(found, (format.image)(&case.text));
    let text = written(format.drawing, case.base, &memory, &marks, &found);
    check_round_trip(format.drawing, &text, &found);
    true
}

/// The written text, loaded in any window that holds its cells, says the same
/// and is written again as it was. So equal images give equal texts.
fn check_round_trip(drawing: &Drawing, text: &[u8], image: &Image) {
    for (base, length) in windows(&image.cells) {
        let (mut memory, mut marks) = (vec![0x5A; length], vec![3; length]);
        let again = (drawing.load)(text, base, &mut memory, &mut marks);
        assert_eq!(again.refusal, Refusal::default());
        assert_eq!(again.header[..again.header_len], image.header);
        assert_eq!((again.entry, again.cells), (image.entry, image.cells.len()));
        assert_eq!(cells_of_window(base, &memory, &marks), image.cells);
        assert_eq!(written(drawing, base, &memory, &marks, image), text);
    }
}

/// Checks one write and gives the text, empty for a refusal.
fn check_write(format: &Format, case: &WriteCase) -> Vec<u8> {
    let mut out = vec![0xE7; case.room + 8];
    let (base, memory, marks) = (case.base, &case.memory, &case.marks);
    let (room, after) = out.split_at_mut(case.room);
    let written = (format.drawing.write)(base, memory, marks, &case.header, case.entry, room);
    assert_eq!(after, [0xE7; 8]);
    assert!(room[written.length..].iter().all(|&byte| byte == 0xE7));
    assert_eq!(written.refusal.number == 0, written.length > 0);
    assert_eq!((written.refusal.record, written.refusal.want), (0, 0));
    let text = room[..written.length].to_vec();
    if written.refusal.number == 0 {
        let found = (format.image)(&text);
        let wanted = Image {
            header: case.header.clone(),
            cells: cells_of_window(base, memory, marks),
            entry: case.entry,
            records: found.records,
        };
        assert_eq!(found, wanted);
        (format.check_form)(std::str::from_utf8(&text).unwrap(), &found);
        check_round_trip(format.drawing, &text, &found);
    }
    text
}

/// Checks many loads, and gives which of the large ones are accepted.
fn loads(drawing: &Drawing, check: fn(&LoadCase) -> bool, large: &[LoadCase]) -> Vec<bool> {
    let mut accepted = 0;
    for index in 0..20_000 {
        accepted += usize::from(check(&drawing.load_case(3, index, drawing.full)));
        accepted += usize::from(check(&drawing.load_case(4, index, drawing.small)));
    }
    assert!(accepted > 10_000);
    large.iter().map(check).collect()
}

/// Checks many writes, and gives the texts of the large ones.
fn writes(format: &Format, large: &[WriteCase]) -> Vec<Vec<u8>> {
    let drawing = format.drawing;
    for index in 0..20_000 {
        check_write(format, &drawing.write_case(6, index, drawing.full));
        check_write(format, &drawing.write_case(7, index, drawing.small));
    }
    let checked = large.iter().map(|case| check_write(format, case));
    checked.collect()
}
