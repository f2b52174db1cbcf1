//! Tapes, and cells that go from one format to the other.

use super::{bytes, cells_of_window, check_round_trip, number, written, Cells, Format, Image};
use second::cases::tapes::{
    large_load_cases, large_write_cases, numbered_load_case, of, NUMBERS, SUM_TAPES, TAPES,
};
use second::cases::{LoadCase, WriteCase, RECORDS};
use second::reading::{load, write, Loaded, Refusal, Written};
use second::tape::{load_tape, write_tape, Edition, EDITIONS};
use std::collections::BTreeMap;

static REPEAT: Format = Format {
    drawing: &TAPES,
    image: |text| image(Edition::Repeat, text),
    check_want: |_, refusal| assert_eq!(refusal.want, 0),
    check_form,
};

static SUM: Format = Format {
    drawing: &SUM_TAPES,
    image: |text| image(Edition::Sum, text),
    check_want: |_, refusal| assert_eq!(refusal.want, 0),
    check_form,
};

fn format(edition: Edition) -> &'static Format {
    match edition {
        Edition::Repeat => &REPEAT,
        Edition::Sum => &SUM,
    }
}

/// A tape has no header and no entry.
fn of_cells(cells: Cells) -> Image {
    Image {
        cells,
        ..Image::default()
    }
}

fn image(edition: Edition, text: &[u8]) -> Image {
    let text = std::str::from_utf8(text).unwrap();
    let lines = text.split(['\r', '\n', '\0', '\x13']);
    let lines: Vec<&str> = lines.filter(|line| !line.is_empty()).collect();
    let (last, data_lines) = lines.split_last().unwrap();
    let records = data_lines.len();
    let check = match edition {
        Edition::Repeat => records,
        Edition::Sum => records / 256 + records % 256,
    };
    assert_eq!(last.to_uppercase(), format!(";00{records:04X}{check:04X}"));
    let mut cells = Cells::new();
    for line in data_lines {
        let data = bytes(&line[7..line.len() - 4]);
        cells.extend((number(&line[3..7])..).zip(data));
    }
    Image {
        records,
        ..of_cells(cells)
    }
}

/// The cells of an accepted tape, written as S-record text once there is an
/// entry, load to the same cells, and give the tape again.
fn check_as_records(edition: Edition, case: &LoadCase) {
    let (mut memory, mut marks) = (case.memory.clone(), case.marks.clone());
    load_tape(edition, &case.text, case.base, &mut memory, &mut marks);
    let plain = of_cells(cells_of_window(case.base, &memory, &marks));
    let tape = written(of(edition), case.base, &memory, &marks, &plain);
    let mut room = vec![0; 600 + 17 * memory.len()];
    let absent = write(case.base, &memory, &marks, &[], None, &mut room);
    assert_eq!(absent.refusal.number, 18);
    let entry = Some(case.text.len() as u32);
    let image = Image { entry, ..plain };
    let text = written(&RECORDS, case.base, &memory, &marks, &image);
    check_round_trip(&RECORDS, &text, &image);
    for (base, length) in super::windows(&image.cells) {
        let (mut memory, mut marks) = (vec![0xA5; length], vec![9; length]);
        let again = load(&text, base, &mut memory, &mut marks);
        // The entry has to be dropped first.
        let mut out = vec![0; tape.len()];
        let kept = write_tape(edition, base, &memory, &marks, &[], again.entry, &mut out);
        assert_eq!(kept.refusal.number, 19);
        let dropped = write_tape(edition, base, &memory, &marks, &[], None, &mut out);
        assert_eq!((dropped.refusal, out), (Refusal::default(), tape.clone()));
    }
}

fn check_load(edition: Edition, case: &LoadCase) -> bool {
    let accepted = super::check_load(format(edition), case);
    if accepted {
        check_as_records(edition, case);
    }
    accepted
}

#[test]
fn loads() {
    let large = large_load_cases(Edition::Repeat, 5);
    let accepted = super::loads(&TAPES, |case| check_load(Edition::Repeat, case), &large);
    assert_eq!(accepted, [true, false, false, false, false]);
}

#[test]
fn loads_with_sums() {
    let large = large_load_cases(Edition::Sum, 5);
    let accepted = super::loads(&SUM_TAPES, |case| check_load(Edition::Sum, case), &large);
    assert_eq!(accepted, [true, false, false, false, false]);
}

/// A loaded S-record text can be a tape if its header is empty, its entry is
/// dropped and no cell lies above FFFF. It has the same cells then.
fn check_records_as_tape(edition: Edition, case: &LoadCase) -> u32 {
    let (mut memory, mut marks) = (case.memory.clone(), case.marks.clone());
    let loaded = load(&case.text, case.base, &mut memory, &mut marks);
    if loaded.refusal.number != 0 {
        return loaded.refusal.number;
    }
    let cells = cells_of_window(case.base, &memory, &marks);
    let above = cells.keys().find(|&&address| address > 0xFFFF);
    let header = &loaded.header[..loaded.header_len];
    let mut out = vec![0xE7; 13 + 15 * memory.len()];
    let named = write_tape(edition, case.base, &memory, &marks, header, None, &mut out);
    assert_eq!(named.refusal.number == 19, !header.is_empty());
    let written = write_tape(edition, case.base, &memory, &marks, &[], None, &mut out);
    if let Some(address) = above {
        let index = (address - u64::from(case.base)) as usize;
        let refusal = written.refusal;
        assert_eq!(
            (refusal.number, refusal.place, written.length),
            (11, index, 0)
        );
        return 11;
    }
    assert_eq!(written.refusal, Refusal::default());
    let tape = &out[..written.length];
    assert_eq!(image(edition, tape).cells, cells);
    check_round_trip(of(edition), tape, &of_cells(cells));
    0
}

#[test]
fn records_as_tapes() {
    let mut numbers = BTreeMap::new();
    for index in 0..20_000 {
        let case = RECORDS.load_case(11, index, RECORDS.full);
        let [number, other] = EDITIONS.map(|edition| check_records_as_tape(edition, &case));
        assert_eq!(number, other);
        *numbers.entry(number).or_insert(0) += 1;
    }
    println!("S-record texts as tapes: {numbers:?}");
    assert!(numbers[&0] > 500 && numbers[&11] > 500);
}

/// Digits, line ends, cuts and sums.
fn check_form(tape: &str, found: &Image) {
    let cells = &found.cells;
    let lines: Vec<&str> = tape.strip_suffix("\r\n").unwrap().split("\r\n").collect();
    let (_, data_lines) = lines.split_last().unwrap();
    let digits = |line: &str| {
        let mut characters = line.chars();
        characters.next() == Some(';') && characters.all(|c| "0123456789ABCDEF".contains(c))
    };
    assert!(lines.iter().all(|line| digits(line)));
    // A line starts where the cell before is not addressed, and then at every
    // 24th cell of the run.
    let mut wanted: Vec<(u64, usize)> = Vec::new();
    let mut run = 0;
    for &address in cells.keys() {
        let goes_on = address > 0 && cells.contains_key(&(address - 1));
        run = if goes_on { run + 1 } else { 0 };
        if run % 24 == 0 {
            wanted.push((address, 0));
        }
        if let Some(line) = wanted.last_mut() {
            line.1 += 1;
        }
    }
    let written: Vec<(u64, usize)> = data_lines
        .iter()
        .map(|line| (number(&line[3..7]), number(&line[1..3]) as usize))
        .collect();
    assert_eq!(written, wanted);
    for line in data_lines {
        let (summed, check) = line[1..].split_at(line.len() - 5);
        let sum: u64 = bytes(summed).iter().map(|&byte| u64::from(byte)).sum();
        assert_eq!(sum % 65_536, number(check));
    }
}

#[test]
fn writes() {
    for edition in EDITIONS {
        let tapes = super::writes(format(edition), &large_write_cases(8));
        let refused: Vec<bool> = tapes.iter().map(Vec::is_empty).collect();
        assert_eq!(refused, [false, true, false, true, true, true]);
    }
}

/// The answer of an edition, with memory and marks after the load.
fn loaded_in(edition: Edition, case: &LoadCase) -> (Loaded, Vec<u8>, Vec<u8>) {
    let (mut memory, mut marks) = (case.memory.clone(), case.marks.clone());
    let loaded = load_tape(edition, &case.text, case.base, &mut memory, &mut marks);
    (loaded, memory, marks)
}

/// Below 256 data lines the editions accept the same tapes, and from there on at
/// most one of them accepts. Answers differ where a last line has the check of
/// one edition: the other one gives 7 there, and this one goes on. Gives the
/// number of lines if both accept.
fn check_both_loads(case: &LoadCase) -> Option<usize> {
    let [first, second] = EDITIONS.map(|edition| loaded_in(edition, case));
    if first == second {
        let accepted = first.0.refusal.number == 0;
        assert!(!accepted || first.0.records < 256);
        return accepted.then_some(first.0.records);
    }
    // Which of them gives 7.
    let (refused, other) = match first.0.refusal.number {
        7 => (first.0.refusal, second.0),
        _ => (second.0.refusal, first.0),
    };
    assert_eq!(refused.number, 7);
    let at = (refused.record, refused.place);
    match other.refusal.number {
        0 => assert!(other.records >= 256 && other.records + 1 == refused.record),
        2 => assert!(other.refusal.record == refused.record + 1 && refused.record > 256),
        10 => assert_eq!((other.refusal.record, other.refusal.place), at),
        number => panic!("7 and {number}"),
    }
    None
}

#[test]
fn loads_in_both() {
    let mut both = 0;
    for edition in EDITIONS {
        let drawing = of(edition);
        for index in 0..20_000 {
            for limits in [drawing.full, drawing.small] {
                both +=
                    usize::from(check_both_loads(&drawing.load_case(12, index, limits)).is_some());
            }
        }
        for number in NUMBERS {
            let case = numbered_load_case(edition, 13, number);
            let accepted = check_both_loads(&case);
            assert_eq!(accepted, Some(number).filter(|&n| n < 256));
            assert!(check_load(edition, &case));
        }
        for case in large_load_cases(edition, 14) {
            assert_eq!(check_both_loads(&case), None);
        }
    }
    assert!(both > 20_000);
}

/// The answer of an edition, with the output after the write.
fn written_in(edition: Edition, case: &WriteCase) -> (Written, Vec<u8>) {
    let mut out = vec![0xE7; case.room];
    let (memory, marks, header) = (&case.memory, &case.marks, &case.header);
    let written = write_tape(
        edition, case.base, memory, marks, header, case.entry, &mut out,
    );
    (written, out)
}

/// The editions refuse the same writes, and write the same tape if it has fewer
/// than 256 data lines; else it differs in the last check alone. Gives the
/// number of lines.
fn check_both_writes(case: &WriteCase) -> Option<usize> {
    let [first, second] = EDITIONS.map(|edition| written_in(edition, case));
    assert_eq!(first.0, second.0);
    let lines = first.1.iter().filter(|&&c| c == b';').count();
    if lines <= 256 {
        assert_eq!(first, second);
    } else {
        // Four digits, CR and LF.
        let check = first.0.length - 6;
        assert_eq!(first.1[..check], second.1[..check]);
        assert_ne!(first.1[check..], second.1[check..]);
    }
    lines.checked_sub(1)
}

#[test]
fn writes_in_both() {
    let mut numbers: BTreeMap<bool, usize> = BTreeMap::new();
    let drawn = (0..20_000).map(|index| TAPES.write_case(15, index, TAPES.full));
    for case in drawn.chain(large_write_cases(16)) {
        if let Some(number) = check_both_writes(&case) {
            *numbers.entry(number >= 256).or_insert(0) += 1;
        }
    }
    println!("256 lines or more: {numbers:?}");
    assert!(numbers[&false] > 1_000 && numbers[&true] > 2);
    for number in NUMBERS {
        let case = WriteCase {
            base: 0,
            memory: vec![7; 2 * number],
            marks: [0, 1].repeat(number),
            header: Vec::new(),
            entry: None,
            room: 15 * number + 13,
        };
        assert_eq!(check_both_writes(&case), Some(number));
    }
}
