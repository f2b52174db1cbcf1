//! The cases of tapes.

use super::{loads, numbers_and_records, refusal, CASES};
use second::cases::tapes::{
    large_load_cases, large_write_cases, numbered_load_case, of, FULL, NUMBERS, SMALL, SUM_TAPES,
    TAPES, WRITE_NUMBERS,
};
use second::cases::{Drawing, LoadCase};
use second::reading::Refusal;
use second::tape::{is_separator, write_tape, Edition, EDITIONS};
use std::collections::BTreeMap;

#[test]
fn every_load_refusal_and_pair() {
    super::every_load_refusal_and_pair(&TAPES);
}

#[test]
fn every_load_refusal_and_pair_with_sums() {
    super::every_load_refusal_and_pair(&SUM_TAPES);
}

#[test]
fn every_write_refusal() {
    for edition in EDITIONS {
        every_write_refusal_of(of(edition));
    }
}

fn every_write_refusal_of(drawing: &Drawing) {
    let mut named = BTreeMap::new();
    super::every_write_refusal(drawing, &WRITE_NUMBERS, |case, number| {
        if number == 19 {
            let by = (!case.header.is_empty(), case.entry.is_some());
            *named.entry(by).or_insert(0) += 1;
        }
    });
    println!("row 19 by header and by entry: {named:?}");
    let found: Vec<(bool, bool)> = named.into_keys().collect();
    assert_eq!(found, [(false, true), (true, false), (true, true)]);
}

fn number(digits: &[u8]) -> usize {
    usize::from_str_radix(std::str::from_utf8(digits).unwrap(), 16).unwrap()
}

/// The check of either edition where 256 data lines are counted.
fn last_of_256(edition: Edition) -> &'static [u8] {
    match edition {
        Edition::Repeat => b";0001000100",
        Edition::Sum => b";0001000001",
    }
}

/// What an accepted tape with these lines has in it.
fn in_accepted(edition: Edition, text: &[u8], lines: &[&[u8]]) -> Vec<(&'static str, bool)> {
    let (last, data) = lines.split_last().unwrap();
    let any = |found: &dyn Fn(&[u8]) -> bool| data.iter().any(|line| found(line));
    let sum = |line: &[u8]| -> usize {
        let pairs = line[1..line.len() - 4].chunks(2);
        pairs.map(number).sum()
    };
    let end = |line: &[u8]| number(&line[3..7]) + (line.len() - 11) / 2;
    vec![
        ("521 characters", any(&|line| line.len() == 521)),
        ("a sum of 65,535", any(&|line| sum(line) == 65_535)),
        ("a sum of 65,536", any(&|line| sum(line) == 65_536)),
        ("a larger sum", any(&|line| sum(line) > 65_536)),
        ("cell FFFF", any(&|line| end(line) == 0x1_0000)),
        ("NUL between", text.contains(&0)),
        ("XOFF between", text.contains(&0x13)),
        ("255 data lines", data.len() == 255),
        ("256 data lines", data.len() == 256),
        ("257 data lines", data.len() == 257),
        ("more data lines", data.len() > 257),
        ("number 0100", *last == last_of_256(edition)),
        ("empty tape", data.is_empty()),
        ("small digits", text.iter().any(u8::is_ascii_lowercase)),
    ]
}

/// What a refused line is, with the text behind it in all rows but 5.
fn in_refused(
    edition: Edition,
    number: u32,
    line: &[u8],
    behind: &[u8],
) -> Vec<(&'static str, bool)> {
    // A separator that stands behind a character of an unfinished line.
    let cut_by = |separator| matches!(number, 4 | 6) && behind.len() > 1 && behind[0] == separator;
    let last = line.len() == 11;
    vec![
        ("522 characters", number == 3 && line.len() == 522),
        ("past FFFF", number == 11),
        ("NUL inside", cut_by(0)),
        ("XOFF inside", cut_by(0x13)),
        (
            "the other check",
            number == 7 && line == last_of_256(edition.other()),
        ),
        ("wrong check of a last line", number == 7 && last),
        ("two last lines", number == 2 && last),
    ]
}

/// What a tape has in it that is rarely drawn.
fn boundaries(edition: Edition, text: &[u8], refusal: &Refusal) -> Vec<(&'static str, bool)> {
    let lines = text.split(|&c| is_separator(c));
    let lines: Vec<&[u8]> = lines.filter(|line| !line.is_empty()).collect();
    match refusal.number {
        0 => in_accepted(edition, text, &lines),
        1 | 14 => Vec::new(),
        number => {
            let line = lines[refusal.record - 1];
            let behind = text.get(refusal.place + line.len()..);
            in_refused(edition, number, line, behind.unwrap_or(&[]))
        }
    }
}

fn every_boundary_of(edition: Edition) {
    let mut found: BTreeMap<&str, usize> = BTreeMap::new();
    let mut accepted: BTreeMap<usize, usize> = BTreeMap::new();
    let drawing = of(edition);
    for (case, refusal) in loads(drawing, drawing.full) {
        for (name, came_up) in boundaries(edition, &case.text, &refusal) {
            *found.entry(name).or_insert(0) += usize::from(came_up);
        }
        if refusal.number == 0 {
            let lines = case.text.iter().filter(|&&c| c == b';').count() - 1;
            *accepted.entry(lines).or_insert(0) += 1;
        }
    }
    println!("boundaries: {found:?}");
    assert_eq!(found.len(), 21);
    assert!(found.values().all(|&times| times >= 20));
    if edition == Edition::Sum {
        // Their sums are 0100 and 0002.
        assert!([511, 512].iter().all(|number| accepted[number] >= 20));
    }
}

#[test]
fn every_boundary() {
    every_boundary_of(Edition::Repeat);
}

#[test]
fn every_boundary_with_sums() {
    every_boundary_of(Edition::Sum);
}

/// A tape and what both editions make of it.
fn in_both(case: &LoadCase) -> (u32, u32) {
    let [repeat, sum] = EDITIONS.map(|edition| refusal(of(edition), case).number);
    (repeat, sum)
}

/// Among the tapes of either edition those must come up on which the editions
/// differ: a check of either one with a right number and with a wrong one. A
/// small tape has too few lines for the first.
#[test]
fn tapes_that_the_editions_tell_apart() {
    let small = [(7, 10), (10, 7)];
    let full = [(0, 7), (7, 0), (7, 10), (10, 7)];
    for edition in EDITIONS {
        for (limits, wanted) in [(SMALL, &small[..]), (FULL, &full)] {
            let mut found = BTreeMap::new();
            for (case, _) in loads(of(edition), limits).take(20_000) {
                *found.entry(in_both(&case)).or_insert(0) += 1;
            }
            found.retain(|(repeat, sum), _| repeat != sum);
            println!("{edition:?}, differing refusals: {found:?}");
            for pair in wanted {
                let times = found.get(pair);
                assert!(times.is_some_and(|&n| n >= 20), "{pair:?}");
            }
        }
    }
}

/// A right last line of either edition.
#[test]
fn numbered_cases() {
    for number in NUMBERS {
        let refused = if number < 256 { 0 } else { 7 };
        let case = numbered_load_case(Edition::Repeat, 1, number);
        assert_eq!(in_both(&case), (0, refused), "{number}");
        let case = numbered_load_case(Edition::Sum, 1, number);
        assert_eq!(in_both(&case), (refused, 0), "{number}");
    }
}

/// Runs of about 24 and 48 cells, at any place, must be written.
#[test]
fn runs_in_writes() {
    for (limits, least) in [(SMALL, 10), (FULL, 100)] {
        let mut found = BTreeMap::new();
        for index in 0..CASES {
            let case = TAPES.write_case(1, index, limits);
            if TAPES.aimed_write_number(index) != 0 {
                continue;
            }
            for run in case.marks.split(|&mark| mark == 0) {
                *found.entry(run.len()).or_insert(0) += 1;
            }
        }
        found.remove(&0);
        println!("runs: {found:?}");
        for length in [1, 2, 23, 24, 25, 47, 48, 49] {
            let times = found.get(&length);
            assert!(times.is_some_and(|&n| n >= least), "{length} cells");
        }
    }
}

#[test]
fn small_cases_are_small_and_reach_all() {
    for edition in EDITIONS {
        super::small_cases_are_small_and_reach_all(of(edition), is_separator, 520);
    }
}

#[test]
fn large_loads() {
    let wanted = [
        (0, 0),
        (10, 65_536),
        (10, 65_537),
        (10, 65_537),
        (14, 65_536),
    ];
    for edition in EDITIONS {
        let cases = large_load_cases(edition, 2);
        assert_eq!(numbers_and_records(of(edition), &cases), wanted);
        // FFFF and its sum, 1FE.
        assert!(cases[0].text.ends_with(match edition {
            Edition::Repeat => b";00FFFFFFFF",
            Edition::Sum => b";00FFFF01FE",
        }));
        assert_eq!(refusal(of(edition.other()), &cases[0]).number, 7);
    }
}

#[test]
fn large_writes() {
    // 2,730 lines of 61 characters, one of 45 for 16 cells, and the last line
    // of 13; 32,768 lines of 15.
    let (all, every_other) = (2_730 * 61 + 45 + 13, 32_768 * 15 + 13);
    let wanted = [
        (0, 0, all),
        (17, all, 0),
        (0, 0, every_other),
        (17, every_other, 0),
        (11, 65_536, 0),
        (11, 65_536, 0),
    ];
    for edition in EDITIONS {
        let written = large_write_cases(2).into_iter().map(|case| {
            let mut out = vec![0; case.room];
            let (memory, marks) = (&case.memory, &case.marks);
            let written = write_tape(edition, case.base, memory, marks, &[], None, &mut out);
            let refusal = written.refusal;
            (refusal.number, refusal.place, written.length)
        });
        assert_eq!(written.collect::<Vec<_>>(), wanted);
    }
}

#[test]
fn cases_are_drawn_again_alike() {
    for edition in EDITIONS {
        super::cases_are_drawn_again_alike(of(edition));
    }
}
