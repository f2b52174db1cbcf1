//! Drawn texts, cut in many ways, against the whole load.

use super::{assert_empty, refusal, Bench};
use second::cases::cuts::{cut, parts_case, ways, PartsCase, WAYS};
use second::cases::{large_load_cases, Limits, LoadCase, FULL, LOAD_NUMBERS, SMALL};
use second::random::Random;
use second::reading::{load, Loaded};
use std::collections::BTreeSet;

const CASES: u64 = 20_000;

fn ends_line(character: u8) -> bool {
    character == b'\r' || character == b'\n'
}

fn whole(text: &[u8], case: &PartsCase) -> (Loaded, Vec<u8>, Vec<u8>) {
    let (mut memory, mut marks) = (case.memory.clone(), case.marks.clone());
    let loaded = load(text, case.base, &mut memory, &mut marks);
    (loaded, memory, marks)
}

/// Memory and marks when just these records of a text were read, to all of which
/// no row applies: the whole load accepts them with a terminator.
fn after_records(records: &[u8], case: &PartsCase) -> (Vec<u8>, Vec<u8>) {
    let (mut loaded, mut memory, mut marks) = whole(records, case);
    if loaded.refusal.number == 14 {
        let ended = [records, b"\nS9030000FC"].concat();
        (loaded, memory, marks) = whole(&ended, case);
    }
    assert_eq!(loaded.refusal.number, 0);
    (memory, marks)
}

/// What stands before the line of a place.
fn before_line(text: &[u8], place: usize) -> &[u8] {
    let last_end = text[..place].iter().rposition(|&c| ends_line(c));
    &text[..last_end.map_or(0, |index| index + 1)]
}

/// What memory must be after a refusal: the records before it are stored.
fn memory_after_refusal(text: &[u8], case: &PartsCase, refused: &Loaded) -> Vec<u8> {
    let (number, _, place) = refusal(refused);
    match number {
        1 => case.memory.clone(),
        14 => after_records(text, case).0,
        _ => after_records(before_line(text, place), case).0,
    }
}

/// Runs a case, compares with the whole load, and gives the refusal number.
fn check_agreement(case: &PartsCase) -> u32 {
    let text = case.parts.concat();
    let (wanted, whole_memory, whole_marks) = whole(&text, case);
    let (loaded, memory, marks) = case.run();
    assert_eq!((&loaded, &marks), (&wanted, &whole_marks));
    let number = loaded.refusal.number;
    if number == 0 {
        assert_eq!(memory, whole_memory);
    } else {
        assert_eq!(memory, memory_after_refusal(&text, case, &loaded));
        assert!(marks.iter().all(|&mark| mark == 0));
        assert_empty(&loaded);
    }
    number
}

#[test]
fn drawn_texts_agree_with_the_whole_load() {
    let (mut numbers, mut seen) = (BTreeSet::new(), BTreeSet::new());
    for index in 0..CASES {
        for case in [parts_case(1, index, FULL), parts_case(2, index, SMALL)] {
            numbers.insert(check_agreement(&case));
            seen.extend(ways(&case.parts));
        }
    }
    assert_eq!(Vec::from_iter(numbers), LOAD_NUMBERS);
    assert_eq!(seen.len(), WAYS.len(), "{seen:?}");
}

/// Every refusal also comes up in texts of small limits.
#[test]
fn small_texts_reach_every_refusal_and_way() {
    let (mut numbers, mut seen) = (BTreeSet::new(), BTreeSet::new());
    for index in 0..3_000 {
        let case = parts_case(1, index, SMALL);
        numbers.insert(case.run().0.refusal.number);
        seen.extend(ways(&case.parts));
    }
    assert_eq!(Vec::from_iter(numbers), LOAD_NUMBERS);
    assert_eq!(seen.len(), WAYS.len(), "{seen:?}");
}

/// More records than an S5 can count.
#[test]
fn large_texts_agree_with_the_whole_load() {
    let random = &mut Random::new(5, 0);
    for case in large_load_cases(5) {
        let length = case.text.len();
        let mut places: Vec<usize> = (0..1_000).map(|_| random.size(0, length)).collect();
        places.sort_unstable();
        check_agreement(&in_parts(&case, &places));
    }
}

fn in_parts(case: &LoadCase, places: &[usize]) -> PartsCase {
    PartsCase {
        parts: cut(&case.text, places),
        base: case.base,
        memory: case.memory.clone(),
        marks: case.marks.clone(),
    }
}

/// The text cut once at every place, and with an empty part there.
fn check_all_cuts(text: &[u8], wanted: (u32, usize, usize)) {
    let case = LoadCase {
        text: text.to_vec(),
        base: 0,
        memory: vec![0xEE; 300],
        marks: vec![7; 300],
    };
    for place in 0..=text.len() {
        for places in [&[place][..], &[place, place]] {
            let case = in_parts(&case, places);
            check_agreement(&case);
            assert_eq!(refusal(&case.run().0), wanted, "{places:?}");
        }
    }
}

/// A right S1 with so many data bytes at address 0.
fn record_of(data: usize) -> Vec<u8> {
    let count = data + 3;
    let checksum = 255 - count as u8;
    format!("S1{count:02X}0000{}{checksum:02X}", "00".repeat(data)).into_bytes()
}

#[test]
fn texts_cut_at_every_place() {
    check_all_cuts(b"", (14, 0, 0));
    check_all_cuts(b"\r\n\r\n", (14, 0, 4));
    check_all_cuts(b"S0030000FC\r\nS1040001AA50\r\nS9030000FC\r\n", (0, 0, 0));
    check_all_cuts(b"\nS1040001AA50\r\r\nS9030000FC", (0, 0, 0));
    check_all_cuts(b"S1040001AA50\r\nS1040001AA50\r\nS9030000FC", (13, 2, 14));
    check_all_cuts(b"S1040001AA51\r\nS9030000FC", (7, 1, 0));
    check_all_cuts(b"S1040001AA50\nS104000xAA50\n", (5, 2, 20));
    check_all_cuts(b"S1040001AA50\nS9030000FC\r\nx", (2, 3, 25));
    check_all_cuts(b"S1040001AA50\nS804000000FB", (0, 0, 0));
    check_all_cuts(b"S1040001AA50\n", (14, 1, 13));
    let longest = record_of(252);
    assert_eq!(longest.len(), 514);
    check_all_cuts(&[&longest, &b"\r\nS9030000FC"[..]].concat(), (0, 0, 0));
    check_all_cuts(&[&longest, &b"0\r\nS9030000FC"[..]].concat(), (3, 1, 0));
    check_all_cuts(&[&longest, &b"0"[..]].concat(), (3, 1, 0));
}

/// Till the line end of a record, memory and marks show those before it; till a
/// refusal is told, nothing of it can be seen.
fn check_each_part(case: &PartsCase) {
    let mut bench = Bench::begin(case.base, case.memory.clone(), case.marks.clone());
    let text = case.parts.concat();
    let mut place = 0;
    for part in &case.parts {
        bench.feed(part);
        place += part.len();
        let complete = before_line(&text, place);
        let (loaded, _, _) = whole(complete, case);
        if matches!(loaded.refusal.number, 0 | 14) {
            let shown = (bench.memory.clone(), bench.marks.clone());
            assert_eq!(shown, after_records(complete, case));
        } else {
            let wanted = memory_after_refusal(complete, case, &loaded);
            assert_eq!(bench.memory, wanted);
            assert!(bench.marks.iter().all(|&mark| mark == 0));
        }
        check_end_now(&bench, &text[..place], case);
    }
}

/// An end at this place answers as the whole load of the text up to it.
fn check_end_now(bench: &Bench, text: &[u8], case: &PartsCase) {
    let mut ended = bench.clone();
    let (wanted, _, marks) = whole(text, case);
    assert_eq!((ended.end(), ended.marks), (wanted, marks));
}

fn check_parts(seed: u64, limits: Limits, number: u64) {
    for index in 0..number {
        let case = parts_case(seed, index, limits);
        if case.parts.len() < 30 {
            check_each_part(&case);
        }
    }
}

#[test]
fn memory_and_marks_show_the_records_so_far() {
    check_parts(3, FULL, 3_000);
    check_parts(4, SMALL, 6_000);
}

/// Calls behind a refusal, with these and with other buffers.
fn check_later_calls(random: &mut Random, refused: &Bench) {
    let mut bench = refused.clone();
    let wanted = refused.state.clone();
    for turn in 0..3 {
        if turn > 0 {
            let length = random.size(0, 9);
            bench.base = random.word() as u32;
            bench.memory = random.bytes(length);
            let marks = random.pick(&[length, length + 1]);
            bench.marks = random.bytes(marks);
        }
        let lent = (bench.memory.clone(), bench.marks.clone());
        for part in [&b""[..], b"\n", b"S1040000AA51\nS9030000FC\n"] {
            bench.feed(part);
            assert_eq!(bench.state, wanted);
        }
        let loaded = bench.end();
        assert_empty(&loaded);
        assert_eq!(loaded, refused.clone().end());
        assert_eq!((bench.memory.clone(), bench.marks.clone()), lent);
    }
}

#[test]
fn nothing_changes_behind_a_refusal() {
    let mut numbers = BTreeSet::new();
    for index in 0..CASES {
        let random = &mut Random::new(6, index);
        let case = parts_case(5, index, SMALL);
        let mut bench = Bench::begin(case.base, case.memory.clone(), case.marks.clone());
        case.parts.iter().for_each(|part| bench.feed(part));
        // A refusal at the end leaves no state, so the last line is ended.
        bench.feed(b"\n");
        let (loaded, _, _) = whole(&case.parts.concat(), &case);
        if !matches!(loaded.refusal.number, 0 | 14) {
            numbers.insert(loaded.refusal.number);
            assert_eq!(bench.clone().end(), loaded);
            check_later_calls(random, &bench);
        }
    }
    let wanted = LOAD_NUMBERS.iter().filter(|&&n| !matches!(n, 0 | 14));
    assert!(numbers.iter().eq(wanted), "{numbers:?}");
}
