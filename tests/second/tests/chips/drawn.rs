//! Whether the drawn cases reach every row, and every way in which rows of cells,
//! windows and marks can be.

use second::cases::chips::{chips_case, ways, CALLS, CHIP_NUMBERS};
use second::deals::{parse, Case};
use std::collections::{BTreeMap, BTreeSet};

const CASES: u64 = 20_000;

/// The refusal number of each call: it stands behind the word.
fn numbers(case: &Case, word: &str) -> Vec<u32> {
    let answer = String::from_utf8(case.answer()).unwrap();
    let calls = answer.lines().filter_map(|line| line.strip_prefix(word));
    let number = |words: &str| words.split(' ').next().unwrap().parse().unwrap();
    calls.map(number).collect()
}

#[test]
fn every_row_and_way_comes_up() {
    for (call, word) in CALLS.into_iter().zip(["deal ", "collect "]) {
        let (mut rows, mut counts) = (BTreeMap::new(), BTreeMap::new());
        for case in (0..CASES).map(|index| chips_case(1, index)) {
            for number in numbers(&case, word) {
                *rows.entry(number).or_insert(0) += 1;
            }
            for (_, way) in ways(&case).into_iter().filter(|(own, _)| *own == call) {
                *counts.entry(way).or_insert(0) += 1;
            }
        }
        println!("{call:?}: {rows:?}\n{counts:#?}");
        assert_eq!(Vec::from_iter(rows.into_keys()), CHIP_NUMBERS);
        let wanted = BTreeSet::from_iter(call.wanted());
        assert_eq!(BTreeSet::from_iter(counts.into_keys()), wanted);
    }
}

/// So few cases, of any seed, reach all of it, too.
#[test]
fn few_cases_reach_all() {
    for seed in 0..12 {
        let cases = (0..6_000).map(|index| chips_case(seed, index));
        let found: Vec<_> = cases.flat_map(|case| ways(&case)).collect();
        for call in CALLS {
            let own = found.iter().filter(|(own, _)| *own == call);
            let found: BTreeSet<String> = own.map(|(_, way)| way.clone()).collect();
            let wanted = BTreeSet::from_iter(call.wanted());
            let missing: Vec<&String> = wanted.difference(&found).collect();
            assert!(missing.is_empty(), "seed {seed}, {call:?}: {missing:?}");
        }
    }
}

/// The rows are told by the answers, too.
#[test]
fn ways_tell_what_is_refused() {
    for case in (0..2_000).map(|index| chips_case(2, index)) {
        let told = ways(&case);
        for (call, word) in CALLS.into_iter().zip(["deal ", "collect "]) {
            let first = |way: &String| way.strip_prefix("row").map(|row| row.to_string());
            let rows = told.iter().filter(|(own, _)| *own == call);
            let rows: Vec<String> = rows.filter_map(|(_, way)| first(way)).collect();
            let mut numbers = numbers(&case, word);
            for row in rows {
                // `s 21 and 1`, or ` 21 by the base, 2 chips`.
                let digits = row.trim_start_matches(['s', ' ']);
                let end = digits.find([' ', ',']).unwrap();
                let number: u32 = digits[..end].parse().unwrap();
                let at = numbers.iter().position(|&other| other == number);
                numbers.swap_remove(at.unwrap_or_else(|| panic!("{case:?}")));
            }
        }
    }
}

/// More than half of them: some are made with no chips, just to show the buffers.
#[test]
fn most_calls_are_accepted() {
    let cases = (0..3_000).map(|index| chips_case(1, index));
    let words = ["deal ", "collect "];
    let all: Vec<u32> = cases
        .flat_map(|case| words.map(|word| numbers(&case, word)).concat())
        .collect();
    let accepted = all.iter().filter(|&&number| number == 0).count();
    let percent = 100 * accepted / all.len();
    assert!((50..70).contains(&percent), "{percent}");
}

#[test]
fn cases_can_be_handed_over() {
    for index in 0..2_000 {
        let case = chips_case(3, index);
        assert!(case.fits());
        assert_eq!(parse(&case.script()), Some(vec![case]));
    }
}

#[test]
fn cases_are_drawn_again_alike() {
    for index in 0..500 {
        assert_eq!(chips_case(9, index), chips_case(9, index));
    }
    assert_ne!(chips_case(9, 2), chips_case(10, 2));
}
