//! Whether the generated cases reach every refusal and every pair of rows, and
//! what else is rarely drawn.

mod records;
mod tapes;

use second::cases::{Drawing, Limits, LoadCase, WriteCase};
use second::reading::Refusal;
use std::collections::BTreeMap;

const CASES: u64 = 50_000;

fn refusal(drawing: &Drawing, case: &LoadCase) -> Refusal {
    let (mut memory, mut marks) = (case.memory.clone(), case.marks.clone());
    (drawing.load)(&case.text, case.base, &mut memory, &mut marks).refusal
}

/// All rows that apply to the refused line.
fn rows(drawing: &Drawing, case: &LoadCase) -> Vec<u32> {
    (drawing.rows_of_refused)(&case.text, case.base, case.memory.len())
}

/// Load cases with their refusals.
fn loads(drawing: &Drawing, limits: Limits) -> impl Iterator<Item = (LoadCase, Refusal)> + '_ {
    (0..CASES).map(move |index| {
        let case = drawing.load_case(1, index, limits);
        let refusal = refusal(drawing, &case);
        (case, refusal)
    })
}

fn every_load_refusal_and_pair(drawing: &Drawing) {
    let mut numbers = BTreeMap::new();
    let mut pairs = BTreeMap::new();
    for (index, (case, refusal)) in (0..).zip(loads(drawing, drawing.full)) {
        let number = refusal.number;
        *numbers.entry(number).or_insert(0) += 1;
        let aimed = drawing.aimed_number(index).unwrap_or(number);
        assert_eq!(number, aimed, "case {index}");
        if number == 1 {
            continue;
        }
        let rows = rows(drawing, &case);
        let first = rows.first().copied();
        assert_eq!(first, Some(number).filter(|&n| n != 0 && n != 14));
        for (at, &upper) in rows.iter().enumerate() {
            for &lower in &rows[at + 1..] {
                *pairs.entry((upper, lower)).or_insert(0) += 1;
            }
        }
    }
    println!("load refusals: {numbers:?}");
    println!("pairs of rows: {pairs:?}");
    let found: Vec<u32> = numbers.into_keys().collect();
    assert_eq!(found, drawing.numbers);
    let all = (2..=13).flat_map(|upper| (upper + 1..=13).map(move |lower| (upper, lower)));
    for (upper, lower) in all {
        let came_up = pairs.contains_key(&(upper, lower));
        let can_meet = (drawing.can_meet)(upper, lower);
        assert_eq!(came_up, can_meet, "rows {upper} and {lower}");
    }
}

/// All these numbers must come up, each where it is aimed at; `see` is given
/// every case with its number.
fn every_write_refusal(drawing: &Drawing, wanted: &[u32], mut see: impl FnMut(&WriteCase, u32)) {
    let mut numbers = BTreeMap::new();
    for index in 0..CASES {
        let case = drawing.write_case(1, index, drawing.full);
        let mut out = vec![0; case.room];
        let (memory, marks) = (&case.memory, &case.marks);
        let written = (drawing.write)(case.base, memory, marks, &case.header, case.entry, &mut out);
        let number = written.refusal.number;
        assert_eq!(number, drawing.aimed_write_number(index), "case {index}");
        *numbers.entry(number).or_insert(0) += 1;
        see(&case, number);
    }
    println!("write refusals: {numbers:?}");
    let found: Vec<u32> = numbers.into_keys().collect();
    assert_eq!(found, wanted);
}

/// A line of `long` characters is about as long as row 3 allows.
fn small_cases_are_small_and_reach_all(drawing: &Drawing, separates: fn(u8) -> bool, long: usize) {
    for seed in 0..20 {
        let mut numbers = BTreeMap::new();
        for index in 0..300 {
            let case = drawing.load_case(seed, index, drawing.small);
            let mut lines = case.text.split(|&c| separates(c));
            let about_row_3 = lines.any(|line| line.len() >= long);
            assert!(case.text.len() <= if about_row_3 { 1_000 } else { 400 });
            assert!(case.memory.len() <= 64 && case.marks.len() <= 65);
            *numbers.entry(refusal(drawing, &case).number).or_insert(0) += 1;
        }
        let often = |number| numbers.get(number).is_some_and(|&n| n >= 5);
        assert!(drawing.numbers.iter().all(often), "{numbers:?}");
        assert_eq!(numbers.len(), drawing.numbers.len());
    }
}

/// Number and record of each refusal.
fn numbers_and_records(drawing: &Drawing, cases: &[LoadCase]) -> Vec<(u32, usize)> {
    let refusals = cases.iter().map(|case| refusal(drawing, case));
    refusals.map(|found| (found.number, found.record)).collect()
}

fn cases_are_drawn_again_alike(drawing: &Drawing) {
    let load_case = |seed, index| drawing.load_case(seed, index, drawing.full);
    let write_case = |index| drawing.write_case(9, index, drawing.full);
    for index in 0..500 {
        assert_eq!(load_case(9, index), load_case(9, index));
        assert_eq!(write_case(index), write_case(index));
    }
    assert_ne!(load_case(9, 2), load_case(10, 2));
}
