//! Whether the drawn cases reach every row and every way of ending a run.

use second::cases::overlays::{
    overlay_case, packed_ways, see_writes, ways, MERGE_NUMBERS, PACKED_WAYS, WAYS, WRITE_WAYS,
};
use second::form::{Form, FORMS};
use second::patches::{parse, Bench, Case, Command};
use std::collections::{BTreeMap, BTreeSet};

const CASES: u64 = 20_000;

/// The refusal number of each merge: it stands behind the word.
fn numbers(case: &Case) -> Vec<u32> {
    let answer = String::from_utf8(case.answer()).unwrap();
    let merges = answer
        .lines()
        .filter_map(|line| line.strip_prefix("merge "));
    let number = |words: &str| words.split(' ').next().unwrap().parse().unwrap();
    merges.map(number).collect()
}

/// What comes up in a case, by its form, and in its writes.
fn found(case: &Case) -> Vec<String> {
    let ways = match case.form {
        Form::Bytes => ways(case),
        Form::Packed => packed_ways(case),
    };
    let ways = ways.into_iter().map(str::to_string);
    ways.chain(see_writes(case)).collect()
}

/// What has to come up in a form.
fn wanted(form: Form) -> BTreeSet<String> {
    let ways = match form {
        Form::Bytes => &WAYS[..],
        Form::Packed => &PACKED_WAYS,
    };
    let all = ways.iter().chain(&WRITE_WAYS);
    all.map(|way| way.to_string()).collect()
}

#[test]
fn every_row_and_way_comes_up() {
    for form in FORMS {
        let (mut rows, mut counts) = (BTreeMap::new(), BTreeMap::new());
        let cases = (0..CASES).map(|index| overlay_case(1, index));
        for case in cases.filter(|case| case.form == form) {
            for number in numbers(&case) {
                *rows.entry(number).or_insert(0) += 1;
            }
            for way in found(&case) {
                *counts.entry(way).or_insert(0) += 1;
            }
        }
        println!("{form:?}: {rows:?}\n{counts:#?}");
        assert_eq!(Vec::from_iter(rows.into_keys()), MERGE_NUMBERS);
        assert_eq!(BTreeSet::from_iter(counts.into_keys()), wanted(form));
    }
}

/// So few cases, of any seed, reach all of it, too.
#[test]
fn few_cases_reach_all() {
    for seed in 0..12 {
        let cases = (0..4_000).map(|index| overlay_case(seed, index));
        let cases: Vec<Case> = cases.collect();
        for form in FORMS {
            let own = cases.iter().filter(|case| case.form == form);
            let found: BTreeSet<String> = own.flat_map(found).collect();
            let wanted = wanted(form);
            let missing: Vec<&String> = wanted.difference(&found).collect();
            assert!(missing.is_empty(), "seed {seed}: {missing:?}");
        }
    }
}

/// About one of three has packed marks.
#[test]
fn both_forms_are_drawn() {
    let packed = |index: &u64| overlay_case(1, *index).form == Form::Packed;
    let number = (0..3_000).filter(packed).count();
    assert!((900..1_100).contains(&number), "{number}");
}

#[test]
fn cases_can_be_handed_over() {
    for index in 0..2_000 {
        let case = overlay_case(3, index);
        assert!(case.fits());
        assert_eq!(parse(&case.script()), Some(vec![case]));
    }
}

/// The looks before a merge that is accepted are at every cell of the window.
#[test]
fn every_cell_is_looked_at_before_a_merge() {
    for index in 0..2_000 {
        let case = overlay_case(4, index);
        let mut bench = Bench::new(case.form, case.start);
        let mut looked = &[][..];
        let mut numbers = numbers(&case).into_iter();
        for command in &case.commands {
            match command {
                Command::Look(addresses) => looked = addresses,
                Command::Merge if numbers.next() == Some(0) => {
                    let mut cells = (case.start..).take(bench.base.memory.len());
                    assert!(cells.all(|cell| looked.contains(&cell)), "{case:?}");
                    looked = &[];
                }
                _ => {}
            }
            bench.run(command);
        }
    }
}

#[test]
fn cases_are_drawn_again_alike() {
    for index in 0..500 {
        assert_eq!(overlay_case(9, index), overlay_case(9, index));
    }
    assert_ne!(overlay_case(9, 2), overlay_case(10, 2));
}
