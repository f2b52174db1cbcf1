//! Whether the drawn loads with packed marks reach all that they are drawn for.

use second::calls;
use second::cases::packed::{any_form, call_ways, load_ways, CALL_WAYS, LOAD_WAYS};
use second::cases::series::{series_case, Drawn, TRICKS};
use second::cases::tapes::{SUM_TAPES, TAPES};
use second::cases::{Drawing, RECORDS, SMALL};
use second::form::Form;
use second::script::{self, Format};
use second::tape::Edition;
use std::collections::{BTreeMap, BTreeSet};

const CASES: u64 = 20_000;

/// A drawn load in the form of `vectors`.
fn script_case(drawing: &Drawing, format: Format, index: u64) -> Option<script::Case> {
    let drawn = drawing.load_case(1, index, drawing.small);
    let case = script::Case::new(
        index.to_string(),
        drawn.base,
        drawn.memory.len(),
        drawn.text,
    )?;
    Some(case.of(format).with(any_form(1, index)))
}

#[test]
fn every_way_of_loads_comes_up() {
    for (drawing, format) in [
        (&RECORDS, Format::Srec),
        (&TAPES, Format::Tape(Edition::Repeat)),
        (&SUM_TAPES, Format::Tape(Edition::Sum)),
    ] {
        let mut counts = BTreeMap::new();
        let cases = (0..CASES).filter_map(|index| script_case(drawing, format, index));
        let mut packed = cases.filter(|case| case.form == Form::Packed);
        for case in packed.by_ref() {
            assert_eq!(script::parse(&case.script()), Some(vec![case.clone()]));
            for way in load_ways(&case) {
                *counts.entry(way).or_insert(0) += 1;
            }
        }
        println!("{format:?}: {counts:#?}");
        let found: BTreeSet<&str> = counts.into_keys().collect();
        assert_eq!(found, BTreeSet::from(LOAD_WAYS));
    }
}

#[test]
fn every_way_of_loads_in_parts_comes_up() {
    let (mut counts, mut tricks) = (BTreeMap::new(), BTreeSet::new());
    for index in 0..CASES {
        let Drawn { case, trick, .. } = series_case(1, index, SMALL);
        if case.form == Form::Packed && case.fits() {
            assert_eq!(calls::parse(&case.script()), Some(vec![case.clone()]));
            tricks.insert(trick);
            for way in call_ways(&case) {
                *counts.entry(way).or_insert(0) += 1;
            }
        }
    }
    println!("{counts:#?}");
    let found: BTreeSet<&str> = counts.into_keys().collect();
    assert_eq!(found, BTreeSet::from(CALL_WAYS));
    assert_eq!(tricks.len(), TRICKS.len());
}

/// Whatever a case is made for, it comes up in both forms.
#[test]
fn forms_do_not_follow_the_index() {
    for step in [4, 15, 17, 60] {
        for first in 0..step {
            let forms = (0..60).map(|turn| any_form(1, first + step * turn));
            let packed = forms.filter(|form| *form == Form::Packed).count();
            assert!((5..40).contains(&packed), "{first} of {step}: {packed}");
        }
    }
}
