//! Whether the drawn cases are refused as they were made to be, and reach every row
//! and every way in which blocks, texts and sheets can be.

use second::cases::sheets::{sheets_case, ways, Call, Case, Size, CALLS, FULL, SMALL};
use second::reading::Refusal;
use std::collections::{BTreeMap, BTreeSet};

const CASES: u64 = 12_000;

fn cases(seed: u64, number: u64, size: Size) -> impl Iterator<Item = Case> {
    (0..number).map(move |index| sheets_case(seed, index, size))
}

/// Number, record and place are all known where something was made wrong.
#[test]
fn refused_as_made() {
    for size in [SMALL, FULL] {
        let mut known = 0;
        for (index, case) in cases(1, CASES, size).enumerate() {
            let refusal = case.run().0.refusal;
            // Which checksum would have been right is not known.
            let aim = case.aim.map(|aim| Refusal {
                want: refusal.want,
                ..aim
            });
            assert_eq!(refusal, aim.unwrap_or(refusal), "case {index}: {case:?}");
            known += u64::from(aim.is_some());
        }
        assert!(known > CASES * 3 / 4, "{known}");
    }
}

/// A name of a way tells its row.
#[test]
fn ways_tell_the_row() {
    for case in cases(2, CASES, FULL) {
        let Some(way) = case.made.first().and_then(|way| way.strip_prefix("row ")) else {
            continue;
        };
        let row: u32 = way.split(' ').next().unwrap().parse().unwrap();
        assert_eq!(case.run().0.refusal.number, row, "{case:?}");
    }
}

type Counts = BTreeMap<Call, BTreeMap<String, usize>>;

/// How often each way came up.
fn counts(seed: u64, number: u64, size: Size) -> Counts {
    let mut counts = Counts::new();
    for case in cases(seed, number, size) {
        let own = counts.entry(case.call).or_default();
        for way in ways(&case) {
            *own.entry(way).or_insert(0) += 1;
        }
    }
    counts
}

#[test]
fn every_row_and_way_comes_up() {
    for size in [SMALL, FULL] {
        let counts = counts(1, CASES, size);
        println!("{counts:#?}");
        for call in CALLS {
            let wanted = BTreeSet::from_iter(call.wanted(size));
            assert_eq!(wanted.len(), call.wanted(size).len());
            let found: BTreeSet<String> = counts[&call].keys().cloned().collect();
            let differ: Vec<&String> = found.symmetric_difference(&wanted).collect();
            assert!(differ.is_empty(), "{call:?}: {differ:?}");
        }
    }
}

/// So few cases, of any seed, reach all of it, too.
#[test]
fn few_cases_reach_all() {
    for seed in 0..5 {
        let counts = counts(seed, 6_000, FULL);
        for call in CALLS {
            let wanted = call.wanted(FULL);
            let missing = wanted
                .iter()
                .filter(|way| !counts[&call].contains_key(*way));
            let missing: Vec<&String> = missing.collect();
            assert!(missing.is_empty(), "seed {seed}, {call:?}: {missing:?}");
        }
    }
}

/// A refused call leaves the memory and no mark, and an accepted one of a sheet has
/// neither header nor entry.
#[test]
fn what_is_left() {
    for case in cases(3, CASES, FULL) {
        let (loaded, memory, marks) = case.run();
        let refused = loaded.refusal.number != 0;
        if refused {
            assert_eq!(memory, case.load.memory);
            assert!(marks.iter().all(|&mark| mark == 0));
            assert_eq!((loaded.records, loaded.cells), (0, 0));
        } else {
            let marked = marks.iter().filter(|&&mark| mark == 1).count();
            assert_eq!(loaded.cells, marked);
            let stayed = memory.iter().zip(&case.load.memory).zip(&marks);
            assert!(stayed
                .into_iter()
                .all(|((new, old), &mark)| mark == 1 || new == old));
        }
        if refused || case.call == Call::Sheet {
            assert_eq!((loaded.header_len, loaded.header), (0, [0; 252]));
            assert_eq!(loaded.entry, None);
        }
    }
}

/// Each pair is one data record, and each of its bytes a cell.
#[test]
fn records_and_cells_of_sheets() {
    for case in cases(6, 6_000, FULL).filter(|case| case.call == Call::Sheet) {
        let loaded = case.run().0;
        if loaded.refusal.number != 0 {
            continue;
        }
        let (mut fields, mut bytes, mut rest) = (0, 0, &case.sheet[..]);
        while let [tag, high, low, behind @ ..] = rest {
            let length = 256 * usize::from(*high) + usize::from(*low);
            fields += 1;
            bytes += if *tag == 2 { length } else { 0 };
            rest = &behind[length..];
        }
        assert_eq!((2 * loaded.records, loaded.cells), (fields, bytes));
    }
}

/// What the marks held, and the memory that is not addressed, makes no difference.
#[test]
fn old_marks_make_no_difference() {
    for mut case in cases(4, 4_000, SMALL) {
        let (loaded, memory, marks) = case.run();
        case.load.marks.iter_mut().for_each(|mark| *mark ^= 0x5A);
        case.load.memory.iter_mut().for_each(|byte| *byte ^= 0x5A);
        let (other, other_memory, other_marks) = case.run();
        assert_eq!((other, &other_marks), (loaded, &marks));
        let bytes = memory.iter().zip(&other_memory);
        if marks.len() == memory.len() {
            let differ = |((byte, other), &mark): ((&u8, &u8), &u8)| {
                *other == if mark == 1 { *byte } else { *byte ^ 0x5A }
            };
            assert!(bytes.zip(&marks).all(differ));
        }
    }
}

#[test]
fn cases_are_not_too_large() {
    for (size, text, sheet) in [(SMALL, 2_000, 4_000), (FULL, 24_000, 16_000)] {
        let mut largest = (0, 0);
        for case in cases(5, CASES, size) {
            largest.0 = largest.0.max(case.load.text.len());
            largest.1 = largest.1.max(case.sheet.len());
        }
        println!("text and sheet: {largest:?}");
        assert!(largest.0 <= text && largest.1 <= sheet, "{largest:?}");
    }
}

#[test]
fn cases_are_drawn_again_alike() {
    for size in [SMALL, FULL] {
        for index in 0..500 {
            assert_eq!(sheets_case(9, index, size), sheets_case(9, index, size));
        }
        assert_ne!(sheets_case(9, 2, size), sheets_case(10, 2, size));
    }
}
