//! The cases of S-records.

use super::{loads, numbers_and_records, rows};
use second::cases::{large_load_cases, FULL, LOAD_NUMBERS, RECORDS, SMALL};
use std::collections::{BTreeMap, BTreeSet};

#[test]
fn every_load_refusal_and_pair() {
    super::every_load_refusal_and_pair(&RECORDS);
}

#[test]
fn every_write_refusal() {
    let mut absent = BTreeMap::new();
    super::every_write_refusal(&RECORDS, &[0, 1, 15, 16, 17, 18], |case, number| {
        if case.entry.is_none() {
            // No text has fewer than 33 characters, whatever its entry is.
            *absent.entry((number, case.room < 33)).or_insert(0) += 1;
        }
    });
    println!("without an entry, and whether row 17 would apply: {absent:?}");
    // Row 18 gives way to those before it, and comes before row 17.
    let wanted = [1, 15, 16, 18].into_iter();
    let wanted: Vec<(u32, bool)> = wanted.flat_map(|n| [(n, false), (n, true)]).collect();
    let found: Vec<(u32, bool)> = absent.into_keys().collect();
    assert_eq!(found, wanted);
}

/// The types without data have one right count. A record with one less or one
/// more, but of that length and with the right checksum, must come up often.
#[test]
fn wrong_counts_of_types_without_data() {
    for limits in [SMALL, FULL] {
        let mut found = BTreeMap::new();
        for (case, refusal) in loads(&RECORDS, limits) {
            if refusal.number != 6 {
                continue;
            }
            let rows = rows(&RECORDS, &case);
            let mut lines = case.text[refusal.place..].split(|&c| c == b'\r' || c == b'\n');
            let line = std::str::from_utf8(lines.next().unwrap()).unwrap();
            let (kind, count) = (&line[1..2], usize::from_str_radix(&line[2..4], 16).unwrap());
            let right = match kind {
                "5" | "9" => 3,
                "8" => 4,
                "7" => 5,
                _ => continue,
            };
            let else_right = line.len() == 4 + 2 * count && !rows.contains(&7);
            if else_right && count.abs_diff(right) == 1 {
                *found.entry((kind.to_string(), count)).or_insert(0) += 1;
            }
        }
        println!("type and count: {found:?}");
        for (kind, right) in [("5", 3), ("7", 5), ("8", 4), ("9", 3)] {
            for count in [right - 1, right + 1] {
                let times = found.get(&(kind.to_string(), count));
                assert!(
                    times.is_some_and(|&n| n >= 20),
                    "S{kind} with count {count}"
                );
            }
        }
    }
}

/// The types of the data records and terminators of a text, and whether they
/// have data.
fn types(text: &[u8]) -> Vec<(char, bool)> {
    let lines = text.split(|&c| c == b'\r' || c == b'\n');
    let typed = lines.filter_map(|line| {
        let kind = char::from(*line.get(1)?);
        // Type, count, address and checksum.
        let least = match kind {
            '1' | '9' => 10,
            '2' | '8' => 12,
            '3' | '7' => 14,
            _ => return None,
        };
        Some((kind, line.len() > least))
    });
    typed.collect()
}

/// Each of the types must have come up so often behind each type of data.
fn assert_often(pairs: &BTreeMap<(char, char), usize>, types: &str, least: usize) {
    for kind in "123".chars() {
        for next in types.chars() {
            let times = pairs.get(&(kind, next));
            assert!(times.is_some_and(|&n| n >= least), "S{next} behind S{kind}");
        }
    }
}

/// Among the accepted texts cells of every width must come up behind cells of
/// every width, and every terminator behind them.
#[test]
fn widths_in_accepted_texts() {
    for limits in [SMALL, FULL] {
        let mut pairs = BTreeMap::new();
        let mut all_three = 0;
        for (case, refusal) in loads(&RECORDS, limits) {
            if refusal.number != 0 {
                continue;
            }
            let mut types = types(&case.text);
            types.retain(|&(kind, has_data)| has_data || kind >= '7');
            for pair in types.windows(2) {
                *pairs.entry((pair[0].0, pair[1].0)).or_insert(0) += 1;
            }
            let has = |kind| types.contains(&(kind, true));
            all_three += usize::from(has('1') && has('2') && has('3'));
        }
        println!("types and the next: {pairs:?}, all three: {all_three}");
        assert_often(&pairs, "123789", 100);
        assert!(all_three >= 100);
    }
}

/// Every refusal must come up behind data records of two widths. Row 11 must
/// come up alone in an S1 and an S2, and with row 12 in an S3, behind every
/// width: the window has the cells that a wider record would reach.
#[test]
fn widths_in_refused_texts() {
    for limits in [SMALL, FULL] {
        let (mut mixed, mut pairs) = (BTreeMap::new(), BTreeMap::new());
        for (case, refusal) in loads(&RECORDS, limits) {
            let before = types(&case.text[..refusal.place]);
            let data: BTreeSet<char> = before
                .iter()
                .map(|&(k, _)| k)
                .filter(|&k| k < '7')
                .collect();
            if data.len() >= 2 {
                *mixed.entry(refusal.number).or_insert(0) += 1;
            }
            let rows = rows(&RECORDS, &case);
            let own = case.text.get(refusal.place + 1).copied().unwrap_or(0);
            // No window goes on after the 32-bit addresses.
            if rows == [11] || own == b'3' && rows == [11, 12] {
                for kind in data {
                    *pairs.entry((kind, char::from(own))).or_insert(0) += 1;
                }
            }
        }
        println!("behind two widths: {mixed:?}; row 11: {pairs:?}");
        for number in LOAD_NUMBERS.into_iter().filter(|&number| number > 1) {
            let times = mixed.get(&number);
            assert!(times.is_some_and(|&n| n >= 20), "row {number}");
        }
        assert_often(&pairs, "123", 20);
    }
}

/// The least and the largest right checksum must come up in row 7, in each type
/// that has data or ends the text.
#[test]
fn right_checksums() {
    for limits in [SMALL, FULL] {
        let mut found = BTreeMap::new();
        for (case, refusal) in loads(&RECORDS, limits) {
            if refusal.number == 7 && [0, 0xFF].contains(&refusal.want) {
                let kind = char::from(case.text[refusal.place + 1]);
                *found.entry((refusal.want, kind)).or_insert(0) += 1;
            }
        }
        println!("right checksum and type: {found:?}");
        for (want, kind) in "0123789".chars().flat_map(|kind| [(0, kind), (0xFF, kind)]) {
            let times = found.get(&(want, kind));
            assert!(times.is_some_and(|&n| n >= 5), "{want:02X} in an S{kind}");
        }
    }
}

#[test]
fn small_cases_are_small_and_reach_all() {
    super::small_cases_are_small_and_reach_all(&RECORDS, |c| c == b'\r' || c == b'\n', 513);
}

#[test]
fn large_cases() {
    let wanted = [
        (0, 0),
        (10, 65_536),
        (0, 0),
        (10, 65_537),
        (10, 65_537),
        (0, 0),
    ];
    assert_eq!(numbers_and_records(&RECORDS, &large_load_cases(2)), wanted);
}

#[test]
fn cases_are_drawn_again_alike() {
    super::cases_are_drawn_again_alike(&RECORDS);
}
