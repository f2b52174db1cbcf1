//! The few cases that need more records than an S5 can count.

use super::draft::{any_width, count_record, data_kind, terminator, Draft};
use super::{in_window, LoadCase, WriteCase};
use crate::random::Random;
use crate::reading::canonical;

/// One more than the largest number of an S5.
const MANY: usize = 65_536;

/// 65,535 and 65,536 data records, with and without a count record.
pub fn large_load_cases(seed: u64) -> Vec<LoadCase> {
    let random = &mut Random::new(seed, MANY as u64);
    vec![
        counted(random, MANY - 1, Some(MANY - 1)),
        counted(random, MANY - 1, Some(MANY - 2)),
        counted(random, MANY, None),
        counted(random, MANY, Some(0)),
        counted(random, MANY, Some(MANY - 1)),
        counted_before_the_last(random),
    ]
}

/// As many records of one cell, followed by the count record if there is one.
fn counted(random: &mut Random, number: usize, count: Option<usize>) -> LoadCase {
    let mut records = one_cell_records(random, number);
    records.extend(count.map(count_record));
    records.push(terminator(random));
    in_window(random, lines(&records), (0, number as u64))
}

/// An S5 is right before the last of 65,536 data records.
fn counted_before_the_last(random: &mut Random) -> LoadCase {
    let mut records = one_cell_records(random, MANY);
    records.insert(MANY - 1, count_record(MANY - 1));
    records.push(terminator(random));
    in_window(random, lines(&records), (0, MANY as u64))
}

/// In all widths: each of them reaches 65,536 cells.
fn one_cell_records(random: &mut Random, number: usize) -> Vec<Vec<u8>> {
    (0..number as u64)
        .map(|address| {
            let kind = data_kind(any_width(random));
            Draft::new(kind, address, &random.bytes(1)).text()
        })
        .collect()
}

fn lines(records: &[Vec<u8>]) -> Vec<u8> {
    records.join(&b'\n')
}

/// 65,535 and 65,536 cells that touch no other, with enough room and one less.
pub fn large_write_cases(seed: u64) -> Vec<WriteCase> {
    let random = &mut Random::new(seed, 1 + MANY as u64);
    vec![
        isolated(random, 0, MANY - 1, 0),
        isolated(random, 0, MANY, 0),
        isolated(random, 0x7FFF, MANY, 1),
        isolated(random, 0xFFFE_0000, MANY, 0),
    ]
}

fn isolated(random: &mut Random, base: u32, number: usize, missing: usize) -> WriteCase {
    let memory = random.bytes(2 * number);
    let marks: Vec<u8> = (0..2 * number).map(|index| 1 - (index % 2) as u8).collect();
    let header = random.bytes(5);
    let entry = base;
    let needed = canonical(base, &memory, &marks, &header, entry).len();
    WriteCase {
        base,
        memory,
        marks,
        header,
        entry: Some(entry),
        room: needed - missing,
    }
}
