//! The records of texts that are accepted.

use super::draft::{
    any_width, count_record, data_kind, empty_record, most_data, reach, terminator, Draft,
};
use super::Limits;
use crate::random::Random;

/// A width, mostly one that reaches into the window.
fn fitting_width(random: &mut Random, (low, _): (u64, u64)) -> usize {
    loop {
        let width = any_width(random);
        if low < reach(width) || random.chance(1, 8) {
            return width;
        }
    }
}

/// A width that reaches all cells below `end`.
fn reaching_width(random: &mut Random, end: u64) -> usize {
    loop {
        let width = any_width(random);
        if end <= reach(width) {
            return width;
        }
    }
}

/// Header, data and count records with the terminator last.
pub fn finished(random: &mut Random, limits: Limits, window: (u64, u64)) -> Vec<Vec<u8>> {
    // One width for all data, or any for each record.
    let one_width = fitting_width(random, window);
    let width = random.chance(1, 3).then_some(one_width);
    let mut data = data_records(random, limits, window, width);
    random.shuffle(&mut data);
    let mut records = Vec::new();
    if random.chance(2, 3) {
        records.push(header(random, limits));
    }
    let count_chance = random.pick(&[0, 1, 3]);
    for (number, record) in data.iter().enumerate() {
        while random.chance(count_chance, 6) {
            records.push(count_record(number));
        }
        records.push(record.clone());
    }
    while random.chance(1, 3) {
        records.push(count_record(data.len()));
    }
    records.push(terminator(random));
    records
}

/// A header of any length; its address has no meaning.
fn header(random: &mut Random, limits: Limits) -> Vec<u8> {
    let most = limits.data.min(most_data(2));
    let between = random.size(0, most);
    let length = random.pick(&[0, 3, most, between]);
    let address = random.below(1 << 16);
    let address = random.pick(&[0, 0, 0xFFFF, address]);
    let data = random.bytes(length);
    Draft::new(b'0', address, &data).text()
}

/// Data records without overlap. The window is cut at random and some of the
/// pieces are used, so that records touch each other and the window's ends.
fn data_records(
    random: &mut Random,
    limits: Limits,
    (low, high): (u64, u64),
    width: Option<usize>,
) -> Vec<Vec<u8>> {
    let high = high.min(reach(width.unwrap_or(4))).max(low);
    let mut cuts = vec![low, high];
    // A record on each side of the end of a width.
    if random.chance(1, 2) {
        let ends = [reach(2), reach(3)];
        cuts.extend(ends.iter().filter(|&end| (low..high).contains(end)));
    }
    for _ in 0..random.size(0, limits.records) {
        cuts.push(random.between(low, high));
    }
    cuts.sort_unstable();
    let mut records = Vec::new();
    for piece in cuts.windows(2) {
        let width = width.unwrap_or_else(|| reaching_width(random, piece[1]));
        let most = limits.data.min(most_data(width)) as u64;
        let length = (piece[1] - piece[0]).min(most);
        let address = random.pick(&[piece[0], piece[1] - length]);
        if length > 0 && random.chance(3, 4) {
            let data = random.bytes(length as usize);
            records.push(Draft::new(data_kind(width), address, &data).text());
        }
    }
    let most_empty = if random.chance(1, 40) { 600 } else { 2 };
    for _ in 0..random.size(0, most_empty) {
        let width = width.unwrap_or_else(|| any_width(random));
        records.push(without_data(random, (low, high), width));
    }
    records
}

/// A data record without data, which may stand anywhere.
fn without_data(random: &mut Random, (low, high): (u64, u64), width: usize) -> Vec<u8> {
    let last = reach(width) - 1;
    let between = random.between(0, last);
    let address = random.pick(&[0, last, low, high, low.saturating_sub(1), between]);
    empty_record(width, address.min(last))
}
