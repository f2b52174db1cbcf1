//! The lines of tapes that are accepted.

use super::super::Limits;
use super::draft::{last_line, Draft};
use super::REACH;
use crate::random::Random;
use crate::tape::Edition;

/// Data lines in any order, and the last line.
pub fn finished(
    edition: Edition,
    random: &mut Random,
    limits: Limits,
    window: (u64, u64),
) -> Vec<Vec<u8>> {
    let cells = (window.0, window.1.min(REACH).max(window.0));
    let mut lines = if random.chance(1, 8) && cells.1 - cells.0 >= 255 {
        one_cell_lines(edition, random, cells)
    } else {
        data_lines(random, limits, cells)
    };
    random.shuffle(&mut lines);
    lines.push(last_line(edition, lines.len()));
    lines
}

/// Numbers of lines where a last line can go wrong: where its number needs a
/// second digit pair, and where the sum of both pairs does or does no longer.
fn numbers(edition: Edition) -> &'static [u64] {
    match edition {
        Edition::Repeat => &[255, 256, 256, 257],
        Edition::Sum => &[255, 256, 256, 257, 511, 512],
    }
}

/// Lines of one cell, about as many as need a second digit pair for their
/// number.
pub fn one_cell_lines(
    edition: Edition,
    random: &mut Random,
    (low, high): (u64, u64),
) -> Vec<Vec<u8>> {
    let most = high - low;
    let some = random.between(0, most);
    let numbers = [numbers(edition), &[some, most]].concat();
    let number = random.pick(&numbers).min(most);
    let mut addresses: Vec<u64> = (low..high).collect();
    random.shuffle(&mut addresses);
    addresses.truncate(number as usize);
    addresses
        .into_iter()
        .map(|address| Draft::new(address, &random.bytes(1)).text())
        .collect()
}

/// Data lines without overlap. The window is cut at random and some of the
/// pieces are used, so that lines touch each other and the window's ends.
fn data_lines(random: &mut Random, limits: Limits, (low, high): (u64, u64)) -> Vec<Vec<u8>> {
    let mut cuts = vec![low, high];
    for _ in 0..random.size(0, limits.records) {
        cuts.push(random.between(low, high));
    }
    cuts.sort_unstable();
    let mut lines = Vec::new();
    for piece in cuts.windows(2) {
        let most = limits.data as u64;
        let length = (piece[1] - piece[0]).min(most);
        let address = random.pick(&[piece[0], piece[1] - length]);
        if length > 0 && random.chance(3, 4) {
            let data = content(random, length as usize);
            lines.push(Draft::new(address, &data).text());
        }
    }
    lines
}

/// Any bytes, or the largest.
fn content(random: &mut Random, length: usize) -> Vec<u8> {
    if random.chance(1, 6) {
        vec![0xFF; length]
    } else {
        random.bytes(length)
    }
}
