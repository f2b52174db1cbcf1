//! Cases with no single fault in mind: edges and odd tapes.

use super::super::{in_window, Limits, LoadCase};
use super::draft::{join, last_line, Draft};
use super::{any_window, valid, REACH};
use crate::random::Random;
use crate::tape::{Edition, EDITIONS};

/// Short lines near the ends of the window and of the addresses.
pub fn at_edges(edition: Edition, random: &mut Random, limits: Limits) -> LoadCase {
    let (low, high) = any_window(random, limits);
    let mut lines = Vec::new();
    for _ in 0..random.size(1, 4) {
        let edge = random.pick(&[0, low, low, high, high, REACH]);
        let address = (edge + random.below(5)).saturating_sub(2);
        let length = random.size(1, 4);
        let data = random.bytes(length);
        lines.push(Draft::new(address.min(REACH - 1), &data).text());
    }
    lines.push(last_line(edition, lines.len()));
    let text = join(random, &lines);
    in_window(random, text, (low, high))
}

const TAPES: &[&[u8]] = &[
    b"",
    b"\0",
    b"\x13",
    b"\r\n\0\0\0\0\0\0\x13",
    b";",
    b";0",
    b";00",
    b";01",
    b";000000",
    b";000000000",
    b";0000000000",
    b";00000000000",
    b";0000000000\r\n\x13",
    b"\0\0;0000000000",
    b"x;0000000000",
    b" ;0000000000",
    b":0000000000",
    b"00000000000",
    b";0000000000 ",
    b";0000000000;",
    b";0000000000\nx",
    b";0000000000\0;0000000000",
    b";0000000000\x13;0000010001",
    b";0000000001",
    b";0000010000",
    b";0000010001",
    b";0001000100",
    b";0001000001",
    b";00000\x1300000",
    b";00000\x0000000",
    b";0100000001",
    b";010000000001\n;0000010001",
    b";01FFFFAA02A9\n;0000010001",
    b";01FFFF0001FF\n;0000010001",
    b";02FFFF00000200\n;0000010001",
    b";0C000048656C6C6F2C20576F726C640454\n;0000010001",
    b"; Length Address Data Checksum CRLF",
    b"S9030000FC",
];

/// Tapes that are odd in themselves.
pub fn fixed(random: &mut Random, limits: Limits) -> LoadCase {
    let window = any_window(random, limits);
    let text = random.pick(TAPES).to_vec();
    in_window(random, text, window)
}

/// A line of about 255 data bytes, nearly all of them FF, where the sum is
/// about 65,536: it wraps if the two bytes of the address come to 256 or more.
pub fn longest(edition: Edition, random: &mut Random, limits: Limits) -> LoadCase {
    let length = random.pick(&[254, 255, 255, 255, 255]);
    let mut data = vec![0xFF; length];
    if random.chance(1, 4) {
        let index = random.size(0, length - 1);
        data[index] = random.byte();
    }
    let any = random.below(REACH);
    let address = random.pick(&[0xFF01, 0xFF01, 0xFF00, 0xFEFF, 0xFEFE, 0xFF02, 0x80, any]);
    let mut line = Draft::new(address, &data);
    line.check = line.check.wrapping_add(random.pick(&[0, 0, 0, 0, 1]));
    let mut line = line.text();
    // 521 characters, or one less, or one more.
    match random.below(8) {
        0 => drop(line.pop()),
        1 => line.push(b'0'),
        _ => {}
    }
    let text = join(random, &[line, last_line(edition, 1)]);
    let low = address - random.below(3);
    let most = low + limits.window as u64;
    let high = random.pick(&[address + length as u64, most, most, REACH]);
    in_window(random, text, (low, high.clamp(low, most)))
}

/// About 256 data lines, and a last line whose number or check may be wrong.
pub fn many_lines(edition: Edition, random: &mut Random, limits: Limits) -> LoadCase {
    let low = random.below(REACH - limits.window as u64);
    let high = low + limits.window as u64;
    let mut lines = valid::one_cell_lines(edition, random, (low, high));
    let number = lines.len() as u64;
    let mut last = Draft::last(edition, number);
    match random.below(5) {
        0 | 1 => last.check = last.right_check(edition.other()),
        // One byte alone.
        2 => last = Draft::last(edition, number % 256),
        3 => last = Draft::last(edition, number + 1),
        _ => {}
    }
    lines.push(last.text());
    let text = join(random, &lines);
    in_window(random, text, (low, high))
}

/// A last line alone with a number of two bytes, and the check of either
/// edition: row 10 or row 7.
pub fn either_check(random: &mut Random, limits: Limits) -> LoadCase {
    let window = any_window(random, limits);
    let any = random.between(256, REACH - 1);
    let number = random.pick(&[0x0100, 0x0101, 0x01FF, 0x0200, 0xFFFF, any, any]);
    let line = last_line(random.pick(&EDITIONS), number as usize);
    let text = join(random, &[line]);
    in_window(random, text, window)
}
