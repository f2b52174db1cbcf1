//! Cases with no single fault in mind: edges and odd texts.

use super::draft::{any_width, count_record, data_kind, end_kind, join, reach, terminator, Draft};
use super::{any_window, in_window, Limits, LoadCase};
use crate::random::Random;

/// Short records near the ends of the window and of the widths.
pub fn at_edges(random: &mut Random, limits: Limits) -> LoadCase {
    let (low, high) = any_window(random, limits);
    let near = |width: usize, random: &mut Random| {
        let edge = random.pick(&[0, low, low, high, high, reach(2), reach(3), reach(4)]);
        let address = (edge + random.below(5)).saturating_sub(2);
        address.min(reach(width) - 1)
    };
    let mut records = Vec::new();
    let number = random.size(1, 4);
    for _ in 0..number {
        let width = any_width(random);
        let length = random.size(0, 4);
        let data = random.bytes(length);
        records.push(Draft::new(data_kind(width), near(width, random), &data).text());
    }
    if random.chance(1, 3) {
        records.push(count_record(number));
    }
    let width = any_width(random);
    records.push(Draft::new(end_kind(width), near(width, random), &[]).text());
    let text = join(random, &records);
    in_window(random, text, (low, high))
}

const TEXTS: &[&[u8]] = &[
    b"",
    b"\n",
    b"\r\n\r\r\n\n",
    b"\0",
    b"S",
    b"S9",
    b"S90",
    b"S900",
    b"S100",
    b"S101FE",
    b"S10200FD",
    b"S9030000FC",
    b"\n\rS9030000fc\r\r",
    b"s9030000FC",
    b"S9030000FD",
    b" S9030000FC",
    b"S9030000FC ",
    b"S9030000FC\0",
    b"S9030000FC\nx",
    b"S9030000FC\n\n\r\nS9030000FC\n",
    b"S804000AF001",
    b"S804000AF0001",
    b"S70500000000FA",
    b"S70400000000FB",
    b"S50500000050AA",
    b"S504000000FB",
    b"S504000000FB\nS9030000FC",
    b"S50200FD\nS9030000FC",
    b"S904000000FB",
    b"S90200FD",
    b"S80500000000FA",
    b"S8030000FC",
    b"S7060000000000F9",
    b"S704000000FB",
    b"S5030000FC\nS0030000FC\nS9030000FC",
    b"S0030000FC\nS0030000FC\nS9030000FC",
    b"S1030000FC\nS804000000FB",
    b"S1030000FC\nS204000000FB\nS30500000000FA\nS804000000FB",
    b"S30500000000FA\nS1030000FC\nS9030000FC",
    b"S30500000000FA\nS105FFFF1122C9\nS70500000000FA",
    b"S1030000FC\nS5030001FB\nS9030000FC",
    b"S4030000FC\nS9030000FC",
    b"S6030000FC\nS9030000FC",
];

/// Texts that are odd in themselves, and those of the longest records.
pub fn fixed(random: &mut Random, limits: Limits) -> LoadCase {
    let window = any_window(random, limits);
    let text = if random.chance(2, 3) {
        random.pick(TEXTS).to_vec()
    } else {
        let kind = random.pick(b"0123");
        let width = usize::from(kind.max(b'1') - b'0') + 1;
        let mut longest = Draft::new(kind, window.0 % reach(width), &random.bytes(254 - width));
        longest.checksum_error = random.pick(&[0, 0, 0, 1]);
        let mut longest = longest.text();
        // 514 characters, or one less, or one more.
        match random.below(3) {
            0 => drop(longest.pop()),
            1 => longest.push(b'0'),
            _ => {}
        }
        let end = terminator(random);
        join(random, &[longest, end])
    };
    in_window(random, text, window)
}
