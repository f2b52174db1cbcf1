//! Texts cut into parts, for a load in parts.

use super::{load_case, Limits, LoadCase};
use crate::parts;
use crate::random::Random;
use crate::reading::{Loaded, SREC};

/// A load in parts, with memory and marks as they are before it.
#[derive(Clone, Debug, PartialEq, Eq)]
pub struct PartsCase {
    pub parts: Vec<Vec<u8>>,
    pub base: u32,
    pub memory: Vec<u8>,
    pub marks: Vec<u8>,
}

/// The load case of this seed and index, cut.
pub fn parts_case(seed: u64, index: u64, limits: Limits) -> PartsCase {
    // The cuts have other numbers than the text.
    let random = &mut Random::new(!seed, index);
    let LoadCase {
        text,
        base,
        memory,
        marks,
    } = load_case(seed, index, limits);
    let parts = any_parts(random, &text);
    PartsCase {
        parts,
        base,
        memory,
        marks,
    }
}

impl PartsCase {
    /// Begins, feeds all parts and ends, and gives memory and marks afterwards.
    pub fn run(&self) -> (Loaded, Vec<u8>, Vec<u8>) {
        let (base, mut memory, mut marks) = (self.base, self.memory.clone(), self.marks.clone());
        let mut state = parts::begin(base, &mut memory, &mut marks);
        for part in &self.parts {
            state = parts::feed(state, part, base, &mut memory, &mut marks);
        }
        let (loaded, _) = parts::end(state, base, &mut memory, &mut marks);
        (loaded, memory, marks)
    }
}

/// Cuts a text at places in rising order. The same place twice gives an empty
/// part, and so do both ends of the text.
pub fn cut(text: &[u8], places: &[usize]) -> Vec<Vec<u8>> {
    let starts = [&[0], places].concat();
    let ends = [places, &[text.len()]].concat();
    let parts = starts.iter().zip(ends);
    parts
        .map(|(&start, end)| text[start..end].to_vec())
        .collect()
}

/// A text cut in one of many ways; an empty one can be no part at all.
pub fn any_parts(random: &mut Random, text: &[u8]) -> Vec<Vec<u8>> {
    if text.is_empty() && random.chance(1, 2) {
        return Vec::new();
    }
    let mut places = match random.below(8) {
        0 => Vec::new(),
        1 => (1..text.len()).collect(),
        2 => around_line_ends(text),
        3 => within_records(random, text),
        _ => any_places(random, text),
    };
    if random.chance(1, 3) {
        let place = random.size(0, text.len());
        places.extend([place, place]);
    }
    places.sort_unstable();
    cut(text, &places)
}

/// The ways of cutting. Each must come up.
pub const WAYS: [&str; 9] = [
    "no part",
    "one part",
    "empty part",
    "each character alone",
    "in CR LF",
    "in a record",
    "behind 514 characters",
    "behind 514 of more",
    "behind 515 characters",
];

/// In which of these ways parts are cut; some can be told more than once.
pub fn ways(parts: &[Vec<u8>]) -> Vec<&'static str> {
    let text = parts.concat();
    let mut found = Vec::new();
    let mut see = |name, seen: bool| found.extend(seen.then_some(name));
    see("no part", parts.is_empty());
    see("one part", parts.len() == 1);
    see("empty part", parts.iter().any(Vec::is_empty));
    let alone = text.len() > 1 && parts.iter().all(|part| part.len() == 1);
    see("each character alone", alone);
    let mut place = 0;
    for part in parts {
        place += part.len();
        let (before, behind) = text.split_at(place);
        let goes_on = behind.first().is_some_and(|&c| !ends_line(c));
        let in_end = before.ends_with(b"\r") && behind.starts_with(b"\n");
        see("in CR LF", in_end);
        let line = before.split(|&c| ends_line(c)).next_back();
        let length = line.map_or(0, <[u8]>::len);
        see("in a record", length > 0 && goes_on);
        see("behind 514 characters", length == 514);
        see("behind 514 of more", length == 514 && goes_on);
        see("behind 515 characters", length == 515);
    }
    found
}

fn any_places(random: &mut Random, text: &[u8]) -> Vec<usize> {
    let number = random.size(1, 6);
    (0..number).map(|_| random.size(0, text.len())).collect()
}

fn ends_line(character: u8) -> bool {
    (SREC.separates)(character)
}

/// Before and behind every character of a line end.
fn around_line_ends(text: &[u8]) -> Vec<usize> {
    let ends = |place: usize| ends_line(text[place - 1]) || ends_line(text[place]);
    (1..text.len()).filter(|&place| ends(place)).collect()
}

/// So many characters behind the start of each line, if it has them: up to each
/// of its fields, about as many as a record can have, or any number.
fn within_records(random: &mut Random, text: &[u8]) -> Vec<usize> {
    let mut places = Vec::new();
    let mut start = 0;
    for line in text.split(|&c| ends_line(c)) {
        let any = random.size(0, line.len());
        let behind = [
            1,
            2,
            3,
            4,
            SREC.longest - 1,
            SREC.longest,
            SREC.longest + 1,
            any,
        ];
        let fitting = behind.into_iter().filter(|&number| number <= line.len());
        let chosen: Vec<usize> = fitting.filter(|_| random.chance(1, 2)).collect();
        places.extend(chosen.into_iter().map(|number| start + number));
        start += line.len() + 1;
    }
    places
}
