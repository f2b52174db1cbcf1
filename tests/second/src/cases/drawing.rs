//! How the cases of a format are drawn, by what the format has of its own.

use super::faults::Rows;
use super::{contents, in_window, Limits, LoadCase, WriteCase, TOP};
use crate::random::Random;
use crate::reading::{Format, Loader, Writer};

/// Draws the lines of a text that fits a window, with the one that ends it.
type DrawLines = fn(&mut Random, Limits, (u64, u64)) -> Vec<Vec<u8>>;

/// The calls of a format, and how cases for them are drawn.
pub struct Drawing {
    pub load: Loader,
    pub write: Writer,
    pub small: Limits,
    pub full: Limits,
    /// What a load can answer.
    pub numbers: &'static [u32],
    /// Whether two of the rows 2 to 13 can apply to the same line.
    pub can_meet: fn(u32, u32) -> bool,
    /// The rows that apply to the refused line of a text, in a window given by
    /// base and length.
    pub rows_of_refused: fn(&[u8], u32, usize) -> Vec<u32>,
    pub(super) format: &'static Format,
    /// An allowed window.
    pub(super) window: fn(&mut Random, Limits) -> (u64, u64),
    pub(super) lines: DrawLines,
    /// Makes one text of lines.
    pub(super) join: fn(&mut Random, &[Vec<u8>]) -> Vec<u8>,
    /// A text with one line to which the rows apply.
    pub(super) faulty: fn(&mut Random, Limits, Rows) -> LoadCase,
    /// A case with no single fault in mind.
    pub(super) open: fn(&mut Random, Limits) -> LoadCase,
    /// For row 1: whether the window passes 2^32, and whether the marks are of
    /// another length.
    pub(super) unfit: &'static [(bool, bool)],
    /// What a change puts into a right text, besides any character.
    pub(super) characters: &'static [u8],
    /// What a change puts there besides, where this is not empty.
    pub(super) separators: &'static [u8],
    /// What a text in no order is made of.
    pub(super) scrambled: &'static [u8],
    /// The refusals of the writer in the order in which they are tried.
    pub(super) write_rows: [u32; 5],
    /// A write case to which the rows apply, and none above them.
    pub(super) refused_write: fn(&mut Random, Limits, &[u32]) -> WriteCase,
}

/// What a load case is made for.
enum Aim {
    Accepted,
    Row1,
    /// Rows 2 to 13 that all apply to one line.
    Faults(Rows),
    Row14,
    /// Whatever comes of it.
    Open,
}

impl Drawing {
    /// Of four cases in a row, one takes its turn through all refusals, one
    /// through all pairs of rows, one is accepted and one is open.
    fn aim(&self, index: u64) -> Aim {
        let turn = index / 4;
        match index % 4 {
            0 => match (turn % 15) as u32 {
                1 => Aim::Row1,
                14 => Aim::Row14,
                row if row > 0 && self.numbers.contains(&row) => Aim::Faults(Rows::of(&[row])),
                // No row, or one that the format does not have.
                _ => Aim::Accepted,
            },
            1 => {
                let pairs = self.pairs();
                let (upper, lower) = pairs[(turn % pairs.len() as u64) as usize];
                Aim::Faults(Rows::of(&[upper, lower]))
            }
            2 => Aim::Accepted,
            _ => Aim::Open,
        }
    }

    /// The refusal number a load case must have by its making, where one is
    /// known.
    pub fn aimed_number(&self, index: u64) -> Option<u32> {
        match self.aim(index) {
            Aim::Accepted => Some(0),
            Aim::Row1 => Some(1),
            Aim::Faults(rows) => Some(rows.first()),
            Aim::Row14 => Some(14),
            Aim::Open => None,
        }
    }

    pub fn load_case(&self, seed: u64, index: u64, limits: Limits) -> LoadCase {
        let aim = self.aim(index);
        let random = &mut Random::new(seed, index);
        // A text that came out too long is drawn again.
        loop {
            let case = match aim {
                Aim::Accepted => self.accepted(random, limits),
                Aim::Row1 => self.unfit_window(random, limits),
                Aim::Faults(rows) => (self.faulty)(random, limits, rows),
                Aim::Row14 => self.unfinished(random, limits),
                Aim::Open => (self.open)(random, limits),
            };
            if self.fits(&case.text, limits) {
                return case;
            }
        }
    }

    /// The rows a write case is made for: each alone or none in turn, then every
    /// set.
    fn write_aim(&self, index: u64) -> Vec<u32> {
        let (turn, rows) = (index / 2, self.write_rows);
        if index.is_multiple_of(2) {
            return rows.get((turn % 6) as usize).copied().into_iter().collect();
        }
        let chosen = |&(bit, _): &(usize, u32)| (turn % 32) & (1 << bit) != 0;
        let numbered = rows.into_iter().enumerate();
        numbered.filter(chosen).map(|(_, row)| row).collect()
    }

    /// The refusal number a write case must have by its making.
    pub fn aimed_write_number(&self, index: u64) -> u32 {
        self.write_aim(index).first().copied().unwrap_or(0)
    }

    pub fn write_case(&self, seed: u64, index: u64, limits: Limits) -> WriteCase {
        let mut random = Random::new(seed, index);
        (self.refused_write)(&mut random, limits, &self.write_aim(index))
    }

    fn fits(&self, text: &[u8], limits: Limits) -> bool {
        let mut lines = text.split(|&c| (self.format.separates)(c));
        let longest = lines.any(|line| line.len() >= self.format.longest - 1);
        text.len() <= limits.text || longest && text.len() <= limits.long_text
    }

    /// All pairs of rows that can apply to the same line.
    fn pairs(&self) -> Vec<(u32, u32)> {
        let all = (2..=13).flat_map(|upper| (upper + 1..=13).map(move |lower| (upper, lower)));
        all.filter(|&(upper, lower)| (self.can_meet)(upper, lower))
            .collect()
    }

    /// A text with one line to which three rows apply.
    pub fn three_faults(&self, random: &mut Random, limits: Limits) -> LoadCase {
        let pairs = self.pairs();
        loop {
            let (upper, lower) = random.pick(&pairs);
            let third = random.between(2, 13) as u32;
            let meet = (self.can_meet)(upper, third) && (self.can_meet)(lower, third);
            if third > lower && meet {
                return (self.faulty)(random, limits, Rows::of(&[upper, lower, third]));
            }
        }
    }

    /// A text in any style that fits its window.
    fn accepted(&self, random: &mut Random, limits: Limits) -> LoadCase {
        let window = (self.window)(random, limits);
        let lines = (self.lines)(random, limits, window);
        let text = (self.join)(random, &lines);
        in_window(random, text, window)
    }

    /// A text that is right but for the missing line that ends it: row 14.
    fn unfinished(&self, random: &mut Random, limits: Limits) -> LoadCase {
        let window = (self.window)(random, limits);
        let mut lines = (self.lines)(random, limits, window);
        lines.pop();
        let text = match random.below(8) {
            0 => Vec::new(),
            1 => (self.join)(random, &[Vec::new(), Vec::new()]),
            _ => (self.join)(random, &lines),
        };
        in_window(random, text, window)
    }

    /// Row 1, whatever the text is.
    fn unfit_window(&self, random: &mut Random, limits: Limits) -> LoadCase {
        let mut case = if random.chance(1, 2) {
            self.accepted(random, limits)
        } else {
            self.mutated(random, limits)
        };
        let (top, marks) = random.pick(self.unfit);
        if top {
            pass_top(random, limits, &mut case);
        }
        if marks {
            unequal_marks(random, limits, &mut case);
        }
        case
    }

    /// An accepted text with one or two changes of a character or a stretch.
    pub fn mutated(&self, random: &mut Random, limits: Limits) -> LoadCase {
        let mut case = self.accepted(random, limits);
        for _ in 0..random.size(1, 2) {
            self.mutate(random, &mut case.text);
        }
        case
    }

    fn mutate(&self, random: &mut Random, text: &mut Vec<u8>) {
        if text.is_empty() {
            return;
        }
        let place = random.size(0, text.len() - 1);
        let separated = !self.separators.is_empty();
        match random.below(8 + u64::from(separated)) {
            0 | 1 => text[place] = self.any_character(random),
            2 | 3 => text.insert(place, self.any_character(random)),
            4 => drop(text.remove(place)),
            5 => text[place] ^= random.pick(&[0x01, 0x20, 0x80]),
            6 => text.truncate(place),
            // A separator inside a line, or one more between two.
            7 if separated => text.insert(place, random.pick(self.separators)),
            _ => {
                let end = random.size(place, text.len());
                let stretch = text[place..end].to_vec();
                text.extend(stretch);
            }
        }
    }

    fn any_character(&self, random: &mut Random) -> u8 {
        let any = random.byte();
        random.pick(&[self.characters, &[any]].concat())
    }

    /// Characters of a few kinds in no order.
    pub fn scrambled(&self, random: &mut Random, limits: Limits) -> LoadCase {
        let window = (self.window)(random, limits);
        let length = random.size(0, 40);
        let text = (0..length).map(|_| random.pick(self.scrambled)).collect();
        in_window(random, text, window)
    }
}

/// A window that passes 2^32, often by one cell.
pub(super) fn pass_top(random: &mut Random, limits: Limits, case: &mut LoadCase) {
    let length = random.size(2, limits.window);
    let some = random.size(1, length - 1);
    let past = random.pick(&[1, some]);
    case.base = (TOP - length as u64) as u32 + past as u32;
    case.memory = contents(random, length);
    case.marks = contents(random, length);
}

/// Marks of another length than the memory.
pub(super) fn unequal_marks(random: &mut Random, limits: Limits, case: &mut LoadCase) {
    let right = case.memory.len();
    let any = random.size(0, limits.window);
    let other = random.pick(&[0, right.saturating_sub(1), right + 1, any]);
    let other = if other == right { right + 1 } else { other };
    case.marks = contents(random, other);
}

/// Makes one text of the lines, in one of the styles of ends and digits. The
/// ends change in one of `mixed` texts.
pub fn join(
    random: &mut Random,
    format: &Format,
    (ends, mixed): (&[&[u8]], u64),
    lines: &[Vec<u8>],
) -> Vec<u8> {
    let mixed_ends = random.chance(1, mixed);
    let mut end = random.pick(ends);
    let lower_of_four = random.pick(&[0, 4, 2]);
    let mut text = Vec::new();
    if random.chance(1, 6) {
        text.extend(end);
    }
    for (index, line) in lines.iter().enumerate() {
        if index > 0 {
            text.extend(end);
        }
        for (index, &character) in line.iter().enumerate() {
            // Only hex digits change case.
            let digit = index >= format.lead && (b'A'..=b'F').contains(&character);
            let lower = digit && random.chance(lower_of_four, 4);
            text.push(if lower { character | 0x20 } else { character });
        }
        if mixed_ends {
            end = random.pick(ends);
        }
    }
    if random.chance(2, 3) {
        text.extend(end);
    }
    text
}
