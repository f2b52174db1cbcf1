//! Symbol blocks, and how they are written.

use super::Size;
use crate::random::Random;
use crate::reading::Refusal;
use crate::symbols::{refused, LONGEST_NAME, MOST_DIGITS, MOST_PAIRS, MOST_SYMBOLS};

pub type Symbol = (Vec<u8>, u32);

/// What a block says.
pub struct Block {
    pub module: Vec<u8>,
    pub lines: Vec<Vec<Symbol>>,
}

/// A block as it is written, line by line.
pub struct Page {
    pub lines: Vec<Vec<u8>>,
    pub wrong: Option<Wrong>,
}

/// What is wrong with a block, by name; the row that refuses it, and where.
pub struct Wrong {
    pub way: String,
    pub row: u32,
    pub at: At,
}

/// Where a block is wrong.
#[derive(Clone, Copy)]
pub enum At {
    Line(usize),
    /// At its end, where the bare line is missing.
    End,
}

const LETTERS: &[u8] = b"ABCDEFGHIJKLMNOPQRSTUVWXYZabcdefghijklmnopqrstuvwxyz";
pub const DIGITS: &[u8] = b"0123456789";

pub fn any_name(random: &mut Random) -> Vec<u8> {
    let few = random.size(2, 6);
    let length = random.pick(&[1, few, few, few, LONGEST_NAME - 1, LONGEST_NAME]);
    name_of(random, length)
}

pub fn name_of(random: &mut Random, length: usize) -> Vec<u8> {
    let mut name = vec![random.pick(LETTERS)];
    while name.len() < length {
        let from = random.pick(&[LETTERS, LETTERS, DIGITS]);
        name.push(random.pick(from));
    }
    name
}

/// Another name that is much like this one: one character less or more, or one of
/// the other case.
pub fn similar(random: &mut Random, name: &[u8]) -> Vec<u8> {
    let mut name = name.to_vec();
    match random.below(3) {
        0 if name.len() > 1 => drop(name.pop()),
        1 if name.len() < LONGEST_NAME => name.push(random.pick(b"0Aaz9")),
        _ => name[0] ^= 0x20,
    }
    name
}

/// A name that is none of these.
pub fn fresh(random: &mut Random, taken: &[Symbol]) -> Vec<u8> {
    loop {
        let name = match taken {
            [] => any_name(random),
            _ if random.chance(2, 3) => any_name(random),
            _ => {
                let near = random.size(0, taken.len() - 1);
                similar(random, &taken[near].0)
            }
        };
        if taken.iter().all(|(other, _)| *other != name) {
            return name;
        }
    }
}

/// Often an end of the addresses or of the window.
fn any_value(random: &mut Random, (low, high): (u64, u64)) -> u32 {
    let few = random.below(32) as u32;
    let within = random.between(low, high) as u32;
    let any = random.word() as u32;
    random.pick(&[0, 1, u32::MAX, few, few, low as u32, within, within, any])
}

/// `$` and digits of either case, with zeros before them or without.
pub fn digits(random: &mut Random, value: u32) -> Vec<u8> {
    let width = random.pick(&[1, 1, 2, 4, MOST_DIGITS]);
    match random.below(3) {
        0 => format!("${value:0width$x}"),
        _ => format!("${value:0width$X}"),
    }
    .into_bytes()
}

/// A right block. Its values are often of use in a window.
pub fn any(random: &mut Random, size: Size, window: (u64, u64)) -> Block {
    if size.large && random.chance(1, 40) {
        return crowd(random, MOST_SYMBOLS);
    }
    let some = random.size(1, size.symbols);
    let number = random.pick(&[0, 1, some, some, some, some, some, some]);
    some_symbols(random, number, window)
}

pub fn some_symbols(random: &mut Random, number: usize, window: (u64, u64)) -> Block {
    let module = any_name(random);
    let mut symbols: Vec<Symbol> = Vec::new();
    if number > 0 && random.chance(1, 6) {
        symbols.push((module.clone(), any_value(random, window)));
    }
    while symbols.len() < number {
        let name = fresh(random, &symbols);
        symbols.push((name, any_value(random, window)));
    }
    random.shuffle(&mut symbols);
    let lines = in_lines(random, symbols);
    Block { module, lines }
}

/// So many symbols, mostly with short names.
pub fn crowd(random: &mut Random, number: usize) -> Block {
    let module = any_name(random);
    let letter = random.pick(LETTERS);
    let symbol = |index: usize| {
        let name = format!("{}{index}", letter as char).into_bytes();
        (name, index as u32)
    };
    let lines = in_lines(random, (0..number).map(symbol).collect());
    Block { module, lines }
}

/// One to four in a line, or as many in each.
fn in_lines(random: &mut Random, symbols: Vec<Symbol>) -> Vec<Vec<Symbol>> {
    let each = random.size(1, MOST_PAIRS);
    let alike = random.chance(1, 2);
    let mut lines = Vec::new();
    let mut rest = &symbols[..];
    while !rest.is_empty() {
        let number = if alike {
            each
        } else {
            random.size(1, MOST_PAIRS)
        };
        let (line, behind) = rest.split_at(number.min(rest.len()));
        lines.push(line.to_vec());
        rest = behind;
    }
    lines
}

/// Names and values as they are written.
pub type Pairs = Vec<(Vec<u8>, Vec<u8>)>;

pub fn written(random: &mut Random, symbols: &[Symbol]) -> Pairs {
    let pair = |(name, value): &Symbol| (name.clone(), digits(random, *value));
    symbols.iter().map(pair).collect()
}

pub fn line_of(random: &mut Random, pairs: &Pairs) -> Vec<u8> {
    let parts: Vec<&[u8]> = pairs.iter().flat_map(|(n, v)| [&n[..], &v[..]]).collect();
    with_spaces(random, &parts)
}

/// The parts with one space or more between each two.
pub fn with_spaces(random: &mut Random, parts: &[&[u8]]) -> Vec<u8> {
    let most = random.pick(&[1, 1, 1, 3]);
    let mut line = Vec::new();
    for (index, part) in parts.iter().enumerate() {
        if index > 0 {
            line.extend(vec![b' '; random.size(1, most)]);
        }
        line.extend(*part);
    }
    line
}

impl Block {
    pub fn symbols(&self) -> Vec<Symbol> {
        self.lines.concat()
    }

    pub fn page(&self, random: &mut Random) -> Page {
        let mut lines = vec![with_spaces(random, &[b"$$", &self.module])];
        for symbols in &self.lines {
            let pairs = written(random, symbols);
            lines.push(line_of(random, &pairs));
        }
        lines.push(b"$$".to_vec());
        Page { lines, wrong: None }
    }
}

/// What stands between lines.
const ENDS: [&[u8]; 6] = [b"\n", b"\r", b"\r\n", b"\n\r", b"\n\n\n", b"\r\r\n\r"];

pub fn any_end(random: &mut Random) -> &'static [u8] {
    random.pick(&ENDS)
}

impl Page {
    /// The names of what is wrong.
    pub fn made(&self) -> Vec<String> {
        let wrong = self.wrong.iter();
        wrong.map(|wrong| wrong.way.clone()).collect()
    }

    /// The text up to its last line, and the refusal that it must have. Where the
    /// bare line is missing, some ends of lines may still stand there.
    pub fn text(&self, random: &mut Random) -> (Vec<u8>, Option<Refusal>) {
        let mixed = random.chance(1, 4);
        let mut end = any_end(random);
        let (mut text, mut places) = (Vec::new(), Vec::new());
        if random.chance(1, 6) {
            text.extend(end);
        }
        for (index, line) in self.lines.iter().enumerate() {
            if index > 0 {
                text.extend(end);
            }
            places.push(text.len());
            text.extend(line);
            if mixed {
                end = any_end(random);
            }
        }
        let aim = self.wrong.as_ref().map(|wrong| match wrong.at {
            At::Line(line) => refused(wrong.row, line + 1, places[line]),
            At::End => {
                if random.chance(2, 3) {
                    text.extend(end);
                }
                refused(wrong.row, self.lines.len(), text.len())
            }
        });
        (text, aim)
    }
}
