//! The symbol block before a text, and the load of a text behind one.
//!
//! A block is a line `$$ NAME`, lines of one to four pairs `NAME $hex`, and a bare
//! line `$$`. Its lines are cut as those of S-records: by CR and LF, and without
//! the empty ones.

use crate::reading::{hex_value, lines, load, row_1, Loaded, Refusal, SREC};
use std::collections::BTreeMap;

/// The most symbols of a block.
pub const MOST_SYMBOLS: usize = 1_024;

/// The most characters of a name.
pub const LONGEST_NAME: usize = 16;

/// The most digits of a value, which then fits 32 bits.
pub const MOST_DIGITS: usize = 8;

/// The most pairs of a line.
pub const MOST_PAIRS: usize = 4;

/// The bare line, which ends a block.
const BARE: &[u8] = b"$$";

/// Values by their names.
pub type Symbols = BTreeMap<Vec<u8>, u32>;

/// What a block says.
#[derive(Clone, Debug, PartialEq, Eq)]
pub struct Block {
    pub symbols: Symbols,
    /// The place right after the bare `$$`.
    pub end: usize,
}

/// Loads the text behind a symbol block. The rest is a text of its own, which
/// begins right after the bare `$$`: so does the count of its records and places.
pub fn load_behind(text: &[u8], base: u32, memory: &mut [u8], marks: &mut [u8]) -> Loaded {
    // No answer depends on what the marks held before.
    marks.fill(0);
    match row_1_or_block(text, base, memory.len(), marks.len()) {
        Ok(block) => load(&text[block.end..], base, memory, marks),
        Err(refusal) => Loaded::nothing(refusal),
    }
}

/// What both calls with a symbol block try first: row 1, and then the block.
pub(crate) fn row_1_or_block(
    text: &[u8],
    base: u32,
    memory: usize,
    marks: usize,
) -> Result<Block, Refusal> {
    if row_1(base, memory, marks) {
        return Err(refused(1, 0, 0));
    }
    read_block(text)
}

pub(crate) fn refused(number: u32, record: usize, place: usize) -> Refusal {
    Refusal {
        number,
        record,
        place,
        want: 0,
    }
}

/// Reads the block at the start of a text, up to its bare `$$`. What stands behind
/// that is not looked at.
pub fn read_block(text: &[u8]) -> Result<Block, Refusal> {
    let mut symbols = Symbols::new();
    let lines = lines(&SREC, text);
    for (number, line) in (1..).zip(&lines) {
        if number > 1 && line.line == BARE {
            let end = line.place + BARE.len();
            return Ok(Block { symbols, end });
        }
        let pairs = match number {
            1 => module_line(line.line),
            _ => symbol_line(line.line),
        };
        let refused = |row| Err(refused(row, number, line.place));
        let Some(pairs) = pairs else {
            return refused(22);
        };
        if row_23(&symbols, &pairs) {
            return refused(23);
        }
        if row_24(&symbols, &pairs) {
            return refused(24);
        }
        symbols.extend(pairs);
    }
    // No bare `$$`: row 22, at no line.
    Err(refused(22, lines.len(), text.len()))
}

/// A name and its value.
type Pair = (Vec<u8>, u32);

/// The first line. Its name is no symbol, so there are no pairs in it.
fn module_line(line: &[u8]) -> Option<Vec<Pair>> {
    match parts(line)?[..] {
        [sign, name] if sign == BARE && is_name(name) => Some(Vec::new()),
        _ => None,
    }
}

/// The pairs of another line. Row 22 applies where there are none.
fn symbol_line(line: &[u8]) -> Option<Vec<Pair>> {
    let parts = parts(line)?;
    if parts.len() > 2 * MOST_PAIRS {
        return None;
    }
    let pair = |pair: &[&[u8]]| match *pair {
        [name, value] if is_name(name) => Some((name.to_vec(), number(value)?)),
        _ => None,
    };
    parts.chunks(2).map(pair).collect()
}

/// What stands between the spaces. None if a space is not between two parts.
fn parts(line: &[u8]) -> Option<Vec<&[u8]>> {
    let outside = [line.first(), line.last()].contains(&Some(&b' '));
    let parts = line.split(|&c| c == b' ').filter(|part| !part.is_empty());
    (!outside).then(|| parts.collect())
}

/// Letters and digits, with a letter first.
pub(crate) fn is_name(word: &[u8]) -> bool {
    let first = word.first().is_some_and(u8::is_ascii_alphabetic);
    first && word.len() <= LONGEST_NAME && word.iter().all(u8::is_ascii_alphanumeric)
}

/// The value of `$` and hex digits of either case.
pub(crate) fn number(word: &[u8]) -> Option<u32> {
    let digits = word.strip_prefix(b"$")?;
    if digits.is_empty() || digits.len() > MOST_DIGITS {
        return None;
    }
    let add = |value: u32, &digit: &u8| Some(16 * value + u32::from(hex_value(digit)?));
    digits.iter().try_fold(0, add)
}

/// A name of the line stands before, in an earlier line or in this one.
fn row_23(symbols: &Symbols, pairs: &[Pair]) -> bool {
    let mut numbered = pairs.iter().enumerate();
    numbered.any(|(index, (name, _))| {
        let in_line = pairs[..index].iter().any(|(before, _)| before == name);
        in_line || symbols.contains_key(name)
    })
}

/// With this line there are too many symbols.
fn row_24(symbols: &Symbols, pairs: &[Pair]) -> bool {
    symbols.len() + pairs.len() > MOST_SYMBOLS
}
