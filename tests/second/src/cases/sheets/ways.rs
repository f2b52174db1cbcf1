//! What comes up in a case of a symbol block or of a sheet.

use super::{bad_blocks, fields, Call, Case, Size, BEHIND_NUMBERS, SHEET_NUMBERS};
use crate::expressions::{value, DEEPEST};
use crate::sheets::HEAD;
use crate::symbols::{read_block, Block, LONGEST_NAME, MOST_SYMBOLS};
use std::collections::BTreeSet;

/// How blocks are that are right.
const BLOCKS: [&str; 23] = [
    "no symbols",
    "one symbol",
    "a line of one pair",
    "a line of two pairs",
    "a line of three pairs",
    "a line of four pairs",
    "a name of one character",
    "a name of 16 characters",
    "a name with a digit",
    "two names alike but for case",
    "a name that begins another",
    "the first line's name as a symbol",
    "16 characters in the first line's name",
    "a value of one digit",
    "a value of eight digits",
    "the value FFFFFFFF",
    "small digits",
    "several spaces",
    "an empty line before the block",
    "an empty line in the block",
    "lines that end in CR",
    "lines that end in LF",
    "nothing behind the block",
];

/// How sheets are that are right.
const SHEETS: [&str; 29] = [
    "no fields",
    "one pair",
    "several pairs",
    "no data in the window",
    "no data outside the window",
    "no data on an addressed cell",
    "one data byte",
    "first cell of the window",
    "last cell of the window",
    "all cells of the window",
    "a window without cells",
    "cell 0",
    "cell FFFFFFFF",
    "pairs that touch",
    "falling addresses",
    "an old mark above 1",
    "a byte that stays",
    "a number alone",
    "a name alone",
    "a name of one character in a text",
    "a name of 16 characters in a text",
    "a number of one digit",
    "a number of eight digits",
    "brackets",
    "32 open brackets",
    "a step behind a difference",
    "a sum of FFFFFFFF",
    "a difference of 0",
    "records behind the block",
];

impl Call {
    /// What it can answer.
    pub fn numbers(self) -> &'static [u32] {
        match self {
            Call::Behind => &BEHIND_NUMBERS,
            Call::Sheet => &SHEET_NUMBERS,
        }
    }

    /// What must come up in cases of it.
    pub fn wanted(self, size: Size) -> Vec<String> {
        let numbers = self.numbers().iter();
        let numbers = numbers.filter(|&&number| size.large || number != 24);
        let mut wanted: Vec<String> = numbers.map(|&number| answered(number)).collect();
        wanted.extend(bad_blocks::wrong_ways(size));
        let mut names = vec!["row 1 by the top", "row 1 by the marks"];
        names.extend(["row 1 before another row", "changed text"]);
        names.extend(BLOCKS);
        if self == Call::Sheet {
            wanted.extend(fields::wrong_ways());
            names.extend(SHEETS);
            names.extend(["changed sheet", "text in no order"]);
            names.push("a wrong block before a wrong sheet");
        }
        if size.large {
            names.push("1,024 symbols");
        }
        if size.large && self == Call::Sheet {
            names.extend(["256 data bytes or more", "a text of 256 characters or more"]);
        }
        wanted.extend(names.into_iter().map(str::to_string));
        wanted
    }
}

fn answered(number: u32) -> String {
    format!("answered by {number}")
}

/// Which of these come up; some can be told more than once.
pub fn ways(case: &Case) -> Vec<String> {
    let number = case.run().0.refusal.number;
    let mut ways = case.made.clone();
    ways.push(answered(number));
    if number == 1 {
        return ways;
    }
    if let Ok(block) = read_block(&case.load.text) {
        ways.extend(block_ways(&case.load.text, &block));
        if number == 0 && case.call == Call::Sheet {
            ways.extend(sheet_ways(case, &block));
        }
    }
    ways
}

/// Those that were seen.
fn seen<const N: usize>(ways: [(&str, bool); N]) -> Vec<String> {
    let seen = ways.into_iter().filter(|(_, seen)| *seen);
    seen.map(|(way, _)| way.to_string()).collect()
}

fn is_end(c: &u8) -> bool {
    matches!(c, b'\r' | b'\n')
}

fn block_ways(text: &[u8], block: &Block) -> Vec<String> {
    let whole = text;
    let text = &whole[..block.end];
    let lines: Vec<&[u8]> = text.split(is_end).filter(|line| !line.is_empty()).collect();
    let parts = |line: &[u8]| {
        let parts = line.split(|&c| c == b' ').filter(|part| !part.is_empty());
        parts.map(<[u8]>::to_vec).collect::<Vec<_>>()
    };
    let module = parts(lines[0])[1].clone();
    let symbols = &lines[1..lines.len() - 1];
    let pairs = |number: usize| symbols.iter().any(|line| parts(line).len() == 2 * number);
    let names: Vec<&Vec<u8>> = block.symbols.keys().collect();
    let all = symbols.concat();
    let values: Vec<Vec<u8>> = symbols
        .iter()
        .flat_map(|line| parts(line))
        .filter(|part| part[0] == b'$')
        .collect();
    let folded: BTreeSet<Vec<u8>> = names.iter().map(|name| name.to_ascii_lowercase()).collect();
    // Names that begin alike stand beside each other, in their order.
    let begins = names.windows(2).any(|two| two[1].starts_with(two[0]));
    // A line's own end is one character, or CR LF.
    let double = |ends: &[u8]| text.windows(ends.len()).any(|found| found == ends);
    let empty = double(b"\n\n") || double(b"\r\r") || double(b"\n\r");
    let has = |end: u8| text.contains(&end);
    seen([
        ("no symbols", names.is_empty()),
        ("one symbol", names.len() == 1),
        ("1,024 symbols", names.len() == MOST_SYMBOLS),
        ("a line of one pair", pairs(1)),
        ("a line of two pairs", pairs(2)),
        ("a line of three pairs", pairs(3)),
        ("a line of four pairs", pairs(4)),
        (
            "a name of one character",
            names.iter().any(|name| name.len() == 1),
        ),
        (
            "a name of 16 characters",
            names.iter().any(|name| name.len() == LONGEST_NAME),
        ),
        (
            "a name with a digit",
            names.iter().any(|name| name.iter().any(u8::is_ascii_digit)),
        ),
        ("two names alike but for case", folded.len() < names.len()),
        ("a name that begins another", begins),
        (
            "the first line's name as a symbol",
            block.symbols.contains_key(&module),
        ),
        (
            "16 characters in the first line's name",
            module.len() == LONGEST_NAME,
        ),
        (
            "a value of one digit",
            values.iter().any(|value| value.len() == 2),
        ),
        (
            "a value of eight digits",
            values.iter().any(|value| value.len() == 9),
        ),
        (
            "the value FFFFFFFF",
            block.symbols.values().any(|&value| value == u32::MAX),
        ),
        (
            "small digits",
            values.concat().iter().any(u8::is_ascii_lowercase),
        ),
        ("several spaces", all.windows(2).any(|two| two == b"  ")),
        ("an empty line before the block", is_end(&text[0])),
        ("an empty line in the block", empty),
        ("lines that end in CR", has(b'\r') && !has(b'\n')),
        ("lines that end in LF", has(b'\n') && !has(b'\r')),
        ("nothing behind the block", block.end == whole.len()),
    ])
}

/// An address as text, its value, and the bytes for it.
struct Pair<'a> {
    text: &'a [u8],
    address: u64,
    data: &'a [u8],
}

impl Pair<'_> {
    fn end(&self) -> u64 {
        self.address + self.data.len() as u64
    }
}

/// The pairs of a sheet that is right.
fn pairs<'a>(sheet: &'a [u8], block: &Block) -> Vec<Pair<'a>> {
    let mut fields = Vec::new();
    let mut rest = sheet;
    while !rest.is_empty() {
        let length = usize::from(u16::from_be_bytes([rest[1], rest[2]]));
        fields.push(&rest[HEAD..HEAD + length]);
        rest = &rest[HEAD + length..];
    }
    let pair = |pair: &[&'a [u8]]| Pair {
        text: pair[0],
        address: value(pair[0], &block.symbols).map_or(0, u64::from),
        data: pair[1],
    };
    fields.chunks(2).map(pair).collect()
}

fn sheet_ways(case: &Case, block: &Block) -> Vec<String> {
    let (low, length) = (u64::from(case.load.base), case.load.memory.len() as u64);
    let high = low + length;
    let pairs = pairs(&case.sheet, block);
    let (_, memory, marks) = case.run();
    let empty = |fits: &dyn Fn(u64) -> bool| {
        let mut empty = pairs.iter().filter(|pair| pair.data.is_empty());
        empty.any(|pair| fits(pair.address))
    };
    let addressed = |address: u64| {
        let index = address.checked_sub(low);
        index.is_some_and(|index| marks.get(index as usize) == Some(&1))
    };
    let full: Vec<&Pair> = pairs.iter().filter(|pair| !pair.data.is_empty()).collect();
    let touch = |one: &&Pair| full.iter().any(|other| one.end() == other.address);
    let inside = |address: u64| (low..high).contains(&address);
    let cells = marks.iter().filter(|&&mark| mark == 1).count() as u64;
    let stays = marks
        .iter()
        .zip(&memory)
        .any(|(&mark, &byte)| mark == 0 && byte != 0);
    let rest = &case.load.text[block.end..];
    let mut ways = seen([
        ("no fields", pairs.is_empty()),
        ("one pair", pairs.len() == 1),
        ("several pairs", pairs.len() > 1),
        ("no data in the window", empty(&inside)),
        (
            "no data outside the window",
            empty(&|address| !inside(address)),
        ),
        ("no data on an addressed cell", empty(&addressed)),
        (
            "one data byte",
            pairs.iter().any(|pair| pair.data.len() == 1),
        ),
        (
            "256 data bytes or more",
            pairs.iter().any(|pair| pair.data.len() > 255),
        ),
        ("first cell of the window", addressed(low)),
        ("last cell of the window", length > 0 && addressed(high - 1)),
        ("all cells of the window", length > 0 && cells == length),
        ("a window without cells", length == 0 && !pairs.is_empty()),
        ("cell 0", addressed(0)),
        ("cell FFFFFFFF", addressed(u64::from(u32::MAX))),
        ("pairs that touch", full.iter().any(touch)),
        (
            "falling addresses",
            full.windows(2).any(|two| two[1].address < two[0].address),
        ),
        (
            "an old mark above 1",
            case.load.marks.iter().any(|&mark| mark > 1),
        ),
        ("a byte that stays", stays),
        ("records behind the block", rest.contains(&b'S')),
    ]);
    ways.extend(pairs.iter().flat_map(|pair| text_ways(pair, block)));
    ways
}

fn text_ways(pair: &Pair, block: &Block) -> Vec<String> {
    let text = pair.text;
    let words: Vec<&[u8]> = text.split(|c| b"+-()".contains(c)).collect();
    let number = |digits: usize| {
        let mut words = words.iter();
        words.any(|word| word.first() == Some(&b'$') && word.len() == 1 + digits)
    };
    let name = |length: usize| {
        let mut words = words.iter();
        words.any(|word| word.len() == length && word[0] != b'$')
    };
    let (deepest, step) = steps(text);
    let alone = words.len() == 1;
    let is_number = text[0] == b'$';
    seen([
        ("a number alone", alone && is_number),
        ("a name alone", alone && block.symbols.contains_key(text)),
        ("a name of one character in a text", name(1)),
        ("a name of 16 characters in a text", name(LONGEST_NAME)),
        ("a number of one digit", number(1)),
        ("a number of eight digits", number(8)),
        ("a text of 256 characters or more", text.len() > 255),
        ("brackets", deepest > 0),
        ("32 open brackets", deepest == DEEPEST),
        ("a step behind a difference", step),
        (
            "a sum of FFFFFFFF",
            pair.address == u64::from(u32::MAX) && text.contains(&b'+'),
        ),
        (
            "a difference of 0",
            pair.address == 0 && text.contains(&b'-'),
        ),
    ])
}

/// How many brackets are open at once, and whether a sign stands behind a minus, with
/// no bracket between: then it matters where a sum begins.
fn steps(text: &[u8]) -> (usize, bool) {
    let (mut deepest, mut step) = (0, false);
    let mut minus = vec![false];
    for c in text {
        match c {
            b'(' => minus.push(false),
            b')' => drop(minus.pop()),
            b'+' | b'-' => {
                if let Some(minus) = minus.last_mut() {
                    step |= *minus;
                    *minus |= *c == b'-';
                }
            }
            _ => {}
        }
        deepest = deepest.max(minus.len() - 1);
    }
    (deepest, step)
}
