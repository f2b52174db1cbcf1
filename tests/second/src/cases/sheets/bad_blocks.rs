//! Symbol blocks with something wrong.

use super::blocks::{
    any_name, crowd, digits, fresh, line_of, name_of, some_symbols, with_spaces, written, At,
    Block, Page, Pairs, Wrong, DIGITS,
};
use super::{Fault, Size};
use crate::random::Random;
use crate::symbols::{LONGEST_NAME, MOST_DIGITS, MOST_PAIRS, MOST_SYMBOLS};

/// A block in the making, whose lines can be made wrong.
struct Draft {
    block: Block,
    lines: Vec<Vec<u8>>,
}

/// Makes something wrong, and says where.
type Make = fn(&mut Random, &mut Draft) -> At;

/// What can be wrong with blocks of a size.
fn faults(size: Size) -> Vec<Fault<Make>> {
    let few = Fault::all(&[(22, BAD_LINES), (23, TWICE)]);
    let many = Fault::all(&[(22, BAD_LINES_OF_MANY), (23, TWICE_OF_MANY), (24, TOO_MANY)]);
    let many = many.into_iter().filter(|_| size.large);
    few.into_iter().chain(many).collect()
}

/// The ways in which blocks of a size are made wrong.
pub fn wrong_ways(size: Size) -> Vec<String> {
    faults(size).iter().map(Fault::way).collect()
}

/// A block with the fault whose turn it is.
pub fn wrong(random: &mut Random, size: Size, turn: u64) -> Page {
    let faults = faults(size);
    let fault = faults[(turn % faults.len() as u64) as usize];
    let number = random.size(1, size.symbols);
    let block = some_symbols(random, number, (0, 1 << 16));
    let lines = block.page(random).lines;
    let mut draft = Draft { block, lines };
    let wrong = Wrong {
        way: fault.way(),
        row: fault.row,
        at: (fault.make)(random, &mut draft),
    };
    Page {
        lines: draft.lines,
        wrong: Some(wrong),
    }
}

impl Draft {
    /// The number of the bare line, counted from 0.
    fn last(&self) -> usize {
        self.lines.len() - 1
    }

    /// Changes a name or a value of one pair, as it is written.
    fn pair(
        &mut self,
        random: &mut Random,
        change: fn(&mut Random, &mut Vec<u8>, &mut Vec<u8>),
    ) -> At {
        let line = random.size(1, self.block.lines.len());
        let mut pairs = written(random, &self.block.lines[line - 1]);
        let index = random.size(0, pairs.len() - 1);
        let (name, value) = &mut pairs[index];
        change(random, name, value);
        self.lines[line] = line_of(random, &pairs);
        At::Line(line)
    }

    /// Changes a line of symbols.
    fn line(&mut self, random: &mut Random, change: fn(&mut Random, &mut Vec<u8>)) -> At {
        let line = random.size(1, self.last() - 1);
        change(random, &mut self.lines[line]);
        At::Line(line)
    }

    /// Puts a line between the first and the bare one.
    fn put(&mut self, random: &mut Random, line: Vec<u8>) -> At {
        let at = random.size(1, self.last());
        self.lines.insert(at, line);
        At::Line(at)
    }

    fn first(&mut self, line: impl Into<Vec<u8>>) -> At {
        self.lines[0] = line.into();
        At::Line(0)
    }

    fn bare(&mut self, line: &[u8]) -> At {
        let last = self.last();
        self.lines[last] = line.to_vec();
        At::Line(last)
    }

    /// A first line with this name.
    fn module(&mut self, random: &mut Random, name: Vec<u8>) -> At {
        let line = with_spaces(random, &[b"$$", &name]);
        self.first(line)
    }

    /// So many pairs with names that are new.
    fn new_pairs(&self, random: &mut Random, number: usize) -> Pairs {
        let mut taken = self.block.symbols();
        let before = taken.len();
        for _ in 0..number {
            let name = fresh(random, &taken);
            let value = random.word() as u32;
            taken.push((name, value));
        }
        written(random, &taken[before..])
    }

    /// A line of pairs, put behind the line of symbols of a name that is among them.
    fn put_behind_name(&mut self, random: &mut Random, same: bool, bad: bool) -> At {
        let line = random.size(1, self.block.lines.len());
        let symbols = &self.block.lines[line - 1];
        let (name, value) = symbols[random.size(0, symbols.len() - 1)].clone();
        let number = random.size(0, MOST_PAIRS - 1);
        let mut pairs = self.new_pairs(random, number);
        let value = if same { value } else { value ^ 1 };
        let place = random.size(0, number);
        pairs.insert(place, (name, digits(random, value)));
        let mut text = line_of(random, &pairs);
        if bad {
            text.extend(b" x");
        }
        let at = random.size(line + 1, self.last());
        self.lines.insert(at, text);
        At::Line(at)
    }

    /// A line with a name twice.
    fn put_twice(&mut self, random: &mut Random, same: bool) -> At {
        let number = random.size(1, MOST_PAIRS - 1);
        let mut pairs = self.new_pairs(random, number);
        let (name, value) = pairs[random.size(0, number - 1)].clone();
        let value = if same { value } else { b"$7bcdef0".to_vec() };
        let place = random.size(0, number);
        pairs.insert(place, (name, value));
        let line = line_of(random, &pairs);
        self.put(random, line)
    }

    /// So many symbols in all, and behind them a line of these and of new pairs.
    fn crowd(&mut self, random: &mut Random, before: usize, more: usize, extra: &[u8]) -> At {
        self.block = crowd(random, before);
        self.lines = self.block.page(random).lines;
        let pairs = self.new_pairs(random, more);
        let mut line = line_of(random, &pairs);
        if !extra.is_empty() {
            line.push(b' ');
            line.extend(extra);
        }
        let at = self.last();
        self.lines.insert(at, line);
        // Another line may stand behind it, right or not.
        if random.chance(1, 3) {
            self.lines
                .insert(at + 1, random.pick(&[&b"x"[..], b"ZZ $1"]).to_vec());
        }
        At::Line(at)
    }

    /// A name of the crowd, with a value.
    fn crowd_pair(&self, random: &mut Random) -> Vec<u8> {
        let symbols = &self.block.lines[0];
        let name = symbols[random.size(0, symbols.len() - 1)].0.clone();
        line_of(random, &vec![(name, b"$5".to_vec())])
    }

    /// Puts more parts at the end of a line, or before it.
    fn join(&mut self, random: &mut Random, at: At, more: &[u8]) -> At {
        if let At::Line(at) = at {
            let line = &self.lines[at];
            self.lines[at] = match random.below(2) {
                0 => [line, &b" "[..], more].concat(),
                _ => [more, b" ", line].concat(),
            };
        }
        at
    }
}

/// What is no part of a name, and mostly beside something that is.
const OTHERS: &[u8] = b"_.-+*/:;<=>?@[\\]^`{|}~!\"#$%&'(),\t\0\x01\x0B\x7F\x80\xC1\xE9\xFF";

fn longer(random: &mut Random, name: &mut Vec<u8>) {
    let most = random.pick(&[1, 1, 1, 20]);
    *name = name_of(random, LONGEST_NAME + most);
}

fn digit_first(random: &mut Random, name: &mut [u8]) {
    name[0] = random.pick(DIGITS);
}

/// In place of a character, or beside it.
fn other_character(random: &mut Random, name: &mut Vec<u8>) {
    let character = random.pick(OTHERS);
    let place = random.size(0, name.len() - 1);
    if name.len() == LONGEST_NAME || random.chance(1, 2) {
        name[place] = character;
    } else {
        name.insert(random.pick(&[place, place + 1]), character);
    }
}

/// The places of a line where a space stands, or where none does on either side.
fn places(line: &[u8], spaces: bool) -> Vec<usize> {
    let fits = |&at: &usize| match spaces {
        true => line[at] == b' ',
        false => line[at - 1] != b' ' && line[at] != b' ',
    };
    (1..line.len()).filter(fits).collect()
}

fn spaces(random: &mut Random) -> Vec<u8> {
    vec![b' '; random.pick(&[1, 1, 2])]
}

const RECORDS: [&[u8]; 3] = [b"S9030000FC", b"S1040000AA51", b"S00600004844521B"];

/// Row 22: bad lines, and no bare one.
const BAD_LINES: &[(&str, Make)] = &[
    ("a name of 17 characters or more", |random, draft| {
        draft.pair(random, |random, name, _| longer(random, name))
    }),
    ("a name with a digit first", |random, draft| {
        draft.pair(random, |random, name, _| digit_first(random, name))
    }),
    ("another character in a name", |random, draft| {
        draft.pair(random, |random, name, _| other_character(random, name))
    }),
    ("a value of nine digits or more", |random, draft| {
        draft.pair(random, |random, _, value| {
            let most = random.pick(&[1, 1, 1, 9]);
            while value.len() < 1 + MOST_DIGITS + most {
                value.insert(1, random.pick(b"0001F"));
            }
        })
    }),
    ("a value without digits", |random, draft| {
        draft.pair(random, |_, _, value| value.truncate(1))
    }),
    ("a value without its sign", |random, draft| {
        draft.pair(random, |_, _, value| {
            value.remove(0);
        })
    }),
    ("another character in a value", |random, draft| {
        draft.pair(random, |random, _, value| {
            let place = random.size(1, value.len() - 1);
            value[place] = random.pick(b"GgxX@`/:+-_.h$\0\x80\xB1");
        })
    }),
    ("a space before a line", |random, draft| {
        draft.line(random, |random, line| {
            line.splice(0..0, spaces(random));
        })
    }),
    ("a space behind a line", |random, draft| {
        draft.line(random, |random, line| line.extend(spaces(random)))
    }),
    ("a tab for a space", |random, draft| {
        draft.line(random, |random, line| {
            let place = random.pick(&places(line, true));
            line[place] = b'\t';
        })
    }),
    ("no space between two parts", |random, draft| {
        draft.line(random, |random, line| {
            let place = random.pick(&places(line, true));
            let space = |at: &usize| line[*at] == b' ';
            let first = (0..place).rev().take_while(space).last().unwrap_or(place);
            let end = (place..line.len()).find(|at| !space(at));
            line.drain(first..end.unwrap_or(place));
        })
    }),
    ("a space inside a part", |random, draft| {
        draft.line(random, |random, line| {
            let place = random.pick(&places(line, false));
            line.splice(place..place, spaces(random));
        })
    }),
    ("five pairs or more", |random, draft| {
        let number = random.pick(&[MOST_PAIRS + 1, MOST_PAIRS + 1, 2 * MOST_PAIRS]);
        let pairs = draft.new_pairs(random, number);
        let line = line_of(random, &pairs);
        draft.put(random, line)
    }),
    ("a name without a value", |random, draft| {
        draft.line(random, |random, line| {
            line.extend(spaces(random));
            line.extend(any_name(random));
        })
    }),
    ("a name alone", |random, draft| {
        let line = any_name(random);
        draft.put(random, line)
    }),
    ("a value without a name", |random, draft| {
        draft.line(random, |random, line| {
            line.extend(spaces(random));
            line.extend(digits(random, 0x12));
        })
    }),
    ("a value before its name", |random, draft| {
        draft.pair(random, |_, name, value| std::mem::swap(name, value))
    }),
    ("a second line with a name", |random, draft| {
        let name = any_name(random);
        let line = with_spaces(random, &[b"$$", &name]);
        draft.put(random, line)
    }),
    ("a second line with a name and no space", |random, draft| {
        let line = [b"$$", &any_name(random)[..]].concat();
        draft.put(random, line)
    }),
    ("a record in the block", |random, draft| {
        let line = random.pick(&RECORDS).to_vec();
        draft.put(random, line)
    }),
    ("a line of one character", |random, draft| {
        let line = vec![random.pick(b"$ A1\0\t\xFF")];
        draft.put(random, line)
    }),
    ("a bare first line", |_, draft| draft.first("$$")),
    ("no first line", |_, draft| {
        draft.lines.remove(0);
        At::Line(0)
    }),
    ("a first line without a space", |_, draft| {
        draft.first([b"$$", &draft.block.module[..]].concat())
    }),
    ("a first line with two names", |random, draft| {
        let name = any_name(random);
        let line = with_spaces(random, &[b"$$", &draft.block.module, &name]);
        draft.first(line)
    }),
    ("a first line with a value", |random, draft| {
        let value = digits(random, 0x12);
        draft.module(random, value)
    }),
    ("a first line with one sign or three", |random, draft| {
        let signs = random.pick(&[&b"$"[..], b"$$$"]);
        let line = with_spaces(random, &[signs, &draft.block.module]);
        draft.first(line)
    }),
    ("a first line without its sign", |_, draft| {
        draft.first(draft.block.module.clone())
    }),
    ("a record in the first line", |random, draft| {
        draft.lines.insert(0, random.pick(&RECORDS).to_vec());
        At::Line(0)
    }),
    (
        "17 characters or more in the first line's name",
        |random, draft| {
            let mut name = Vec::new();
            longer(random, &mut name);
            draft.module(random, name)
        },
    ),
    ("a digit first in the first line's name", |random, draft| {
        let mut name = draft.block.module.clone();
        digit_first(random, &mut name);
        draft.module(random, name)
    }),
    (
        "another character in the first line's name",
        |random, draft| {
            let mut name = draft.block.module.clone();
            other_character(random, &mut name);
            draft.module(random, name)
        },
    ),
    ("a space before the first line", |random, draft| {
        let line = [spaces(random), draft.lines[0].clone()].concat();
        draft.first(line)
    }),
    ("a space behind the first line", |random, draft| {
        let line = [draft.lines[0].clone(), spaces(random)].concat();
        draft.first(line)
    }),
    ("a space before the bare line", |random, draft| {
        draft.bare(&[&spaces(random), &b"$$"[..]].concat())
    }),
    ("a space behind the bare line", |random, draft| {
        draft.bare(&[b"$$", &spaces(random)[..]].concat())
    }),
    ("a bare line with one sign or three", |random, draft| {
        draft.bare(random.pick(&[&b"$"[..], b"$$$", b"$ $"]))
    }),
    ("no bare line", |_, draft| {
        draft.lines.pop();
        At::End
    }),
    ("no bare line and no symbols", |_, draft| {
        draft.lines.truncate(1);
        At::End
    }),
    ("no line at all", |_, draft| {
        draft.lines.clear();
        At::End
    }),
    (
        "records without a bare line before them",
        |random, draft| draft.bare(random.pick(&RECORDS)),
    ),
    ("a bad line, and no bare one", |random, draft| {
        draft.lines.pop();
        let at = random.size(1, draft.lines.len());
        draft.lines.insert(at, b"A $1 B".to_vec());
        At::Line(at)
    }),
    ("a bad line before a name twice", |random, draft| {
        let At::Line(at) = draft.put_behind_name(random, false, false) else {
            return At::End;
        };
        let first = random.size(1, at);
        draft.lines.insert(first, b"A $".to_vec());
        At::Line(first)
    }),
    ("a bad line with a name twice", |random, draft| {
        draft.put_behind_name(random, true, true)
    }),
];

/// Row 23.
const TWICE: &[(&str, Make)] = &[
    ("a name twice in a line with one value", |random, draft| {
        draft.put_twice(random, true)
    }),
    ("a name twice in a line with two values", |random, draft| {
        draft.put_twice(random, false)
    }),
    ("a name in two lines with one value", |random, draft| {
        draft.put_behind_name(random, true, false)
    }),
    ("a name in two lines with two values", |random, draft| {
        draft.put_behind_name(random, false, false)
    }),
    ("a name twice before a bad line", |random, draft| {
        let at = draft.put_behind_name(random, false, false);
        let last = draft.last();
        draft.lines.insert(last, b"A $".to_vec());
        at
    }),
    ("a name twice, and no bare line", |random, draft| {
        let at = draft.put_behind_name(random, true, false);
        draft.lines.pop();
        at
    }),
];

/// Row 22, with about as many symbols as are allowed.
const BAD_LINES_OF_MANY: &[(&str, Make)] = &[
    ("a bad line with too many symbols", |random, draft| {
        draft.crowd(random, MOST_SYMBOLS - 1, 2, b"x")
    }),
    (
        "a bad line with a name twice and too many symbols",
        |random, draft| {
            let at = draft.crowd(random, MOST_SYMBOLS, 2, b"");
            let twice = [&draft.crowd_pair(random), &b" x"[..]].concat();
            draft.join(random, at, &twice)
        },
    ),
];

/// Row 23, with as many.
const TWICE_OF_MANY: &[(&str, Make)] = &[
    ("a name twice with too many symbols", |random, draft| {
        let at = draft.crowd(random, MOST_SYMBOLS - 1, 2, b"");
        let twice = draft.crowd_pair(random);
        draft.join(random, at, &twice)
    }),
    (
        "a name twice behind as many symbols as allowed",
        |random, draft| {
            let at = draft.crowd(random, MOST_SYMBOLS - 1, 1, b"");
            let twice = draft.crowd_pair(random);
            draft.join(random, at, &twice)
        },
    ),
];

/// Row 24.
const TOO_MANY: &[(&str, Make)] = &[
    ("one symbol too many", |random, draft| {
        let more = random.size(1, MOST_PAIRS);
        draft.crowd(random, MOST_SYMBOLS + 1 - more, more, b"")
    }),
    ("four symbols too many", |random, draft| {
        draft.crowd(random, MOST_SYMBOLS, MOST_PAIRS, b"")
    }),
    ("one symbol too many, and no bare line", |random, draft| {
        let at = draft.crowd(random, MOST_SYMBOLS, 1, b"");
        draft.lines.pop();
        at
    }),
];
