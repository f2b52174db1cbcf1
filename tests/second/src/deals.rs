//! The form in which the program `deals` takes an image and chips, deals and
//! collects, and prints what they give.
//!
//! A case is a heading, `@`, the address at which the whole starts, a space and a
//! name, and then one command a line: a letter, and hex digits right behind it.

use crate::chips::{collect, deal, Buffers, CHIPS};
use crate::patches::{bytes, numbers, title_words};
use crate::script::{hex, refusal_words, ROOM as INPUT};
use std::fmt::{self, Display, Formatter};

/// The most bytes that a memory, or marks, are given.
pub const CELLS: usize = 200;

/// Whose buffer a command sets; chips are counted from 0.
#[derive(Clone, Copy, Debug, PartialEq, Eq)]
pub enum Side {
    Whole,
    Chip(usize),
}

/// What a case can do, in turn.
#[derive(Clone, Debug, PartialEq, Eq)]
pub enum Command {
    Memory(Side, Vec<u8>),
    Marks(Side, Vec<u8>),
    /// Deals over so many chips.
    Deal(u32),
    /// Collects so many chips.
    Collect(u32),
}

/// The letters of the chips' memories. Those of their marks are the capitals.
const LETTERS: [char; CHIPS] = ['p', 'q', 'r', 's'];

impl Display for Command {
    fn fmt(&self, out: &mut Formatter) -> fmt::Result {
        let (letter, digits) = match self {
            Command::Memory(Side::Whole, bytes) => ('m', hex(bytes)),
            Command::Marks(Side::Whole, bytes) => ('k', hex(bytes)),
            Command::Memory(Side::Chip(chip), bytes) => (LETTERS[*chip], hex(bytes)),
            Command::Marks(Side::Chip(chip), bytes) => {
                (LETTERS[*chip].to_ascii_uppercase(), hex(bytes))
            }
            Command::Deal(k) => ('d', format!("{k:08X}")),
            Command::Collect(k) => ('c', format!("{k:08X}")),
        };
        write!(out, "{letter}{digits}")
    }
}

fn parse_command(line: &str) -> Option<Command> {
    let letter = line.chars().next()?;
    let digits = line.strip_prefix(letter)?;
    match letter {
        'm' => Some(Command::Memory(Side::Whole, bytes(digits, CELLS)?)),
        'k' => Some(Command::Marks(Side::Whole, bytes(digits, CELLS)?)),
        'd' => Some(Command::Deal(number(digits)?)),
        'c' => Some(Command::Collect(number(digits)?)),
        _ => {
            let small = letter.to_ascii_lowercase();
            let chip = Side::Chip(LETTERS.iter().position(|&named| named == small)?);
            let bytes = bytes(digits, CELLS)?;
            Some(if letter == small {
                Command::Memory(chip, bytes)
            } else {
                Command::Marks(chip, bytes)
            })
        }
    }
}

/// A number of just eight digits.
pub(crate) fn number(digits: &str) -> Option<u32> {
    match numbers(digits, 8)?[..] {
        [number] => Some(number),
        _ => None,
    }
}

/// Where the whole starts, and the commands.
#[derive(Clone, Debug, PartialEq, Eq)]
pub struct Case {
    pub name: String,
    pub base: u32,
    pub commands: Vec<Command>,
}

impl Case {
    fn heading(&self) -> String {
        format!("@{:08X} {}\n", self.base, self.name)
    }

    /// The case as `deals` reads it.
    pub fn script(&self) -> Vec<u8> {
        let lines = self.commands.iter().map(|command| format!("{command}\n"));
        (self.heading() + &lines.collect::<String>()).into_bytes()
    }

    /// Whether it can be handed over.
    pub fn fits(&self) -> bool {
        let fitting = |command: &Command| match command {
            Command::Memory(_, bytes) | Command::Marks(_, bytes) => bytes.len() <= CELLS,
            _ => true,
        };
        self.commands.iter().all(fitting) && self.script().len() <= INPUT
    }

    /// What `deals` has to print for it.
    pub fn answer(&self) -> Vec<u8> {
        let mut bench = Bench::new(self.base);
        self.commands.iter().for_each(|command| bench.run(command));
        (self.heading() + &bench.printed).into_bytes()
    }
}

/// The cases of a whole input.
pub fn parse(script: &[u8]) -> Option<Vec<Case>> {
    let mut cases = std::str::from_utf8(script).ok()?.split('@');
    // Nothing stands before the first `@`.
    cases.next().filter(|before| before.is_empty())?;
    cases.map(parse_case).collect()
}

fn parse_case(script: &str) -> Option<Case> {
    // The last line ends in LF, too.
    let mut lines = script.strip_suffix('\n')?.split('\n');
    let (base, name) = lines.next()?.split_once(' ')?;
    let case = Case {
        name: name.to_string(),
        base: number(base)?,
        commands: lines.map(parse_command).collect::<Option<_>>()?,
    };
    case.fits().then_some(case)
}

/// The whole, the chips, and what was printed. A case begins with empty buffers.
#[derive(Clone, Debug)]
pub struct Bench {
    pub base: u32,
    pub whole: Buffers,
    pub chips: [Buffers; CHIPS],
    printed: String,
}

impl Bench {
    pub fn new(base: u32) -> Bench {
        Bench {
            base,
            whole: Buffers::default(),
            chips: Default::default(),
            printed: String::new(),
        }
    }

    fn side(&mut self, side: Side) -> &mut Buffers {
        match side {
            Side::Whole => &mut self.whole,
            Side::Chip(chip) => &mut self.chips[chip],
        }
    }

    pub fn run(&mut self, command: &Command) {
        match command {
            Command::Memory(side, bytes) => self.side(*side).memory.clone_from(bytes),
            Command::Marks(side, bytes) => self.side(*side).marks.clone_from(bytes),
            Command::Deal(k) => self.deal(*k),
            Command::Collect(k) => self.collect(*k),
        }
    }

    fn deal(&mut self, k: u32) {
        let refusal = deal(k, self.base, &self.whole, &mut self.chips);
        self.printed += &format!("deal {}\n", refusal_words(&refusal));
        for (number, chip) in self.chips.iter().enumerate() {
            let (memory, marks) = (hex(&chip.memory), hex(&chip.marks));
            self.printed += &format!("chip {number} memory {memory}\n");
            self.printed += &format!("chip {number} marks {marks}\n");
        }
    }

    fn collect(&mut self, k: u32) {
        let collected = collect(k, self.base, &mut self.whole, &self.chips);
        let refusal = refusal_words(&collected.refusal);
        let words = title_words(&collected.title);
        let (memory, marks) = (hex(&self.whole.memory), hex(&self.whole.marks));
        self.printed += &format!("collect {refusal} {words}\n");
        self.printed += &format!("memory {memory}\nmarks {marks}\n");
    }
}
