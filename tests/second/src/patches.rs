//! The form in which the program `patches` takes a base image and patches, looks
//! and merges, and prints what they give.
//!
//! A case is a heading, `@`, the address at which both windows start, a space, or
//! `%` for packed marks, and a name, and then one command a line: a letter, and hex
//! digits right behind it.

use crate::form::Form;
use crate::overlay::{Image, Title, Word};
use crate::reading::Written;
use crate::script::{form_sign, hex, refusal_words, split_heading, Format, ROOM as INPUT};
use crate::tape::Edition;
use std::fmt::{self, Display, Formatter};

/// The most cells, and the most mark bytes, that an image is given.
pub const CELLS: usize = 64;

/// The most header bytes that an image is given.
pub const HEADER: usize = 300;

/// The most bytes that an output has.
pub const OUTPUT: usize = 512;

/// What an output holds before a write.
const OLD_OUTPUT: u8 = 0xEE;

#[derive(Clone, Copy, Debug, PartialEq, Eq)]
pub enum Side {
    Base,
    Patch,
}

/// What a case can do, in turn.
#[derive(Clone, Debug, PartialEq, Eq)]
pub enum Command {
    Memory(Side, Vec<u8>),
    Marks(Side, Vec<u8>),
    Header(Side, Vec<u8>),
    Entry(Side, Option<u32>),
    /// Looks at each of these addresses.
    Look(Vec<u32>),
    Merge,
    /// Writes the base image into an output of so many bytes, or as many as it has.
    Write(Format, u32),
}

/// The letters of the formats that are written.
const WRITES: [(char, Format); 3] = [
    ('w', Format::Srec),
    ('r', Format::Tape(Edition::Repeat)),
    ('s', Format::Tape(Edition::Sum)),
];

pub fn write_letter(format: Format) -> char {
    let named = WRITES.iter().find(|(_, named)| *named == format);
    named.map_or('?', |(letter, _)| *letter)
}

impl Display for Command {
    fn fmt(&self, out: &mut Formatter) -> fmt::Result {
        let address = |address: &u32| format!("{address:08X}");
        let (letter, side, digits) = match self {
            Command::Memory(side, bytes) => ('m', side, hex(bytes)),
            Command::Marks(side, bytes) => ('k', side, hex(bytes)),
            Command::Header(side, bytes) => ('h', side, hex(bytes)),
            Command::Entry(side, entry) => ('e', side, entry.iter().map(address).collect()),
            Command::Look(addresses) => ('a', &Side::Base, addresses.iter().map(address).collect()),
            Command::Merge => ('l', &Side::Base, String::new()),
            Command::Write(format, room) => (write_letter(*format), &Side::Base, address(room)),
        };
        let letter = match side {
            Side::Base => letter,
            Side::Patch => letter.to_ascii_uppercase(),
        };
        write!(out, "{letter}{digits}")
    }
}

/// Groups of so many digits, all of them capitals, as numbers.
pub(crate) fn numbers(digits: &str, size: usize) -> Option<Vec<u32>> {
    let capital = |c: char| c.is_ascii_digit() || ('A'..='F').contains(&c);
    if !digits.chars().all(capital) || !digits.len().is_multiple_of(size) {
        return None;
    }
    let groups = (0..digits.len()).step_by(size);
    let number = |at: usize| u32::from_str_radix(&digits[at..at + size], 16).ok();
    groups.map(number).collect()
}

/// Pairs of digits as bytes, at most so many.
pub(crate) fn bytes(digits: &str, most: usize) -> Option<Vec<u8>> {
    let bytes = numbers(digits, 2)?.into_iter().map(|byte| byte as u8);
    Some(bytes.collect()).filter(|bytes: &Vec<u8>| bytes.len() <= most)
}

fn parse_command(line: &str) -> Option<Command> {
    let letter = line.chars().next()?;
    let digits = line.strip_prefix(letter)?;
    let side = if letter.is_ascii_uppercase() {
        Side::Patch
    } else {
        Side::Base
    };
    match letter {
        'm' | 'M' => Some(Command::Memory(side, bytes(digits, CELLS)?)),
        'k' | 'K' => Some(Command::Marks(side, bytes(digits, CELLS)?)),
        'h' | 'H' => Some(Command::Header(side, bytes(digits, HEADER)?)),
        'e' | 'E' => match numbers(digits, 8)?[..] {
            [] => Some(Command::Entry(side, None)),
            [entry] => Some(Command::Entry(side, Some(entry))),
            _ => None,
        },
        'a' => Some(Command::Look(numbers(digits, 8)?)),
        'l' => Some(Command::Merge).filter(|_| digits.is_empty()),
        _ => {
            let &(_, format) = WRITES.iter().find(|(named, _)| *named == letter)?;
            match numbers(digits, 8)?[..] {
                [room] => Some(Command::Write(format, room)),
                _ => None,
            }
        }
    }
}

/// The form of both images' marks, where both windows start, and the commands.
#[derive(Clone, Debug, PartialEq, Eq)]
pub struct Case {
    pub form: Form,
    pub name: String,
    pub start: u32,
    pub commands: Vec<Command>,
}

impl Case {
    fn heading(&self) -> String {
        let sign = form_sign(self.form);
        format!("@{:08X}{sign}{}\n", self.start, self.name)
    }

    /// The case as `patches` reads it.
    pub fn script(&self) -> Vec<u8> {
        let lines = self.commands.iter().map(|command| format!("{command}\n"));
        (self.heading() + &lines.collect::<String>()).into_bytes()
    }

    /// Whether it can be handed over.
    pub fn fits(&self) -> bool {
        let fitting = |command: &Command| match command {
            Command::Memory(_, bytes) | Command::Marks(_, bytes) => bytes.len() <= CELLS,
            Command::Header(_, bytes) => bytes.len() <= HEADER,
            _ => true,
        };
        self.commands.iter().all(fitting) && self.script().len() <= INPUT
    }

    /// What `patches` has to print for it.
    pub fn answer(&self) -> Vec<u8> {
        let mut bench = Bench::new(self.form, self.start);
        self.commands.iter().for_each(|command| bench.run(command));
        (self.heading() + &bench.printed).into_bytes()
    }
}

/// The cases of a whole input.
pub fn parse(script: &[u8]) -> Option<Vec<Case>> {
    let mut cases = std::str::from_utf8(script).ok()?.split('@');
    // Nothing stands before the first `@`.
    cases.next().filter(|before| before.is_empty())?;
    cases.map(parse_case).collect()
}

fn parse_case(script: &str) -> Option<Case> {
    // The last line ends in LF, too.
    let mut lines = script.strip_suffix('\n')?.split('\n');
    let (start, form, name) = split_heading(lines.next()?)?;
    let [start] = numbers(start, 8)?[..] else {
        return None;
    };
    let case = Case {
        form,
        name: name.to_string(),
        start,
        commands: lines.map(parse_command).collect::<Option<_>>()?,
    };
    case.fits().then_some(case)
}

/// An image with its own buffers; a case begins with empty ones.
#[derive(Clone, Debug, Default, PartialEq, Eq)]
pub struct Held {
    pub memory: Vec<u8>,
    pub marks: Vec<u8>,
    pub title: Title,
}

impl Held {
    pub fn image(&self) -> Image<'_> {
        Image {
            memory: &self.memory,
            marks: &self.marks,
        }
    }
}

/// Both images, and what was printed.
#[derive(Clone, Debug)]
pub struct Bench {
    pub form: Form,
    pub start: u32,
    pub base: Held,
    pub patch: Held,
    printed: String,
}

impl Bench {
    pub fn new(form: Form, start: u32) -> Bench {
        Bench {
            form,
            start,
            base: Held::default(),
            patch: Held::default(),
            printed: String::new(),
        }
    }

    fn side(&mut self, side: Side) -> &mut Held {
        match side {
            Side::Base => &mut self.base,
            Side::Patch => &mut self.patch,
        }
    }

    pub fn run(&mut self, command: &Command) {
        match command {
            Command::Memory(side, bytes) => self.side(*side).memory = bytes.clone(),
            Command::Marks(side, bytes) => self.side(*side).marks = bytes.clone(),
            Command::Header(side, bytes) => self.side(*side).title.header = bytes.clone(),
            Command::Entry(side, entry) => self.side(*side).title.entry = *entry,
            Command::Look(addresses) => addresses.iter().for_each(|&address| self.look(address)),
            Command::Merge => self.merge(),
            Command::Write(format, room) => self.write(*format, *room),
        }
    }

    fn look(&mut self, address: u32) {
        let (base, patch) = (self.base.image(), self.patch.image());
        let (part, word) = self.form.look(self.start, base, patch, address);
        let (part, word) = (hex(part), look_word(&word));
        self.printed += &format!("look {address:08X} [{part}] {word}\n");
    }

    /// A refused one gives no header and no entry, and the base image keeps its own.
    fn merge(&mut self) {
        let Held {
            memory,
            marks,
            title,
        } = &mut self.base;
        let patch = self.patch.image();
        let form = self.form;
        let merged = form.merge(self.start, memory, marks, title, patch, &self.patch.title);
        let refusal = refusal_words(&merged.refusal);
        let words = title_words(&merged.title);
        self.printed += &format!("merge {refusal} {words}\n");
        self.printed += &format!("memory {}\nmarks {}\n", hex(memory), hex(marks));
        if merged.refusal.number == 0 {
            *title = merged.title;
        }
    }

    /// What a write of the base image answers, and what it makes of an output.
    pub fn written(&self, format: Format, room: u32) -> (Written, Vec<u8>) {
        let Held {
            memory,
            marks,
            title,
        } = &self.base;
        let mut out = vec![OLD_OUTPUT; OUTPUT.min(room as usize)];
        let (writer, title) = (format.calls().write, (&title.header[..], title.entry));
        let form = self.form;
        let written = form.write(writer, self.start, memory, marks, title, &mut out);
        (written, out)
    }

    fn write(&mut self, format: Format, room: u32) {
        let (written, out) = self.written(format, room);
        let (refusal, length) = (refusal_words(&written.refusal), written.length);
        self.printed += &format!("write {refusal} length {length}\noutput {}\n", hex(&out));
    }
}

fn look_word(word: &Word) -> String {
    match word {
        Word::Patch => "patch".to_string(),
        Word::Base => "base".to_string(),
        Word::Neither => "neither".to_string(),
        Word::Refused(refusal) => format!("refused {}", refusal_words(refusal)),
    }
}

/// Entry and header as `calls` prints them: with small digits, the header
/// without the zeros at its end.
pub(crate) fn title_words(title: &Title) -> String {
    let entry = title.entry.map(|entry| format!("{entry:08x}"));
    let end = title.header.iter().rposition(|&byte| byte != 0);
    let header = hex(&title.header[..end.map_or(0, |last| last + 1)]).to_lowercase();
    format!(
        "entry {} header {}:{header}",
        entry.unwrap_or("none".to_string()),
        title.header.len(),
    )
}
