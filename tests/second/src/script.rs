//! The form in which the program `vectors` takes its cases and prints its
//! answers: crates/vectors/src/main.rt says which.

use crate::cases::{tapes, Drawing, RECORDS};
use crate::form::Form;
use crate::reading::{Loaded, Loader, Refusal};
use crate::symbols::load_behind;
use crate::tape::Edition;

/// The room that `vectors` has for its input, a window and a canonical text.
pub const ROOM: usize = 65_536;

/// Which loader and writer a case is for.
#[derive(Clone, Copy, Debug, PartialEq, Eq)]
pub enum Format {
    Srec,
    /// S-records behind a symbol block.
    Behind,
    Tape(Edition),
}

const FORMATS: [Format; 4] = [
    Format::Srec,
    Format::Behind,
    Format::Tape(Edition::Repeat),
    Format::Tape(Edition::Sum),
];

impl Format {
    /// What stands in a heading behind the number of cells.
    fn sign(self) -> char {
        match self {
            Format::Srec => ' ',
            Format::Behind => '$',
            Format::Tape(Edition::Repeat) => ';',
            Format::Tape(Edition::Sum) => '+',
        }
    }

    /// The loader; behind a block it is not that of the format's drawn cases.
    fn loader(self) -> Loader {
        match self {
            Format::Behind => load_behind,
            _ => self.calls().load,
        }
    }

    /// The loader and the writer.
    pub fn calls(self) -> &'static Drawing {
        match self {
            Format::Srec | Format::Behind => &RECORDS,
            Format::Tape(edition) => tapes::of(edition),
        }
    }
}

/// What stands before the name of a case with packed marks.
const PACKED: char = '%';

/// A text, and the window that it is loaded into.
#[derive(Clone, Debug, PartialEq, Eq)]
pub struct Case {
    pub format: Format,
    pub form: Form,
    pub name: String,
    pub base: u32,
    pub cells: usize,
    pub text: Vec<u8>,
}

impl Case {
    /// None for a text with `@` in it, or a window that is too large.
    pub fn new(name: String, base: u32, cells: usize, text: Vec<u8>) -> Option<Case> {
        let fits = cells <= ROOM && !text.contains(&b'@');
        fits.then_some(Case {
            format: Format::Srec,
            form: Form::Bytes,
            name,
            base,
            cells,
            text,
        })
    }

    /// The same text in the same window, for the calls of another format.
    pub fn of(self, format: Format) -> Case {
        Case { format, ..self }
    }

    /// The same with the other form of marks, or this one.
    pub fn with(self, form: Form) -> Case {
        Case { form, ..self }
    }

    fn heading(&self) -> String {
        let mut name = self.name.clone();
        if self.form == Form::Packed {
            name.insert(0, PACKED);
        }
        let sign = self.format.sign();
        format!("@{:08X}:{:08X}{sign}{name}\n", self.base, self.cells)
    }

    /// The case as `vectors` reads it.
    pub fn script(&self) -> Vec<u8> {
        [self.heading().as_bytes(), &self.text].concat()
    }

    /// The marks before the load: nothing depends on them.
    fn old_marks(&self) -> Vec<u8> {
        let mark = match self.form {
            Form::Bytes => 0,
            Form::Packed => 0xFF,
        };
        vec![mark; self.form.length(self.cells)]
    }

    /// The answer of the load, and memory and marks behind it.
    pub fn load(&self) -> (Loaded, Vec<u8>, Vec<u8>) {
        let (mut memory, mut marks) = (vec![0; self.cells], self.old_marks());
        let (text, loader) = (&self.text, self.format.loader());
        let form = self.form;
        let loaded = form.load(loader, text, self.base, &mut memory, &mut marks);
        (loaded, memory, marks)
    }

    /// What `vectors` has to print for it.
    pub fn answer(&self) -> Vec<u8> {
        let (loaded, memory, marks) = self.load();
        let mut printed = self.heading() + &answer_line(&loaded);
        if loaded.refusal.number != 0 {
            return printed.into_bytes();
        }
        if self.form == Form::Packed {
            printed += &format!("marks {}\n", hex(&marks));
        }
        let title = (&loaded.header[..loaded.header_len], loaded.entry);
        let mut out = vec![0; ROOM];
        let (form, writer) = (self.form, self.format.calls().write);
        let written = form.write(writer, self.base, &memory, &marks, title, &mut out);
        if written.refusal.number != 0 {
            printed += &(refusal_words(&written.refusal) + "\n");
        }
        [printed.as_bytes(), &out[..written.length]].concat()
    }
}

/// The cases of a whole input.
pub fn parse(script: &[u8]) -> Option<Vec<Case>> {
    let mut cases = script.split(|&c| c == b'@');
    // Nothing stands before the first `@`.
    cases.next().filter(|before| before.is_empty())?;
    cases.map(parse_case).collect()
}

fn parse_case(script: &[u8]) -> Option<Case> {
    let end = script.iter().position(|&c| c == b'\n')?;
    let heading = std::str::from_utf8(&script[..end]).ok()?;
    let (base, rest) = heading.split_once(':')?;
    // Any sign may stand in a name, too: the one behind the digits counts.
    let (cells, rest) = rest.split_at(rest.find(|c: char| !c.is_ascii_hexdigit())?);
    let mut named = FORMATS
        .iter()
        .filter_map(|&format| Some((format, rest.strip_prefix(format.sign())?)));
    let (format, name) = named.next()?;
    let (form, name) = match name.strip_prefix(PACKED) {
        Some(name) => (Form::Packed, name),
        None => (Form::Bytes, name),
    };
    let case = Case::new(
        name.to_string(),
        u32::from_str_radix(base, 16).ok()?,
        usize::from_str_radix(cells, 16).ok()?,
        script[end + 1..].to_vec(),
    );
    case.map(|case| case.of(format).with(form))
}

/// What stands before a name in the headings of `calls` and `patches`.
pub(crate) fn form_sign(form: Form) -> char {
    match form {
        Form::Bytes => ' ',
        Form::Packed => PACKED,
    }
}

/// Such a heading up to that sign, the form that it says, and the name.
pub(crate) fn split_heading(heading: &str) -> Option<(&str, Form, &str)> {
    // Either sign may stand in a name, too: the first one counts.
    let (before, rest) = heading.split_at(heading.find([' ', PACKED])?);
    let form = if rest.starts_with(PACKED) {
        Form::Packed
    } else {
        Form::Bytes
    };
    Some((before, form, &rest[1..]))
}

pub(crate) fn hex(bytes: &[u8]) -> String {
    bytes.iter().map(|byte| format!("{byte:02X}")).collect()
}

pub(crate) fn refusal_words(refusal: &Refusal) -> String {
    let Refusal {
        number,
        record,
        place,
        want,
    } = refusal;
    format!("{number} record {record} at {place} want {want:02X}")
}

/// Eight digits, or a word for an entry that is absent.
fn entry_words(entry: Option<u32>) -> String {
    entry.map_or("none".to_string(), |entry| format!("{entry:08x}"))
}

/// Every field of the answer, the header without the zeros at its end.
pub(crate) fn answer_line(loaded: &Loaded) -> String {
    let end = loaded.header.iter().rposition(|&byte| byte != 0);
    let header = &loaded.header[..end.map_or(0, |last| last + 1)];
    let header: String = header.iter().map(|byte| format!("{byte:02x}")).collect();
    format!(
        "{} records {} cells {} entry {} header {}:{header}\n",
        refusal_words(&loaded.refusal),
        loaded.records,
        loaded.cells,
        entry_words(loaded.entry),
        loaded.header_len,
    )
}
