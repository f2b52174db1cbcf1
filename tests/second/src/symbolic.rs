//! The form in which the program `symbolic` takes texts and sheets and prints what
//! their loads give.
//!
//! A case is a heading, `@`, the window's base, `:`, its number of cells, `:`, its
//! number of marks, a space and a name, and then the text. Behind a `~` stands a
//! sheet, two hex digits a byte, with spaces and line ends between bytes.

use crate::deals::number;
use crate::patches::bytes;
use crate::reading::Loaded;
use crate::script::{answer_line, hex, ROOM as INPUT};
use crate::sheets::load_sheet;
use crate::symbols::load_behind;

/// The most bytes that a memory, or marks, are given.
pub const CELLS: usize = 1_024;

/// What all memory is before a load.
pub const OLD_BYTE: u8 = 0xA5;

/// What all marks are before a load.
pub const OLD_MARK: u8 = 0xFF;

/// A text, a sheet if one is loaded, and the window.
#[derive(Clone, Debug, PartialEq, Eq)]
pub struct Case {
    pub name: String,
    pub base: u32,
    pub cells: usize,
    pub marks: usize,
    pub text: Vec<u8>,
    pub sheet: Option<Vec<u8>>,
}

impl Case {
    fn heading(&self) -> String {
        let (base, cells, marks) = (self.base, self.cells, self.marks);
        format!("@{base:08X}:{cells:08X}:{marks:08X} {}\n", self.name)
    }

    /// The case as `symbolic` reads it.
    pub fn script(&self) -> Vec<u8> {
        let sheet = self.sheet.as_ref();
        let sheet = sheet.map_or(String::new(), |sheet| format!("~{}\n", hex(sheet)));
        [self.heading().as_bytes(), &self.text, sheet.as_bytes()].concat()
    }

    /// Whether it can be handed over: no sign may end the text early.
    pub fn fits(&self) -> bool {
        let rooms = [self.cells, self.marks].iter().all(|&room| room <= CELLS);
        let signs = self.text.iter().any(|c| b"@~".contains(c));
        rooms && !signs && self.script().len() <= INPUT
    }

    /// The answer of the load, and memory and marks behind it.
    pub fn load(&self) -> (Loaded, Vec<u8>, Vec<u8>) {
        let (mut memory, mut marks) = (vec![OLD_BYTE; self.cells], vec![OLD_MARK; self.marks]);
        let (text, base) = (&self.text, self.base);
        let loaded = match &self.sheet {
            None => load_behind(text, base, &mut memory, &mut marks),
            Some(sheet) => load_sheet(text, sheet, base, &mut memory, &mut marks),
        };
        (loaded, memory, marks)
    }

    /// What `symbolic` has to print for it.
    pub fn answer(&self) -> Vec<u8> {
        let (loaded, memory, marks) = self.load();
        let mut printed = self.heading() + &answer_line(&loaded);
        printed += &format!("memory {}\nmarks {}\n", hex(&memory), hex(&marks));
        printed.into_bytes()
    }
}

/// The cases of a whole input.
pub fn parse(script: &[u8]) -> Option<Vec<Case>> {
    let mut cases = script.split(|&c| c == b'@');
    // Nothing stands before the first `@`.
    cases.next().filter(|before| before.is_empty())?;
    cases.map(parse_case).collect()
}

fn parse_case(script: &[u8]) -> Option<Case> {
    let end = script.iter().position(|&c| c == b'\n')?;
    let heading = std::str::from_utf8(&script[..end]).ok()?;
    let (window, name) = heading.split_once(' ')?;
    let numbers: Option<Vec<u32>> = window.split(':').map(number).collect();
    let [base, cells, marks] = numbers?[..] else {
        return None;
    };
    let mut parts = script[end + 1..].splitn(2, |&c| c == b'~');
    let text = parts.next()?.to_vec();
    let sheet = match parts.next() {
        None => None,
        Some(digits) => Some(parse_sheet(digits)?),
    };
    let case = Case {
        name: name.to_string(),
        base,
        cells: cells as usize,
        marks: marks as usize,
        text,
        sheet,
    };
    case.fits().then_some(case)
}

/// Words of whole bytes each.
fn parse_sheet(digits: &[u8]) -> Option<Vec<u8>> {
    let words = std::str::from_utf8(digits).ok()?.split([' ', '\n']);
    let words: Option<Vec<Vec<u8>>> = words.map(|word| bytes(word, INPUT)).collect();
    Some(words?.concat())
}
