//! What must hold of the looks, merges and writes of a case, by what the program
//! `patches` printed alone.
//!
//! Before a merge, every cell of the window is looked at.

use second::form::Form;
use second::overlay::Title;
use second::packed;
use second::patches::Held;
use std::collections::BTreeMap;

/// A look, with its part and its word.
pub struct Look {
    address: u64,
    part: Vec<u8>,
    pub word: String,
}

/// A merge, and the base image behind it, with the header and entry of the answer.
pub struct Merge {
    pub number: u32,
    pub left: Held,
}

/// A write, and the output behind it.
pub struct Write {
    pub number: u32,
    length: usize,
    out: Vec<u8>,
}

pub enum Printed {
    Look(Look),
    Merge(Merge),
    Write(Write),
}

/// The looks by their addresses. A later one takes the place of an earlier.
type Looks = BTreeMap<u64, Look>;

/// All that was printed behind the heading.
pub fn read(printed: &[u8]) -> Option<Vec<Printed>> {
    let text = std::str::from_utf8(printed).ok()?;
    let mut lines = text.strip_suffix('\n')?.split('\n').skip(1);
    let mut all = Vec::new();
    while let Some(line) = lines.next() {
        all.push(if let Some(look) = line.strip_prefix("look ") {
            Printed::Look(read_look(look)?)
        } else if let Some(write) = line.strip_prefix("write ") {
            let out = lines.next()?.strip_prefix("output ")?;
            Printed::Write(read_write(write, bytes(out)?)?)
        } else {
            let (number, rest) = line.strip_prefix("merge ")?.split_once(' ')?;
            let left = Held {
                memory: bytes(lines.next()?.strip_prefix("memory ")?)?,
                marks: bytes(lines.next()?.strip_prefix("marks ")?)?,
                title: read_title(rest)?,
            };
            let number = number.parse().ok()?;
            Printed::Merge(Merge { number, left })
        });
    }
    Some(all)
}

/// An address, a part in brackets and a word; of a refusal its number belongs to
/// the word.
fn read_look(words: &str) -> Option<Look> {
    let (address, rest) = words.split_once(" [")?;
    let (part, rest) = rest.split_once("] ")?;
    let word = rest.split_once(" record ").map_or(rest, |(word, _)| word);
    Some(Look {
        address: u64::from_str_radix(address, 16).ok()?,
        part: bytes(part)?,
        word: word.to_string(),
    })
}

/// The refusal number stands first, and the length last.
fn read_write(words: &str, out: Vec<u8>) -> Option<Write> {
    let (number, rest) = words.split_once(' ')?;
    let (_, length) = rest.split_once(" length ")?;
    Some(Write {
        number: number.parse().ok()?,
        length: length.parse().ok()?,
        out,
    })
}

/// What stands behind the refusal. The zeros at the header's end are not printed.
fn read_title(words: &str) -> Option<Title> {
    let (_, words) = words.split_once(" entry ")?;
    let (entry, header) = words.split_once(" header ")?;
    let entry = match entry {
        "none" => None,
        digits => Some(u32::from_str_radix(digits, 16).ok()?),
    };
    let (length, digits) = header.split_once(':')?;
    let mut header = bytes(digits)?;
    let length = length.parse().ok()?;
    let fits = header.len() <= length;
    header.resize(length, 0);
    fits.then_some(Title { header, entry })
}

fn bytes(digits: &str) -> Option<Vec<u8>> {
    let pairs = (0..digits.len()).step_by(2);
    let byte = |at| u8::from_str_radix(digits.get(at..at + 2)?, 16).ok();
    pairs.map(byte).collect()
}

/// Holds the looks before each accepted merge to that merge, and writes to the
/// output that was before.
pub fn hold(form: Form, start: u32, printed: &[u8]) -> Result<(), String> {
    let mut looks = Looks::new();
    for thing in read(printed).ok_or("a line that no look, merge or write prints")? {
        match thing {
            Printed::Look(look) => drop(looks.insert(look.address, look)),
            Printed::Merge(merge) if merge.number == 0 => {
                let start = u64::from(start);
                let left = unpacked(form, merge.left)?;
                let end = start + left.memory.len() as u64;
                for address in start..end {
                    is_longest(&looks, address, end)
                        .map_err(|error| format!("the look at {address:08X} {error}"))?;
                }
                walk(&looks, start, &left)?;
            }
            Printed::Merge(_) => {}
            Printed::Write(write) => keeps_output(&write)?,
        }
    }
    Ok(())
}

/// What an accepted merge left, with a byte for each mark. It left no spare bit.
fn unpacked(form: Form, left: Held) -> Result<Held, String> {
    if form == Form::Bytes {
        return Ok(left);
    }
    let cells = left.memory.len();
    if left.marks.len() != packed::length(cells) || packed::has_spare_bit(&left.marks, cells) {
        return Err(format!("{:02X?} is left for {cells} cells", left.marks));
    }
    let marks = packed::unpack(&left.marks, cells);
    Ok(Held { marks, ..left })
}

/// A refused write leaves the output as it was, and an accepted one what stands
/// behind its text, which is not empty.
fn keeps_output(write: &Write) -> Result<(), String> {
    let Write {
        number,
        length,
        out,
    } = write;
    let kept = out.get(*length..).unwrap_or_default();
    if (*number == 0) != (*length > 0) || *length > out.len() {
        return Err(format!("a write with number {number} has length {length}"));
    }
    if kept.iter().any(|&byte| byte != 0xEE) {
        return Err("a write changes more than its text".to_string());
    }
    Ok(())
}

/// The cells of a part have one word, and the cell behind it has another.
fn is_longest(looks: &Looks, address: u64, end: u64) -> Result<(), String> {
    let look = looks.get(&address).ok_or("is missing")?;
    let Look { part, word, .. } = look;
    if !["patch", "base", "neither"].contains(&&word[..]) {
        return Err(format!("is {word}, and the merge is not"));
    }
    if part.is_empty() != (word == "neither") {
        return Err(format!("shows {part:02X?} of {word}"));
    }
    let behind = address + part.len() as u64;
    if behind > end {
        return Err("goes past the window".to_string());
    }
    if let [_, rest @ ..] = &part[..] {
        let next = looks.get(&(address + 1));
        let same = |next: &Look| next.word == *word && next.part == rest;
        if !rest.is_empty() && !next.is_some_and(same) {
            return Err("has another rest than the next one".to_string());
        }
        let other = |next: &Look| next.word != *word;
        if behind < end && !looks.get(&behind).is_some_and(other) {
            return Err("ends before a cell of the same image".to_string());
        }
    }
    Ok(())
}

/// From the start of the window on, behind each part, or at the next cell where it
/// is empty: these are the cells of the merged image, with their bytes.
fn walk(looks: &Looks, start: u64, left: &Held) -> Result<(), String> {
    let length = left.memory.len();
    let mut shown: Vec<Option<u8>> = Vec::new();
    while shown.len() < length {
        let address = start + shown.len() as u64;
        let part = looks.get(&address).map_or(&[][..], |look| &look.part);
        match part {
            [] => shown.push(None),
            _ => shown.extend(part.iter().map(|&byte| Some(byte))),
        }
    }
    let cells = left.image().cells();
    if shown != cells {
        return Err(format!(
            "the looks show {shown:02X?}, and the merge leaves {cells:02X?}"
        ));
    }
    Ok(())
}
