//! What must hold of texts that the library loads and writes again.
//!
//! Here the second reading gives only what a load from C does not return: the
//! header and the entry.

use crate::content::{changed, Content};
use crate::format::Format;
use crate::guarded::Guarded;
use crate::settings::Settings;
use crate::tally::Tally;
use second::random::Random;
use std::collections::BTreeMap;

/// Texts of equal content, in other styles and windows, are written alike.
pub fn equal_content(format: &Format, settings: &Settings) -> Result<String, String> {
    each_content(format, settings, 3, |content, text, random| {
        let first = rewritten(format, content, text, random)?;
        for _ in 0..2 {
            let other = (format.text)(content, random);
            if rewritten(format, content, &other, random)? != first {
                return Err(format!("written unlike: {}", other.escape_ascii()));
            }
        }
        Ok(())
    })
}

/// A written text is read back in other windows, and written as it was.
pub fn reading_back(format: &Format, settings: &Settings) -> Result<String, String> {
    each_content(format, settings, 4, |content, text, random| {
        let first = rewritten(format, content, text, random)?;
        for _ in 0..2 {
            let again = rewritten(format, content, &first, random)?;
            if again != first {
                return Err(format!("written again as {}", again.escape_ascii()));
            }
        }
        (format.divided)(content, &first)
    })
}

/// A cell, a header byte or an entry that differs shows in the text.
pub fn changed_content(format: &Format, settings: &Settings) -> Result<String, String> {
    let mut changes = Tally::of(format.changes.iter().copied());
    let report = each_content(format, settings, 5, |content, text, random| {
        let first = rewritten(format, content, text, random)?;
        for &change in format.changes {
            let Some(other) = changed(content, change, format.reach, random) else {
                continue;
            };
            let text = (format.text)(&other, random);
            if rewritten(format, &other, &text, random)? == first {
                return Err(format!("{change:?} does not show"));
            }
            changes.add(change);
        }
        Ok(())
    })?;
    Ok(format!("{report}; changes: {}", changes.complete()?))
}

/// What becomes of cells that are written in another format.
#[derive(Clone, Copy, Debug, PartialEq, Eq, PartialOrd, Ord)]
enum Carried {
    Over,
    OutOfReach,
}

/// Cells loaded from one format are the same in the text of another, and are
/// written back as they were. Cells that the other cannot address it refuses.
pub fn across(from: &Format, to: &Format, settings: &Settings) -> Result<String, String> {
    let outcomes = [Carried::Over, Carried::OutOfReach];
    let possible = if to.reach < from.reach { 2 } else { 1 };
    let mut outcomes = Tally::of(outcomes.into_iter().take(possible));
    let report = each_content(from, settings, 6, |content, text, random| {
        let window = loaded(from, content, text, random)?;
        let entry = random.word() as u32;
        let carried = Content {
            header: Vec::new(),
            entry: to.has_entry.then_some(entry),
            cells: content.cells.clone(),
        };
        if content.end() > to.reach {
            outcomes.add(Carried::OutOfReach);
            return refused(to, &carried, &window, random);
        }
        outcomes.add(Carried::Over);
        let there = written(to, &carried, &window, random)?;
        let again = loaded(to, &carried, &there, random)?;
        let back = written(from, content, &again, random)?;
        if back != written(from, content, &window, random)? {
            return Err(format!("comes back as {}", back.escape_ascii()));
        }
        Ok(())
    })?;
    Ok(format!("{report}; carried: {}", outcomes.complete()?))
}

/// Tries a property on accepted texts and what they say. `kind` keeps the
/// texts of one property apart from those of another.
fn each_content(
    format: &Format,
    settings: &Settings,
    kind: u64,
    mut property: impl FnMut(&Content, &[u8], &mut Random) -> Result<(), String>,
) -> Result<String, String> {
    let number = format.share(settings, 2);
    let seed = settings.seed.wrapping_mul(8).wrapping_add(kind);
    let accepted = (0..).filter(|&index| format.wanted.aimed_number(index) == Some(0));
    for index in accepted.take(number as usize) {
        let random = &mut Random::new(seed, !index);
        let (content, text) = accepted_text(format, seed, index, random);
        property(&content, &text, random).map_err(|error| {
            let text = text.escape_ascii();
            format!("seed {seed}, index {index}: {error}\ntext \"{text}\"")
        })?;
    }
    Ok(format!("{number} contents"))
}

/// A text that is accepted, with what it says by the second reading.
fn accepted_text(
    format: &Format,
    seed: u64,
    index: u64,
    random: &mut Random,
) -> (Content, Vec<u8>) {
    let limits = random.pick(&[format.wanted.full, format.wanted.small]);
    let mut case = format.wanted.load_case(seed, index, limits);
    let (memory, marks) = (&mut case.memory, &mut case.marks);
    let loaded = (format.wanted.load)(&case.text, case.base, memory, marks);
    let content = Content {
        header: loaded.header[..loaded.header_len].to_vec(),
        cells: marked_cells(case.base, &case.memory, &case.marks),
        entry: loaded.entry,
    };
    (content, case.text)
}

fn marked_cells(base: u32, memory: &[u8], marks: &[u8]) -> BTreeMap<u64, u8> {
    let cells = (u64::from(base)..).zip(memory.iter().zip(marks));
    cells
        .filter(|(_, (_, &mark))| mark == 1)
        .map(|(address, (&byte, _))| (address, byte))
        .collect()
}

/// Memory and marks as a load left them.
struct Window {
    base: u32,
    memory: Guarded,
    marks: Guarded,
}

fn rewritten(
    format: &Format,
    content: &Content,
    text: &[u8],
    random: &mut Random,
) -> Result<Vec<u8>, String> {
    let window = loaded(format, content, text, random)?;
    written(format, content, &window, random)
}

/// Loads a text of known content in a drawn window over garbage, and checks the
/// window.
fn loaded(
    format: &Format,
    content: &Content,
    text: &[u8],
    random: &mut Random,
) -> Result<Window, String> {
    let (base, length) = content.window(random);
    let before = random.bytes(length);
    let mut memory = Guarded::new(random, &before);
    let mut marks = Guarded::unset(random, length);
    let number = (format.load)(text, base, memory.bytes_mut(), marks.bytes_mut());
    if number != 0 {
        return Err(format!("row {number} refuses {}", text.escape_ascii()));
    }
    let mut wanted_memory = before;
    let mut wanted_marks = vec![0; length];
    for (&address, &byte) in &content.cells {
        let index = (address - u64::from(base)) as usize;
        wanted_memory[index] = byte;
        wanted_marks[index] = 1;
    }
    memory.expect("memory", &wanted_memory)?;
    marks.expect("marks", &wanted_marks)?;
    let loaded = (format.wanted.load)(text, base, &mut wanted_memory, &mut wanted_marks);
    let header = &loaded.header[..loaded.header_len];
    if header != content.header || loaded.entry != content.entry {
        return Err(format!("other content: {}", text.escape_ascii()));
    }
    Ok(Window {
        base,
        memory,
        marks,
    })
}

/// Writes a window with a content's header and entry into an output that is
/// always long enough, and gives the text; an empty one if it is refused.
fn write(
    format: &Format,
    content: &Content,
    window: &Window,
    random: &mut Random,
) -> Result<Vec<u8>, String> {
    let enough = format.enough(content.header.len(), content.cells.len());
    let mut out = Guarded::unset(random, enough);
    let untouched = out.bytes().to_vec();
    let (memory, marks) = (window.memory.bytes(), window.marks.bytes());
    let (header, entry) = (&content.header, content.entry);
    let length = (format.write)(window.base, memory, marks, header, entry, out.bytes_mut());
    if length > enough {
        return Err(format!("the library answers {length}, above {enough}"));
    }
    let text = out.bytes()[..length].to_vec();
    out.expect("output", &[&text, &untouched[length..]].concat())?;
    Ok(text)
}

fn written(
    format: &Format,
    content: &Content,
    window: &Window,
    random: &mut Random,
) -> Result<Vec<u8>, String> {
    let text = write(format, content, window, random)?;
    if text.is_empty() {
        return Err(format!("not written as {}", format.name));
    }
    Ok(text)
}

fn refused(
    format: &Format,
    content: &Content,
    window: &Window,
    random: &mut Random,
) -> Result<(), String> {
    let text = write(format, content, window, random)?;
    if !text.is_empty() {
        return Err(format!("written as {}", text.escape_ascii()));
    }
    Ok(())
}
