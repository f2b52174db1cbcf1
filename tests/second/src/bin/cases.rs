//! Prints small cases with their results, one line of JSON for each.

use second::cases::cuts::parts_case;
use second::cases::overlays::overlay_case;
use second::cases::tapes::{SUM_TAPES, TAPES};
use second::cases::{Drawing, RECORDS, SMALL};
use second::form::Form;
use second::overlay::{look, merge, Word};
use second::patches::{Bench, Case, Command, Held};
use second::reading::{Loaded, Refusal};
use std::io::{self, BufWriter, Write};
use std::process::ExitCode;

const USAGE: &str = "usage: cases \
    load|write|load-tape|write-tape|load-tape-sum|write-tape-sum|load-parts|overlay|patches \
    SEED COUNT";

/// The most cells, and the most marks, of a small base image or patch.
const CELLS: usize = 8;

fn main() -> ExitCode {
    let arguments: Vec<String> = std::env::args().skip(1).collect();
    let Some((line, seed, count)) = parse(&arguments) else {
        eprintln!("{USAGE}");
        return ExitCode::from(2);
    };
    match print(line, seed, count) {
        Ok(()) => ExitCode::SUCCESS,
        Err(error) => {
            eprintln!("cases: {error}");
            ExitCode::FAILURE
        }
    }
}

/// Gives the line of the case with a seed and an index.
type Line = fn(u64, u64) -> String;

fn parse(arguments: &[String]) -> Option<(Line, u64, u64)> {
    let [side, seed, count] = arguments else {
        return None;
    };
    let line: Line = match side.as_str() {
        "load" => |seed, index| load_line(&RECORDS, seed, index),
        "write" => |seed, index| write_line(&RECORDS, seed, index),
        "load-tape" => |seed, index| load_line(&TAPES, seed, index),
        "write-tape" => |seed, index| write_line(&TAPES, seed, index),
        "load-tape-sum" => |seed, index| load_line(&SUM_TAPES, seed, index),
        "write-tape-sum" => |seed, index| write_line(&SUM_TAPES, seed, index),
        "load-parts" => parts_line,
        "overlay" => overlay_line,
        "patches" => patches_line,
        _ => return None,
    };
    Some((line, seed.parse().ok()?, count.parse().ok()?))
}

fn print(line: Line, seed: u64, count: u64) -> io::Result<()> {
    let mut out = BufWriter::new(io::stdout().lock());
    for index in 0..count {
        writeln!(out, "{}", line(seed, index))?;
    }
    out.flush()
}

fn load_line(drawing: &Drawing, seed: u64, index: u64) -> String {
    let case = drawing.load_case(seed, index, drawing.small);
    let mut memory = case.memory.clone();
    let mut marks = case.marks.clone();
    let loaded = (drawing.load)(&case.text, case.base, &mut memory, &mut marks);
    let arguments = vec![
        ("text", array(&case.text)),
        ("base", case.base.to_string()),
        ("memory", array(&case.memory)),
        ("marks", array(&case.marks)),
    ];
    object(&[arguments, answer(&loaded, &memory, &marks)].concat())
}

/// A load that is begun, fed the parts and ended.
fn parts_line(seed: u64, index: u64) -> String {
    let case = parts_case(seed, index, SMALL);
    let (loaded, memory, marks) = case.run();
    let parts: Vec<String> = case.parts.iter().map(|part| array(part)).collect();
    let arguments = vec![
        ("base", case.base.to_string()),
        ("memory", array(&case.memory)),
        ("marks", array(&case.marks)),
        ("parts", format!("[{}]", parts.join(","))),
    ];
    object(&[arguments, answer(&loaded, &memory, &marks)].concat())
}

/// The answer of a load, and memory and marks after it.
fn answer(loaded: &Loaded, memory: &[u8], marks: &[u8]) -> Vec<Field> {
    let rest = vec![
        ("header", array(&loaded.header[..loaded.header_len])),
        ("entry", entry(loaded.entry)),
        ("records", loaded.records.to_string()),
        ("cells", loaded.cells.to_string()),
        ("memory_after", array(memory)),
        ("marks_after", array(marks)),
    ];
    [refusal(&loaded.refusal), rest].concat()
}

fn write_line(drawing: &Drawing, seed: u64, index: u64) -> String {
    let case = drawing.write_case(seed, index, drawing.small);
    let mut out = vec![0; case.room];
    let written = (drawing.write)(
        case.base,
        &case.memory,
        &case.marks,
        &case.header,
        case.entry,
        &mut out,
    );
    let arguments = vec![
        ("base", case.base.to_string()),
        ("memory", array(&case.memory)),
        ("marks", array(&case.marks)),
        ("header", array(&case.header)),
        ("entry", entry(case.entry)),
        ("room", case.room.to_string()),
    ];
    let text = vec![("text_out", array(&out[..written.length]))];
    object(&[arguments, refusal(&written.refusal), text].concat())
}

/// A patch over a base image: what addresses show, and then the merge.
fn overlay_line(seed: u64, index: u64) -> String {
    let (bench, addresses) = small_overlay(seed, index);
    let Bench { base, patch, .. } = &bench;
    let looks: Vec<String> = addresses.iter().map(|&at| seen(&bench, at)).collect();
    let (mut memory, mut marks) = (base.memory.clone(), base.marks.clone());
    let merged = merge(
        bench.start,
        &mut memory,
        &mut marks,
        &base.title,
        patch.image(),
        &patch.title,
    );
    let arguments = vec![
        ("start", bench.start.to_string()),
        ("base", held(base)),
        ("patch", held(patch)),
        ("looks", format!("[{}]", looks.join(","))),
    ];
    let answer = vec![
        ("header", array(&merged.title.header)),
        ("entry", entry(merged.title.entry)),
        ("memory_after", array(&memory)),
        ("marks_after", array(&marks)),
    ];
    object(&[arguments, refusal(&merged.refusal), answer].concat())
}

/// Images before a merge, and the addresses to look at, drawn until they are small
/// and their marks are bytes.
fn small_overlay(seed: u64, index: u64) -> (Bench, Vec<u32>) {
    let mut stream = index;
    loop {
        let (bench, addresses) = before_merge(&overlay_case(seed, stream));
        let images = [&bench.base, &bench.patch];
        let buffers = images.map(|image| image.memory.len().max(image.marks.len()));
        let small = buffers.iter().all(|&length| length <= CELLS);
        if small && bench.form == Form::Bytes {
            return (bench, addresses);
        }
        // Far from what another index draws.
        stream += 1 << 32;
    }
}

/// The images at the first merge of a case, and the addresses looked at before.
fn before_merge(case: &Case) -> (Bench, Vec<u32>) {
    let mut bench = Bench::new(case.form, case.start);
    let mut addresses = Vec::new();
    for command in &case.commands {
        match command {
            Command::Merge => break,
            Command::Look(more) => addresses.extend(more),
            _ => bench.run(command),
        }
    }
    (bench, addresses)
}

fn held(image: &Held) -> String {
    object(&[
        ("memory", array(&image.memory)),
        ("marks", array(&image.marks)),
        ("header", array(&image.title.header)),
        ("entry", entry(image.title.entry)),
    ])
}

/// What an address shows, with the numbers of the refusal.
fn seen(bench: &Bench, address: u32) -> String {
    let (base, patch) = (bench.base.image(), bench.patch.image());
    let (part, word) = look(bench.start, base, patch, address);
    let (name, numbers) = match word {
        Word::Patch => ("Patch", Refusal::default()),
        Word::Base => ("Base", Refusal::default()),
        Word::Neither => ("Neither", Refusal::default()),
        Word::Refused(numbers) => ("Refused", numbers),
    };
    let fields = vec![
        ("address", address.to_string()),
        ("word", format!("\"{name}\"")),
        ("part", array(part)),
    ];
    object(&[fields, refusal(&numbers)].concat())
}

/// A case in the form of the program `patches`, and what that has to print.
fn patches_line(seed: u64, index: u64) -> String {
    let case = overlay_case(seed, index);
    object(&[
        ("script", array(&case.script())),
        ("answer", array(&case.answer())),
    ])
}

fn refusal(refusal: &Refusal) -> Vec<Field> {
    vec![
        ("number", refusal.number.to_string()),
        ("record", refusal.record.to_string()),
        ("place", refusal.place.to_string()),
        ("want", refusal.want.to_string()),
    ]
}

/// A name, and its value in JSON.
type Field = (&'static str, String);

/// An absent entry is null.
fn entry(entry: Option<u32>) -> String {
    entry.map_or("null".to_string(), |entry| entry.to_string())
}

fn object(fields: &[Field]) -> String {
    let fields: Vec<String> = fields
        .iter()
        .map(|(name, value)| format!("\"{name}\":{value}"))
        .collect();
    format!("{{{}}}", fields.join(","))
}

fn array(bytes: &[u8]) -> String {
    let numbers: Vec<String> = bytes.iter().map(u8::to_string).collect();
    format!("[{}]", numbers.join(","))
}
