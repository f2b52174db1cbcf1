//! Writes, by the library and by the second reading.

use crate::format::Format;
use crate::guarded::Guarded;
use crate::loads;
use crate::settings::Settings;
use crate::tally::Tally;
use second::cases::{Limits, LoadCase, WriteCase};
use second::random::Random;

pub fn full(format: &Format, settings: &Settings) -> Result<String, String> {
    let cases = format.share(settings, 25);
    drawn(format, settings.seed, cases, format.wanted.full)
}

pub fn small(format: &Format, settings: &Settings) -> Result<String, String> {
    let cases = format.share(settings, 15);
    drawn(format, !settings.seed, cases, format.wanted.small)
}

fn drawn(format: &Format, seed: u64, cases: u64, limits: Limits) -> Result<String, String> {
    let mut numbers = Tally::of(format.write_numbers.iter().copied());
    let mut last_kinds = Tally::of(format.last_kinds.iter().copied());
    for index in 0..cases {
        let case = format.write_from_c(seed, index, limits);
        let written = compare(format, &case, seed ^ index).map_err(|error| {
            let case = describe(&case);
            format!("seed {seed}, index {index}: {error}\n{case}")
        })?;
        numbers.add(written.number);
        if let Some(kind) = last_kind(&written.text) {
            last_kinds.add(kind);
        }
    }
    let (numbers, last_kinds) = (numbers.complete()?, last_kinds.complete()?);
    Ok(format!(
        "{cases} cases; rows: {numbers}; kinds of the last line: {last_kinds}"
    ))
}

/// The digit behind the first character of the last line of a text that was
/// written.
fn last_kind(text: &[u8]) -> Option<u8> {
    let last = text.split(|&c| c == b'\n').rfind(|line| !line.is_empty());
    last.map(|line| line[1] - b'0')
}

/// About as many lines as can be counted, and more; the texts are loaded again.
pub fn large(format: &Format, settings: &Settings) -> Result<String, String> {
    let mut numbers = Tally::of(format.large_write_numbers.iter().copied());
    for (index, case) in (format.large_writes)(settings.seed).iter().enumerate() {
        let in_case = |error| format!("index {index}: {error}");
        let written = compare(format, case, index as u64).map_err(in_case)?;
        numbers.add(written.number);
        if written.number == 0 {
            let again = LoadCase {
                text: written.text,
                base: case.base,
                memory: vec![0; case.memory.len()],
                marks: vec![1; case.marks.len()],
            };
            let number = loads::compare(format, &again, index as u64).map_err(in_case)?;
            if number != 0 {
                return Err(format!(
                    "index {index}: its text is refused by row {number}"
                ));
            }
        }
    }
    Ok(format!("rows: {}", numbers.complete()?))
}

/// Buffers that are only read may be one and the same.
pub fn shared_inputs(format: &Format, settings: &Settings) -> Result<String, String> {
    let random = &mut Random::new(settings.seed, 2);
    let cases = 1_000;
    for _ in 0..cases {
        let length = random.size(0, 252);
        let bits: Vec<u8> = (0..length).map(|_| random.byte() % 2).collect();
        let base = random.pick(&[0, 0xFF04, 0xFFF5, 0xFF_FFF5, 0xFFFF_FF00]);
        let shared = Guarded::new(random, &bits);
        let bytes = shared.bytes();
        let header = if format.has_entry { bytes } else { &[] };
        let entry = format.has_entry.then_some(base);
        let mut out = Guarded::unset(random, format.enough(length, length));
        let mut wanted = out.bytes().to_vec();
        let found = (format.write)(base, bytes, bytes, header, entry, out.bytes_mut());
        let written = (format.wanted.write)(base, &bits, &bits, header, entry, &mut wanted);
        if found != written.length {
            return Err(format!(
                "the library answers {found}, not {}",
                written.length
            ));
        }
        out.expect("output", &wanted)?;
        shared.expect("shared buffer", &bits)?;
    }
    Ok(format!("{cases} cases"))
}

/// What both answered.
struct Written {
    number: u32,
    text: Vec<u8>,
}

/// Compares the two answers and everything they leave.
fn compare(format: &Format, case: &WriteCase, layout: u64) -> Result<Written, String> {
    let random = &mut Random::new(layout, 2);
    let memory = Guarded::new(random, &case.memory);
    let marks = Guarded::new(random, &case.marks);
    let header = Guarded::new(random, &case.header);
    let mut out = Guarded::unset(random, case.room);
    let mut wanted = out.bytes().to_vec();
    let length = (format.write)(
        case.base,
        memory.bytes(),
        marks.bytes(),
        header.bytes(),
        case.entry,
        out.bytes_mut(),
    );
    let written = (format.wanted.write)(
        case.base,
        &case.memory,
        &case.marks,
        &case.header,
        case.entry,
        &mut wanted,
    );
    if length != written.length {
        return Err(format!(
            "the library answers {length}, not {} (row {})",
            written.length, written.refusal.number
        ));
    }
    out.expect("output", &wanted)?;
    memory.expect("memory", &case.memory)?;
    marks.expect("marks", &case.marks)?;
    header.expect("header", &case.header)?;
    wanted.truncate(length);
    Ok(Written {
        number: written.refusal.number,
        text: wanted,
    })
}

fn describe(case: &WriteCase) -> String {
    format!(
        "base {:X}, memory {:02X?}\nmarks {:?}\nheader {:02X?}\nentry {:X?}, room {}",
        case.base, case.memory, case.marks, case.header, case.entry, case.room
    )
}
