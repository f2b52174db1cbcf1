//! Loads, by the library and by the second reading.

use crate::format::Format;
use crate::guarded::Guarded;
use crate::settings::Settings;
use crate::tally::Tally;
use second::cases::{Limits, LoadCase};
use second::random::Random;

pub fn full(format: &Format, settings: &Settings) -> Result<String, String> {
    let cases = format.share(settings, 35);
    drawn(format, settings.seed, cases, format.wanted.full)
}

pub fn small(format: &Format, settings: &Settings) -> Result<String, String> {
    let cases = format.share(settings, 25);
    drawn(format, !settings.seed, cases, format.wanted.small)
}

fn drawn(format: &Format, seed: u64, cases: u64, limits: Limits) -> Result<String, String> {
    let mut numbers = Tally::of(format.wanted.numbers.iter().copied());
    for index in 0..cases {
        let case = format.wanted.load_case(seed, index, limits);
        let number = compare(format, &case, seed ^ index).map_err(|error| {
            let case = describe(&case);
            format!("seed {seed}, index {index}: {error}\n{case}")
        })?;
        numbers.add(number);
    }
    Ok(format!("{cases} cases; rows: {}", numbers.complete()?))
}

/// About as many lines as can be counted, and more.
pub fn large(format: &Format, settings: &Settings) -> Result<String, String> {
    let mut numbers = Tally::of(format.large_load_numbers.iter().copied());
    for (index, case) in (format.large_loads)(settings.seed).iter().enumerate() {
        let in_case = |error| format!("index {index}: {error}");
        let number = compare(format, case, index as u64).map_err(in_case)?;
        numbers.add(number);
    }
    Ok(format!("rows: {}", numbers.complete()?))
}

/// Compares the two answers and everything they leave, and gives the number.
pub fn compare(format: &Format, case: &LoadCase, layout: u64) -> Result<u32, String> {
    let random = &mut Random::new(layout, 1);
    let text = Guarded::new(random, &case.text);
    let mut memory = Guarded::new(random, &case.memory);
    let mut marks = Guarded::new(random, &case.marks);
    let number = (format.load)(
        text.bytes(),
        case.base,
        memory.bytes_mut(),
        marks.bytes_mut(),
    );
    let (mut wanted_memory, mut wanted_marks) = (case.memory.clone(), case.marks.clone());
    let loaded = (format.wanted.load)(&case.text, case.base, &mut wanted_memory, &mut wanted_marks);
    let wanted = loaded.refusal.number;
    if number != wanted {
        return Err(format!("the library answers {number}, not {wanted}"));
    }
    text.expect("text", &case.text)?;
    memory.expect("memory", &wanted_memory)?;
    marks.expect("marks", &wanted_marks)?;
    Ok(number)
}

fn describe(case: &LoadCase) -> String {
    format!(
        "text \"{}\"\nbase {:X}, {} cells, {} marks",
        case.text.escape_ascii(),
        case.base,
        case.memory.len(),
        case.marks.len()
    )
}
