//! Whole answers, by the program `vectors` and by the second reading: record
//! number, place, right checksum, header, entry and counts. Texts of both formats are
//! drawn, and tapes of both editions, some of them with packed marks, which are
//! compared, too.

use crate::format::{Format, FORMATS};
use crate::program::{Batch, VECTORS};
use crate::settings::Settings;
use crate::tally::{in_form, Tally};
use second::cases::packed::{any_form, load_ways, LOAD_WAYS};
use second::cases::LoadCase;
use second::form::{Form, FORMS};
use second::script::{Case, ROOM};

/// A drawn load. An index says what its case is made for, by 4 and by 15: with 17
/// there are large ones of each kind.
fn drawn_case(format: &Format, seed: u64, index: u64) -> Option<Case> {
    let large = index.is_multiple_of(17);
    let wanted = format.wanted;
    let limits = if large { wanted.full } else { wanted.small };
    let name = format!("seed {seed}, index {index}");
    let case = named(format, name, wanted.load_case(seed, index, limits))?;
    Some(case.with(any_form(seed, index)))
}

/// None if window and text cannot be handed over; marks of another length than
/// the memory cannot.
fn named(format: &Format, name: String, drawn: LoadCase) -> Option<Case> {
    let case = Case::new(name, drawn.base, drawn.memory.len(), drawn.text)?.of(format.script);
    let fits = drawn.marks.len() == case.cells && case.script().len() <= ROOM;
    fits.then_some(case)
}

/// How often each row came up in each form of marks, and what did in packed ones.
struct Counts {
    rows: [Tally<u32>; 2],
    ways: Tally<&'static str>,
}

impl Counts {
    fn of(format: &Format) -> Counts {
        Counts {
            rows: FORMS.map(|_| Tally::of(format.wanted.numbers.iter().copied())),
            ways: Tally::of(LOAD_WAYS),
        }
    }

    fn add(&mut self, case: &Case) {
        let rows = FORMS.iter().zip(&mut self.rows);
        let own = rows.filter(|(form, _)| **form == case.form);
        own.for_each(|(_, rows)| rows.add(number(&case.answer())));
        if case.form == Form::Packed {
            load_ways(case)
                .into_iter()
                .for_each(|way| self.ways.add(way));
        }
    }

    fn told(&self, name: &str) -> Result<String, String> {
        let mut told = Vec::new();
        for (form, rows) in FORMS.iter().zip(&self.rows) {
            told.push(rows.told(&in_form(&format!("rows of {name}"), *form))?);
        }
        told.push(self.ways.told(&format!("packed marks of {name}"))?);
        Ok(told.join("; "))
    }
}

/// Takes in one more case, if there is one.
fn add(batch: &mut Batch<Case>, case: Option<Case>, counts: &mut Counts) -> Result<(), String> {
    let Some(case) = case else {
        return Ok(());
    };
    counts.add(&case);
    batch.add(case)
}

/// Compares so many drawn texts of each format, the formats in turn, behind the
/// tapes with about 256 lines; the program takes as many as its input holds.
pub fn drawn(settings: &Settings) -> Result<String, String> {
    let seed = settings.seed;
    let mut counts = FORMATS.map(Counts::of);
    let mut batch = Batch::of(VECTORS);
    for (format, counts) in FORMATS.iter().zip(&mut counts) {
        for (number, drawn) in (format.numbered)(seed) {
            let name = format!("seed {seed}, {number} lines");
            let case = named(format, name, drawn);
            let packed = case.clone().map(|case| case.with(Form::Packed));
            add(&mut batch, case, counts)?;
            add(&mut batch, packed, counts)?;
        }
    }
    for index in 0..settings.cases {
        for (format, counts) in FORMATS.iter().zip(&mut counts) {
            add(&mut batch, drawn_case(format, seed, index), counts)?;
        }
    }
    batch.run()?;
    let mut report = vec![format!("{} texts", batch.compared)];
    for (format, counts) in FORMATS.iter().zip(&counts) {
        report.push(counts.told(format.name)?);
    }
    Ok(report.join("; "))
}

/// The refusal number: it starts the line behind the heading.
fn number(answer: &[u8]) -> u32 {
    let line = answer.split(|&c| c == b'\n').nth(1).unwrap_or_default();
    let digits = line.iter().take_while(|c| c.is_ascii_digit());
    digits.fold(0, |sum, c| 10 * sum + u32::from(c - b'0'))
}
