//! Texts behind symbol blocks, and patch sheets, by the program `symbolic` and by the
//! second reading: the whole answer, and all memory and marks.

use crate::program::{Batch, SYMBOLIC};
use crate::settings::Settings;
use crate::tally::Tally;
use second::cases::sheets::{sheets_case, ways, Call, Case as Drawn, Size, CALLS, FULL, SMALL};
use second::symbolic::{Case, OLD_BYTE, OLD_MARK};

/// A drawn case, with memory and marks as `symbolic` has them before a load.
fn drawn_case(seed: u64, index: u64, size: Size) -> Drawn {
    let mut drawn = sheets_case(seed, index, size);
    drawn.load.memory.fill(OLD_BYTE);
    drawn.load.marks.fill(OLD_MARK);
    drawn
}

/// The same in the form of `symbolic`.
fn named(name: String, drawn: &Drawn) -> Case {
    let load = &drawn.load;
    Case {
        name,
        base: load.base,
        cells: load.memory.len(),
        marks: load.marks.len(),
        text: load.text.clone(),
        sheet: (drawn.call == Call::Sheet).then(|| drawn.sheet.clone()),
    }
}

/// The sizes of cases, what they are called, and how many of each 100 are drawn.
const SIZES: [(Size, &str, u64); 2] = [(SMALL, "small", 100), (FULL, "full", 50)];

/// Compares so many drawn cases, and a part of that of large ones.
pub fn drawn(settings: &Settings) -> Result<String, String> {
    let mut report = Vec::new();
    for (size, name, percent) in SIZES {
        let told = of_size(settings.seed, settings.share(percent), size);
        report.push(told.map_err(|error| format!("{name}: {error}"))?);
    }
    Ok(report.join("; "))
}

fn of_size(seed: u64, cases: u64, size: Size) -> Result<String, String> {
    let mut counts = CALLS.map(|call| (call, Tally::of(call.wanted(size))));
    let mut batch = Batch::of(SYMBOLIC);
    let mut kept = Vec::new();
    for index in 0..cases {
        let drawn = drawn_case(seed, index, size);
        let case = named(format!("seed {seed}, index {index}"), &drawn);
        // A text with a sign of the form in it.
        if case.fits() {
            batch.add(case)?;
            kept.push(drawn);
        }
    }
    batch.run()?;
    // Behind the program's answers: what a wrong oracle says of a case may not have the form that its ways are read off.
    for drawn in &kept {
        let own = counts.iter_mut().filter(|(call, _)| *call == drawn.call);
        own.for_each(|(_, tally)| ways(drawn).into_iter().for_each(|way| tally.add(way)));
    }
    let compared = batch.compared as u64;
    if compared < cases / 100 * 95 {
        return Err(format!("of {cases} cases only {compared} fit"));
    }
    let mut report = vec![format!("{compared} of {cases} cases")];
    for (call, tally) in &counts {
        report.push(tally.told(&format!("ways of {call:?}"))?);
    }
    Ok(report.join("; "))
}
