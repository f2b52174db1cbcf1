//! Loads in parts, by the program `calls` and by the second reading: every field
//! of the answers, the state, memory and marks, however the text is cut and
//! whatever the caller does between the calls, in both forms of marks.

use crate::program::{Batch, CALLS};
use crate::settings::Settings;
use crate::tally::{in_form, Tally};
use second::cases::cuts::WAYS;
use second::cases::packed::{call_ways, CALL_WAYS};
use second::cases::series::{series_case, Drawn, Trick, TRICKS};
use second::cases::{FULL, LOAD_NUMBERS, SMALL};
use second::form::{Form, FORMS};

/// The part of a text that is too long.
const ROW_20: u32 = 20;

/// How often each row, trick and way of cutting came up in a form of marks.
struct Counts {
    rows: Tally<u32>,
    tricks: Tally<Trick>,
    cuts: Tally<&'static str>,
}

impl Counts {
    fn new() -> Counts {
        Counts {
            rows: Tally::of(LOAD_NUMBERS.into_iter().chain([ROW_20])),
            tricks: Tally::of(TRICKS),
            cuts: Tally::of(WAYS),
        }
    }

    fn add(&mut self, drawn: &Drawn) {
        let Drawn { case, ways, trick } = drawn;
        self.tricks.add(*trick);
        ways.iter().for_each(|way| self.cuts.add(way));
        // A reason that is set can be any number.
        if *trick != Trick::Reason {
            let ends = case.ends().into_iter();
            ends.for_each(|end| self.rows.add(end));
        }
    }

    fn told(&self, form: Form) -> Result<String, String> {
        let name = |what| in_form(what, form);
        let told = [
            self.rows.told(&name("rows"))?,
            self.cuts.told(&name("cuts"))?,
            self.tricks.told(&name("tricks"))?,
        ];
        Ok(told.join("; "))
    }
}

/// Compares so many drawn series of calls. With 17 there are large texts of each
/// kind.
pub fn drawn(settings: &Settings) -> Result<String, String> {
    let mut counts = FORMS.map(|_| Counts::new());
    let mut packed = Tally::of(CALL_WAYS);
    let mut batch = Batch::of(CALLS);
    for index in 0..settings.cases {
        let large = index.is_multiple_of(17);
        let limits = if large { FULL } else { SMALL };
        let drawn = series_case(settings.seed, index, limits);
        if !drawn.case.fits() {
            continue;
        }
        let [bytes, bits] = &mut counts;
        match drawn.case.form {
            Form::Bytes => bytes.add(&drawn),
            Form::Packed => {
                bits.add(&drawn);
                let ways = call_ways(&drawn.case).into_iter();
                ways.for_each(|way| packed.add(way));
            }
        }
        batch.add(drawn.case)?;
    }
    batch.run()?;
    let mut report = vec![format!("{} series of calls", batch.compared)];
    for (form, counts) in FORMS.iter().zip(&counts) {
        report.push(counts.told(*form)?);
    }
    report.push(packed.told("packed marks")?);
    Ok(report.join("; "))
}
