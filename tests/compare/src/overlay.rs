//! Patches over a base image, by the program `patches` and by the second reading:
//! looks at every cell and around the window, merges with all that they leave, and
//! writes of that, in both forms of marks. What the program prints is also held to
//! itself (`walks`).

use crate::program::{Batch, PATCHES};
use crate::settings::Settings;
use crate::tally::{in_form, Tally};
use crate::walks::{read, Printed};
use second::cases::overlays::{
    overlay_case, packed_ways, see_writes, ways, MERGE_NUMBERS, PACKED_WAYS, WAYS, WRITE_WAYS,
};
use second::form::{Form, FORMS};
use second::patches::Case;

/// What a look can say. Row 15 is of merges only.
const WORDS: [&str; 5] = ["patch", "base", "neither", "refused 1", "refused 16"];

/// How often each thing came up in a form of marks.
struct Counts {
    words: Tally<String>,
    merges: Tally<u32>,
    writes: Tally<String>,
    ways: Tally<&'static str>,
}

impl Counts {
    fn of(form: Form) -> Counts {
        let ways = match form {
            Form::Bytes => Tally::of(WAYS),
            Form::Packed => Tally::of(PACKED_WAYS),
        };
        Counts {
            words: Tally::of(WORDS.map(str::to_string)),
            merges: Tally::of(MERGE_NUMBERS),
            writes: Tally::of(WRITE_WAYS.map(str::to_string)),
            ways,
        }
    }

    fn add(&mut self, case: &Case) -> Result<(), String> {
        for printed in read(&case.answer()).ok_or("an answer that cannot be read")? {
            match printed {
                Printed::Look(look) => self.words.add(look.word),
                Printed::Merge(merge) => self.merges.add(merge.number),
                Printed::Write(_) => {}
            }
        }
        let found = match case.form {
            Form::Bytes => ways(case),
            Form::Packed => packed_ways(case),
        };
        found.into_iter().for_each(|way| self.ways.add(way));
        let writes = see_writes(case).into_iter();
        writes.for_each(|write| self.writes.add(write));
        Ok(())
    }

    fn told(&self, form: Form) -> Result<String, String> {
        let name = |what| in_form(what, form);
        let told = [
            self.words.told(&name("words"))?,
            self.merges.told(&name("rows"))?,
            self.writes.told(&name("writes"))?,
            self.ways.told(&name("ways"))?,
        ];
        Ok(told.join("; "))
    }
}

/// Compares so many drawn cases.
pub fn drawn(settings: &Settings) -> Result<String, String> {
    let mut counts = FORMS.map(Counts::of);
    let mut batch = Batch::of(PATCHES);
    for index in 0..settings.cases {
        let case = overlay_case(settings.seed, index);
        if !case.fits() {
            return Err(format!("{} does not fit", case.name));
        }
        let [bytes, packed] = &mut counts;
        match case.form {
            Form::Bytes => bytes.add(&case)?,
            Form::Packed => packed.add(&case)?,
        }
        batch.add(case)?;
    }
    batch.run()?;
    let mut report = vec![format!("{} cases", batch.compared)];
    for (form, counts) in FORMS.iter().zip(&counts) {
        report.push(counts.told(*form)?);
    }
    Ok(report.join("; "))
}
