//! Images dealt over chips, and chips collected, by the program `deals` and by the
//! second reading: the refusal of each call, the header and the entry of a collect, and
//! all memory and marks that the call may change.

use crate::program::{Batch, DEALS};
use crate::settings::Settings;
use crate::tally::Tally;
use second::cases::chips::{chips_case, ways, Call, CALLS, CHIP_NUMBERS};
use second::deals::Case;

/// How often each thing came up in one of the two calls.
struct Counts {
    call: Call,
    name: &'static str,
    rows: Tally<u32>,
    ways: Tally<String>,
}

impl Counts {
    fn of(call: Call) -> Counts {
        let name = match call {
            Call::Deal => "deal",
            Call::Collect => "collect",
        };
        Counts {
            call,
            name,
            rows: Tally::of(CHIP_NUMBERS),
            ways: Tally::of(call.wanted()),
        }
    }

    /// The refusal number stands behind the name of the call.
    fn add(&mut self, case: &Case) -> Result<(), String> {
        let answer = case.answer();
        let answer = String::from_utf8_lossy(&answer);
        for line in answer.lines() {
            let mut words = line.split(' ');
            if words.next() == Some(self.name) {
                let number = words.next().and_then(|word| word.parse().ok());
                self.rows
                    .add(number.ok_or("an answer that cannot be read")?);
            }
        }
        let own = ways(case)
            .into_iter()
            .filter(|(call, _)| *call == self.call);
        own.for_each(|(_, way)| self.ways.add(way));
        Ok(())
    }

    fn told(&self) -> Result<String, String> {
        let name = self.name;
        let rows = self.rows.told(&format!("rows of {name}"))?;
        let ways = self.ways.told(&format!("ways of {name}"))?;
        Ok(format!("{rows}; {ways}"))
    }
}

/// Compares so many drawn cases.
pub fn drawn(settings: &Settings) -> Result<String, String> {
    let mut counts = CALLS.map(Counts::of);
    let mut batch = Batch::of(DEALS);
    for index in 0..settings.cases {
        let case = chips_case(settings.seed, index);
        if !case.fits() {
            return Err(format!("{} does not fit", case.name));
        }
        for counts in &mut counts {
            counts.add(&case)?;
        }
        batch.add(case)?;
    }
    batch.run()?;
    let mut report = vec![format!("{} cases", batch.compared)];
    for counts in &counts {
        report.push(counts.told()?);
    }
    Ok(report.join("; "))
}
