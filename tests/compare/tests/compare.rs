//! Runs every check and prints what came up.

use compare::format::{Format, FORMATS, RECORDS, SUM_TAPES, TAPES};
use compare::settings::Settings;
use compare::{examples, guards_notice, loads, properties, writes};
use std::process::ExitCode;
use std::thread;

type Outcome = Result<String, String>;
type Check = fn(&Settings) -> Outcome;
type CheckOfFormat = fn(&Format, &Settings) -> Outcome;

const CHECKS: [(&str, Check); 5] = [
    ("guards", |_| guards_notice()),
    ("examples", |_| examples::hold()),
    ("S-records as tapes", |settings| {
        properties::across(&RECORDS, &TAPES, settings)
    }),
    ("tapes as S-records", |settings| {
        properties::across(&TAPES, &RECORDS, settings)
    }),
    ("tapes in the other edition", |settings| {
        properties::across(&TAPES, &SUM_TAPES, settings)
    }),
];

/// These are run for each format.
const CHECKS_OF_A_FORMAT: [(&str, CheckOfFormat); 10] = [
    ("loads, full size", loads::full),
    ("loads, small", loads::small),
    ("loads, large", loads::large),
    ("writes, full size", writes::full),
    ("writes, small", writes::small),
    ("writes, large", writes::large),
    ("writes, shared inputs", writes::shared_inputs),
    ("equal content", properties::equal_content),
    ("reading back", properties::reading_back),
    ("changed content", properties::changed_content),
];

fn main() -> ExitCode {
    let settings = match Settings::from_arguments(300_000) {
        Ok(settings) => settings,
        Err(error) => {
            eprintln!("{error}");
            return ExitCode::from(2);
        }
    };
    println!("seed {}, {} cases", settings.seed, settings.cases);
    let (passed, failed) = run(&settings);
    println!("{passed} passed, {failed} failed");
    ExitCode::from(u8::from(failed > 0))
}

/// Runs all checks at once, prints them in order and counts those that pass and
/// those that fail.
fn run(settings: &Settings) -> (usize, usize) {
    let (mut passed, mut failed) = (0, 0);
    thread::scope(|scope| {
        let mut running = Vec::new();
        for (name, check) in CHECKS {
            running.push((name.to_string(), scope.spawn(move || check(settings))));
        }
        for format in FORMATS {
            for (name, check) in CHECKS_OF_A_FORMAT {
                let name = format!("{}, {name}", format.name);
                running.push((name, scope.spawn(move || check(format, settings))));
            }
        }
        for (name, check) in running {
            let panicked = |_| Err("panicked".to_string());
            match check.join().unwrap_or_else(panicked) {
                Ok(report) => {
                    println!("ok    {name}: {report}");
                    passed += 1;
                }
                Err(report) => {
                    println!("FAIL  {name}: {report}");
                    failed += 1;
                }
            }
        }
    });
    (passed, failed)
}
