//! Runs every check of the functions that give whole answers, and prints what came up.

use compare::face::{images, parts, sheets, texts, writes, Face, FACES};
use compare::settings::Settings;
use std::process::ExitCode;
use std::thread;

type Outcome = Result<String, String>;
type Check = fn(&Settings) -> Outcome;
type CheckOfFormat = fn(&Face, &Settings) -> Outcome;

const CHECKS: [(&str, Check); 6] = [
    ("merges", images::merges),
    ("deals and collects", images::boards),
    ("symbol blocks and sheets, small", sheets::small),
    ("symbol blocks and sheets, full size", sheets::full),
    ("parts", parts::drawn),
    ("parts, any states", parts::hostile),
];

/// These are run for each format.
const CHECKS_OF_A_FORMAT: [(&str, CheckOfFormat); 4] = [
    ("loads, spans and origins", texts::drawn),
    ("large loads and spans", texts::large),
    ("writes and rooms", writes::drawn),
    ("large writes and rooms", writes::large),
];

fn main() -> ExitCode {
    let settings = match Settings::from_arguments(40_000) {
        Ok(settings) => settings,
        Err(error) => {
            eprintln!("{error}");
            return ExitCode::from(2);
        }
    };
    println!("seed {}, {} cases", settings.seed, settings.cases);
    let (passed, failed) = run(&settings);
    println!("{passed} passed, {failed} failed");
    ExitCode::from(u8::from(failed > 0))
}

/// Runs all checks at once, prints them in order and counts those that pass and
/// those that fail.
fn run(settings: &Settings) -> (usize, usize) {
    let (mut passed, mut failed) = (0, 0);
    thread::scope(|scope| {
        let mut running = Vec::new();
        for (name, check) in CHECKS {
            running.push((name.to_string(), scope.spawn(move || check(settings))));
        }
        for face in &FACES {
            for (name, check) in CHECKS_OF_A_FORMAT {
                let name = format!("{}, {name}", face.format.name);
                running.push((name, scope.spawn(move || check(face, settings))));
            }
        }
        for (name, check) in running {
            let panicked = |_| Err("panicked".to_string());
            match check.join().unwrap_or_else(panicked) {
                Ok(report) => {
                    println!("ok    {name}: {report}");
                    passed += 1;
                }
                Err(report) => {
                    println!("FAIL  {name}: {report}");
                    failed += 1;
                }
            }
        }
    });
    (passed, failed)
}
