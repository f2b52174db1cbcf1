//! Compares loads in parts by the program `calls` with the second reading.

use compare::parts;
use compare::settings::Settings;
use std::process::ExitCode;

fn main() -> ExitCode {
    match Settings::from_arguments(60_000).and_then(|settings| parts::drawn(&settings)) {
        Ok(report) => {
            println!("ok    parts: {report}\n1 passed, 0 failed");
            ExitCode::SUCCESS
        }
        Err(report) => {
            println!("FAIL  parts: {report}\n0 passed, 1 failed");
            ExitCode::FAILURE
        }
    }
}
