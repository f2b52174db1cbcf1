//! Compares patches over a base image by the program `patches` with the second
//! reading.

use compare::overlay;
use compare::settings::Settings;
use std::process::ExitCode;

fn main() -> ExitCode {
    match Settings::from_arguments(20_000).and_then(|settings| overlay::drawn(&settings)) {
        Ok(report) => {
            println!("ok    overlay: {report}\n1 passed, 0 failed");
            ExitCode::SUCCESS
        }
        Err(report) => {
            println!("FAIL  overlay: {report}\n0 passed, 1 failed");
            ExitCode::FAILURE
        }
    }
}
