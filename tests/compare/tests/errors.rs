//! Asks of the program `vectors` whether single errors are always caught.

use compare::errors;
use compare::settings::Settings;
use std::process::ExitCode;

fn main() -> ExitCode {
    match Settings::from_arguments(400).and_then(|settings| errors::drawn(&settings)) {
        Ok(report) => {
            println!("ok    errors: {report}\n1 passed, 0 failed");
            ExitCode::SUCCESS
        }
        Err(report) => {
            println!("FAIL  errors: {report}\n0 passed, 1 failed");
            ExitCode::FAILURE
        }
    }
}
