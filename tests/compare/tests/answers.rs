//! Compares the whole answers of the program `vectors` with the second reading.

use compare::answers;
use compare::settings::Settings;
use std::process::ExitCode;

fn main() -> ExitCode {
    match Settings::from_arguments(20_000).and_then(|settings| answers::drawn(&settings)) {
        Ok(report) => {
            println!("ok    answers: {report}\n1 passed, 0 failed");
            ExitCode::SUCCESS
        }
        Err(report) => {
            println!("FAIL  answers: {report}\n0 passed, 1 failed");
            ExitCode::FAILURE
        }
    }
}
