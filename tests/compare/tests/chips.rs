//! Compares images dealt over chips by the program `deals` with the second
//! reading.

use compare::chips;
use compare::settings::Settings;
use std::process::ExitCode;

fn main() -> ExitCode {
    match Settings::from_arguments(20_000).and_then(|settings| chips::drawn(&settings)) {
        Ok(report) => {
            println!("ok    chips: {report}\n1 passed, 0 failed");
            ExitCode::SUCCESS
        }
        Err(report) => {
            println!("FAIL  chips: {report}\n0 passed, 1 failed");
            ExitCode::FAILURE
        }
    }
}
