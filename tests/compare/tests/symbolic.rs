//! Compares texts behind symbol blocks, and patch sheets, by the program `symbolic`
//! with the second reading.

use compare::settings::Settings;
use compare::symbolic;
use std::process::ExitCode;

fn main() -> ExitCode {
    match Settings::from_arguments(20_000).and_then(|settings| symbolic::drawn(&settings)) {
        Ok(report) => {
            println!("ok    symbolic: {report}\n1 passed, 0 failed");
            ExitCode::SUCCESS
        }
        Err(report) => {
            println!("FAIL  symbolic: {report}\n0 passed, 1 failed");
            ExitCode::FAILURE
        }
    }
}
