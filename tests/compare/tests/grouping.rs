//! Asks of the program `patches` whether merges agree in any grouping and order.

use compare::grouping;
use compare::settings::Settings;
use std::process::ExitCode;

fn main() -> ExitCode {
    match Settings::from_arguments(10_000).and_then(|settings| grouping::drawn(&settings)) {
        Ok(report) => {
            println!("ok    grouping: {report}\n1 passed, 0 failed");
            ExitCode::SUCCESS
        }
        Err(report) => {
            println!("FAIL  grouping: {report}\n0 passed, 1 failed");
            ExitCode::FAILURE
        }
    }
}
