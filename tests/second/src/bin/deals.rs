//! Answers the cases of an input by the second reading, in place of the program
//! `deals`, where that is not built.

use second::deals::parse;
use std::io::{self, Read, Write};
use std::process::ExitCode;

fn main() -> ExitCode {
    match answer() {
        Ok(()) => ExitCode::SUCCESS,
        Err(error) => {
            eprintln!("deals: {error}");
            ExitCode::FAILURE
        }
    }
}

fn answer() -> io::Result<()> {
    let mut input = Vec::new();
    io::stdin().read_to_end(&mut input)?;
    let cases = parse(&input).ok_or(io::ErrorKind::InvalidInput)?;
    let mut out = io::stdout().lock();
    cases
        .iter()
        .try_for_each(|case| out.write_all(&case.answer()))
}
