//! How many cases are drawn, and from which seed.

use std::env;

pub struct Settings {
    pub seed: u64,
    pub cases: u64,
}

impl Settings {
    /// The program's arguments SEED and CASES; seed 1 and the usual number of
    /// cases without them. Words that begin with `-` are cargo's.
    pub fn from_arguments(usual: u64) -> Result<Settings, String> {
        let words = env::args().skip(1).filter(|word| !word.starts_with('-'));
        let numbers: Vec<u64> = words.map(number).collect::<Result<_, _>>()?;
        let (seed, cases) = match numbers[..] {
            [] => (1, usual),
            [seed] => (seed, usual),
            [seed, cases] => (seed, cases),
            _ => return Err("at most two arguments: SEED CASES".to_string()),
        };
        Ok(Settings { seed, cases })
    }

    /// So many of every 100 cases.
    pub fn share(&self, percent: u64) -> u64 {
        self.cases / 100 * percent
    }
}

fn number(word: String) -> Result<u64, String> {
    word.parse().map_err(|_| format!("not a number: {word}"))
}
