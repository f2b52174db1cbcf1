//! How often each thing came up.

use second::form::Form;
use std::collections::{BTreeMap, BTreeSet};
use std::fmt::{self, Debug, Display, Formatter};

pub struct Tally<T> {
    counts: BTreeMap<T, u64>,
    /// What came up and must not.
    others: BTreeSet<T>,
}

impl<T: Ord + Debug> Tally<T> {
    /// Starts at zero for each thing that must come up. No other may.
    pub fn of(things: impl IntoIterator<Item = T>) -> Tally<T> {
        Tally {
            counts: things.into_iter().map(|thing| (thing, 0)).collect(),
            others: BTreeSet::new(),
        }
    }

    pub fn add(&mut self, thing: T) {
        match self.counts.get_mut(&thing) {
            Some(count) => *count += 1,
            None => drop(self.others.insert(thing)),
        }
    }

    /// The counts, or an error if something never came up, or came up that may not.
    pub fn complete(&self) -> Result<String, String> {
        if let Some(thing) = self.others.first() {
            return Err(format!("{thing:?} came up: {self}"));
        }
        let never = |(_, count): &(&T, &u64)| **count == 0;
        match self.counts.iter().find(never) {
            None => Ok(self.to_string()),
            Some((thing, _)) => Err(format!("{thing:?} never came up: {self}")),
        }
    }

    /// The same behind a name.
    pub fn told(&self, name: &str) -> Result<String, String> {
        let told = |counts| format!("{name}: {counts}");
        self.complete().map(told).map_err(told)
    }
}

impl<T: Ord + Debug> Display for Tally<T> {
    fn fmt(&self, out: &mut Formatter) -> fmt::Result {
        let counts: Vec<String> = self
            .counts
            .iter()
            .map(|(thing, count)| format!("{thing:?}: {count}"))
            .collect();
        out.write_str(&counts.join(", "))
    }
}

/// What is counted, in a form of marks.
pub fn in_form(what: &str, form: Form) -> String {
    match form {
        Form::Bytes => what.to_string(),
        Form::Packed => format!("{what}, packed"),
    }
}
