//! Single errors in accepted S-record texts, by the program `vectors`. What it has
//! to print for a text with one digit changed follows from the text and the digit
//! alone; and a text with digits in the other case has the answer of the text. The
//! program shows no memory and no marks of a refused load: `compare` sees those.

use crate::program::{self, Batch, VECTORS};
use crate::settings::Settings;
use crate::tally::Tally;
use second::cases::{self, FULL, SMALL};
use second::random::Random;
use second::script::{Case, ROOM};

/// One index of so many stands for a large text.
const LARGE: u64 = 40;

/// Longer texts are left out: each of their digits would be a text as long.
const LONGEST: usize = 4_000;

/// Where the two digits of the count start, and where they end.
const COUNT: usize = 2;
const COUNT_END: usize = 4;

/// A case, and what has to be printed for it.
struct Asked {
    case: Case,
    answer: Vec<u8>,
}

impl program::Case for Asked {
    fn script(&self) -> Vec<u8> {
        self.case.script()
    }

    fn answer(&self) -> Vec<u8> {
        self.answer.clone()
    }
}

/// A record of a text: its number from 1, its place and its characters.
struct Record<'a> {
    number: usize,
    place: usize,
    chars: &'a [u8],
}

/// The parts of a record that a single error is always noticed in.
#[derive(Clone, Copy, Debug, PartialEq, Eq, PartialOrd, Ord)]
enum Field {
    Count,
    Address,
    Data,
    Checksum,
}

use Field::{Address, Checksum, Count, Data};

impl Record<'_> {
    fn width(&self) -> usize {
        match self.chars[1] {
            b'2' | b'8' => 3,
            b'3' | b'7' => 4,
            _ => 2,
        }
    }

    fn field(&self, at: usize) -> Field {
        if at < COUNT_END {
            Count
        } else if at < COUNT_END + 2 * self.width() {
            Address
        } else if at < self.chars.len() - 2 {
            Data
        } else {
            Checksum
        }
    }

    fn checksum(&self) -> i32 {
        let end = self.chars.len();
        16 * value(self.chars[end - 2]) + value(self.chars[end - 1])
    }

    /// Row, and the checksum that would be right, if the digit becomes `new`.
    fn refusal(&self, at: usize, new: u8) -> (u32, i32) {
        let weight = if at.is_multiple_of(2) { 16 } else { 1 };
        let more = weight * (value(new) - value(self.chars[at]));
        match self.field(at) {
            Count => (6, 0),
            Address | Data => (7, (self.checksum() - more).rem_euclid(256)),
            Checksum => (7, self.checksum()),
        }
    }
}

fn value(digit: u8) -> i32 {
    char::from(digit)
        .to_digit(16)
        .map_or(0, |value| value as i32)
}

fn is_end(c: u8) -> bool {
    c == b'\n' || c == b'\r'
}

fn records(text: &[u8]) -> Vec<Record<'_>> {
    let mut records = Vec::new();
    let mut place = 0;
    for chars in text.split(|&c| is_end(c)) {
        if !chars.is_empty() {
            let number = records.len() + 1;
            records.push(Record {
                number,
                place,
                chars,
            });
        }
        place += chars.len() + 1;
    }
    records
}

/// One digit of another value, of either case.
fn other_digit(random: &mut Random, old: u8) -> u8 {
    let digits = b"0123456789ABCDEFabcdef";
    loop {
        let new = random.pick(digits);
        if value(new) != value(old) {
            return new;
        }
    }
}

/// The text with each of its letters A to F, large or small, in any case.
fn in_any_case(random: &mut Random, text: &[u8]) -> Vec<u8> {
    let mut any_case = |&c: &u8| match c {
        b'a'..=b'f' | b'A'..=b'F' if random.chance(1, 2) => c ^ 0x20,
        _ => c,
    };
    text.iter().map(&mut any_case).collect()
}

/// What is printed for a refused text behind its heading.
fn refused(heading: &[u8], row: u32, record: &Record, want: i32) -> Vec<u8> {
    let (number, place) = (record.number, record.place);
    let words = format!("{row} record {number} at {place} want {want:02X}");
    let line = format!("{words} records 0 cells 0 entry none header 0:\n");
    [heading, line.as_bytes()].concat()
}

/// How often each field of each type was changed, and what texts had a digit in
/// the other case.
struct Counts {
    texts: u64,
    fields: Tally<(char, Field)>,
    cases: Tally<&'static str>,
}

impl Counts {
    fn new() -> Counts {
        let mut fields = Vec::new();
        for kind in "01235789".chars() {
            fields.extend([Count, Address, Checksum].map(|field| (kind, field)));
        }
        fields.extend("0123".chars().map(|kind| (kind, Data)));
        Counts {
            texts: 0,
            fields: Tally::of(fields),
            cases: Tally::of(["accepted", "refused"]),
        }
    }
}

/// Every digit of each record of an accepted text, changed by itself.
fn change(
    batch: &mut Batch<Asked>,
    case: &Case,
    random: &mut Random,
    counts: &mut Counts,
) -> Result<(), String> {
    let script = case.script();
    let heading = &script[..script.len() - case.text.len()];
    for record in records(&case.text) {
        for at in COUNT..record.chars.len() {
            let mut changed = case.clone();
            let new = other_digit(random, record.chars[at]);
            changed.text[record.place + at] = new;
            let (row, want) = record.refusal(at, new);
            counts
                .fields
                .add((record.chars[1].into(), record.field(at)));
            batch.add(Asked {
                case: changed,
                answer: refused(heading, row, &record, want),
            })?;
        }
    }
    counts.texts += 1;
    Ok(())
}

/// The text, and the same with any digits in the other case.
fn other_case(
    batch: &mut Batch<Asked>,
    case: &Case,
    random: &mut Random,
    counts: &mut Counts,
    accepted: bool,
) -> Result<(), String> {
    let mut other = case.clone();
    other.text = in_any_case(random, &case.text);
    if other.text != case.text {
        counts
            .cases
            .add(if accepted { "accepted" } else { "refused" });
    }
    for case in [case.clone(), other.clone()] {
        batch.add(Asked {
            case,
            answer: other.answer(),
        })?;
    }
    Ok(())
}

/// A drawn text in a window that takes it over, if there is one.
fn drawn_case(seed: u64, index: u64) -> Option<Case> {
    let limits = if index.is_multiple_of(LARGE) {
        FULL
    } else {
        SMALL
    };
    let drawn = cases::load_case(seed, index, limits);
    let name = format!("seed {seed}, index {index}");
    let fits = drawn.marks.len() == drawn.memory.len() && drawn.text.len() <= LONGEST;
    let case = Case::new(name, drawn.base, drawn.memory.len(), drawn.text)?;
    (fits && case.script().len() <= ROOM).then_some(case)
}

/// Asks for each digit of so many accepted texts, and for the case of digits in
/// these and in the refused ones between them.
pub fn drawn(settings: &Settings) -> Result<String, String> {
    let mut counts = Counts::new();
    let mut batch = Batch::of(VECTORS);
    let mut index = 0;
    while counts.texts < settings.cases {
        let random = &mut Random::new(settings.seed, !index);
        if let Some(case) = drawn_case(settings.seed, index) {
            let accepted = case.load().0.refusal.number == 0;
            other_case(&mut batch, &case, random, &mut counts, accepted)?;
            if accepted {
                change(&mut batch, &case, random, &mut counts)?;
            }
        }
        index += 1;
    }
    batch.run()?;
    let fields = counts.fields.told("digits")?;
    let cases = counts.cases.told("texts with digits in the other case")?;
    Ok(format!(
        "{} texts, {} loads; {fields}; {cases}",
        counts.texts, batch.compared
    ))
}
