//! Loads in parts with whole answers, and with states that hold anything.

use super::{hold, same};
use crate::guarded::Guarded;
use crate::settings::Settings;
use crate::tally::Tally;
use crate::whole::{self, Loaded, Parts, HELD};
use second::cases::cuts::{any_parts, ways, WAYS};
use second::cases::{LoadCase, LOAD_NUMBERS, RECORDS};
use second::parts::{self, Number, State, MOST};
use second::random::Random;
use second::reading::{load, HEADER_ROOM};

/// The row of a part that is too long.
const ROW_20: u32 = 20;

/// What is done besides.
const TRICKS: [&str; 4] = [
    "none",
    "near the most characters",
    "another length",
    "fed behind a refusal",
];

/// Loads in parts, however the text is cut.
pub fn drawn(settings: &Settings) -> Result<String, String> {
    let mut rows = Tally::of(LOAD_NUMBERS.into_iter().chain([ROW_20]));
    let mut cuts = Tally::of(WAYS);
    let mut tricks = Tally::of(TRICKS);
    for index in 0..settings.cases {
        let limits = if index.is_multiple_of(17) {
            RECORDS.full
        } else {
            RECORDS.small
        };
        let case = RECORDS.load_case(settings.seed, index, limits);
        let random = &mut Random::new(!settings.seed, index);
        let parts = any_parts(random, &case.text);
        ways(&parts).into_iter().for_each(|way| cuts.add(way));
        let answer = compare(&case, &parts, random, &mut tricks).map_err(|error| {
            let text = case.text.escape_ascii();
            format!("index {index}: {error}\ntext \"{text}\"\n{parts:02X?}")
        })?;
        rows.add(answer.reason);
    }
    let told = [
        rows.told("rows")?,
        cuts.told("cuts")?,
        tricks.told("tricks")?,
    ];
    Ok(format!("{} cases; {}", settings.cases, told.join("; ")))
}

/// A load in parts by both, after each call.
struct Both {
    found: Parts,
    wanted: State,
    memory: Guarded,
    marks: Guarded,
    left: LoadCase,
}

impl Both {
    fn begin(case: &LoadCase, random: &mut Random) -> Result<Both, String> {
        let memory = Guarded::new(random, &case.memory);
        let mut marks = Guarded::new(random, &case.marks);
        let mut left = case.clone();
        let found = whole::begin(case.base, memory.bytes(), marks.bytes_mut());
        let wanted = parts::begin(case.base, &mut left.memory, &mut left.marks);
        let both = Both {
            found,
            wanted,
            memory,
            marks,
            left,
        };
        both.agree("begin")?;
        Ok(both)
    }

    fn feed(&mut self, part: &[u8], random: &mut Random) -> Result<(), String> {
        let text = Guarded::new(random, part);
        let (memory, marks) = (self.memory.bytes_mut(), self.marks.bytes_mut());
        let base = self.left.base;
        self.found = whole::feed(self.found, text.bytes(), base, memory, marks);
        let (memory, marks) = (&mut self.left.memory, &mut self.left.marks);
        self.wanted = parts::feed(self.wanted.clone(), part, base, memory, marks);
        text.expect("part", part)?;
        self.agree("feed")
    }

    /// The last cell is lent no more.
    fn shorten(&mut self, random: &mut Random) {
        self.left.memory.pop();
        self.left.marks.pop();
        self.memory = Guarded::new(random, &self.left.memory);
        self.marks = Guarded::new(random, &self.left.marks);
    }

    fn end(mut self) -> Result<(Loaded, LoadCase), String> {
        let base = self.left.base;
        let (memory, marks) = (self.memory.bytes_mut(), self.marks.bytes_mut());
        let ended = whole::end(self.found, base, memory, marks);
        self.found = ended.parts;
        let (memory, marks) = (&mut self.left.memory, &mut self.left.marks);
        let (wanted, behind) = parts::end(self.wanted.clone(), base, memory, marks);
        self.wanted = behind;
        same("end", ended.loaded, Loaded::from(&wanted))?;
        self.agree("end")?;
        Ok((ended.loaded, self.left))
    }

    /// What a caller may read of the state, and all memory and marks.
    fn agree(&self, name: &str) -> Result<(), String> {
        let reason = self.wanted.refusal().map_or(0, |refusal| refusal.number);
        same(
            &format!("reason behind a {name}"),
            self.found.reason,
            reason,
        )?;
        if reason == 0 {
            let total = self.wanted.number(Number::Total);
            same(&format!("total behind a {name}"), self.found.total, total)?;
        }
        self.agree_in_memory()
    }

    fn agree_in_memory(&self) -> Result<(), String> {
        self.memory.expect("memory", &self.left.memory)?;
        self.marks.expect("marks", &self.left.marks)
    }
}

/// All calls, with one trick; without one the whole load answers alike.
fn compare(
    case: &LoadCase,
    parts: &[Vec<u8>],
    random: &mut Random,
    tricks: &mut Tally<&str>,
) -> Result<Loaded, String> {
    let mut both = Both::begin(case, random)?;
    let trick = random.below(10);
    let mut trick = match trick {
        0 => "near the most characters",
        1 if !case.memory.is_empty() && !parts.is_empty() => "another length",
        _ => "none",
    };
    if trick == "near the most characters" && both.found.reason == 0 {
        // As behind so many line ends.
        let number = MOST - random.size(0, case.text.len() + 3);
        both.found.total += number;
        both.found.begins += number;
        both.wanted = both.wanted.behind_line_ends(number);
    }
    let at = random.size(0, parts.len().saturating_sub(1));
    for (index, part) in parts.iter().enumerate() {
        if trick == "another length" && index == at {
            both.shorten(random);
        }
        both.feed(part, random)?;
        if both.found.reason != 0 && trick == "none" && index + 1 < parts.len() {
            trick = "fed behind a refusal";
        }
    }
    let (answer, left) = both.end()?;
    tricks.add(trick);
    if ["none", "fed behind a refusal"].contains(&trick) {
        hold_whole(case, &answer, &left)?;
    }
    Ok(answer)
}

/// The answer is that of the whole text; so are the marks, and the memory of a load
/// that is accepted.
fn hold_whole(case: &LoadCase, answer: &Loaded, left: &LoadCase) -> Result<(), String> {
    let (mut memory, mut marks) = (case.memory.clone(), case.marks.clone());
    let whole = whole::load(whole::RECORDS, &case.text, case.base, &mut memory, &mut marks);
    same("the whole text", *answer, whole)?;
    same("marks of the whole text", &left.marks, &marks)?;
    if answer.reason == 0 {
        same("memory of the whole text", &left.memory, &memory)?;
        let loaded = load(&case.text, case.base, &mut memory, &mut marks);
        same("the whole text, read again", *answer, Loaded::from(&loaded))?;
    }
    Ok(())
}

/// States that no call gave out: nothing outside of the buffers is touched, and the
/// answer has the form of one.
pub fn hostile(settings: &Settings) -> Result<String, String> {
    let mut seen = Tally::of(["accepted", "refused", "refused before"]);
    for index in 0..settings.cases {
        let random = &mut Random::new(settings.seed, index);
        let case = RECORDS.load_case(settings.seed, index, RECORDS.small);
        let outcome = bear(&case, random).map_err(|error| format!("index {index}: {error}"))?;
        seen.add(outcome);
    }
    Ok(format!("{} cases; {}", settings.cases, seen.told("ends")?))
}

fn bear(case: &LoadCase, random: &mut Random) -> Result<&'static str, String> {
    let mut memory = Guarded::new(random, &case.memory);
    let mut marks = Guarded::new(random, &case.marks);
    let text = Guarded::new(random, &case.text);
    let cut = random.size(0, case.text.len());
    let (first, second) = text.bytes().split_at(cut);
    let mut state = whole::begin(case.base, memory.bytes(), marks.bytes_mut());
    let (cells, bits) = (memory.bytes_mut(), marks.bytes_mut());
    state = whole::feed(state, first, case.base, cells, bits);
    for _ in 0..random.size(1, 3) {
        spoil(&mut state, random);
    }
    let before = state.reason != 0;
    let (cells, bits) = (memory.bytes_mut(), marks.bytes_mut());
    let state = whole::feed(state, second, case.base, cells, bits);
    let (cells, bits) = (memory.bytes_mut(), marks.bytes_mut());
    let answer = whole::end(state, case.base, cells, bits).loaded;
    // Whatever is stored, it is stored inside.
    memory.expect("memory", memory.bytes())?;
    marks.expect("marks", marks.bytes())?;
    text.expect("text", &case.text)?;
    hold_form(&answer)?;
    Ok(match answer.reason {
        0 => "accepted",
        _ if before => "refused before",
        _ => "refused",
    })
}

/// A refused load gives nothing else, and a header has zeros behind its length.
fn hold_form(answer: &Loaded) -> Result<(), String> {
    let Loaded {
        header_len, header, ..
    } = answer;
    hold(*header_len <= HEADER_ROOM, || format!("{header_len} bytes"))?;
    let rest = header[*header_len..].iter().all(|&byte| byte == 0);
    let nothing = [answer.records, answer.cells, *header_len] == [0; 3]
        && [answer.has_entry, answer.entry] == [0; 2];
    let right = rest && answer.has_entry <= 1 && (answer.reason == 0 || nothing);
    hold(right, || format!("{answer:X?}"))
}

/// One field, or one byte, of another value.
fn spoil(state: &mut Parts, random: &mut Random) {
    let word = random.word();
    let number = state.total;
    let near = random.size(0, 3) + number.saturating_sub(2);
    let size = random.pick(&[
        0,
        1,
        near,
        HEADER_ROOM,
        HEADER_ROOM + 1,
        514,
        515,
        516,
        517,
        MOST,
        MOST + 1,
        usize::MAX,
        usize::MAX - 1,
        word as usize,
    ]);
    match random.below(18) {
        0 => state.reason = random.pick(&[0, 0, 1, 7, 13, 28, word as u32]),
        1 => state.want = word as u8,
        2 => state.ended = random.pick(&[0, 1, 2, 0xFF]),
        3 => state.has_entry = random.pick(&[0, 1, 2, u32::MAX]),
        4 => state.entry = word as u32,
        5 => state.record = size,
        6 => state.place = size,
        7 => state.size = size,
        8 => state.total = size,
        9 => state.begins = size,
        10 => state.number = size,
        11 => state.records = size,
        12 => state.cells = size,
        13 => state.head = size,
        14 => state.held = size,
        15 => state.header[random.size(0, HEADER_ROOM - 1)] = word as u8,
        16 => state.line[random.size(0, HELD - 1)] = word as u8,
        _ => {
            state.held = HELD;
            state.line.fill(random.pick(b"S10F"));
        }
    }
}
