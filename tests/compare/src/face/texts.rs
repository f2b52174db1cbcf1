//! Loads with whole answers, the span of a text, and the records that address cells.

use super::lines::{lines, Line};
use super::{crowded, hold, same, Face};
use crate::guarded::Guarded;
use crate::settings::Settings;
use crate::tally::Tally;
use crate::whole::{self, Loaded, Origin, Span};
use second::cases::LoadCase;
use second::random::Random;
use second::script;
use second::tape::Edition;
use std::collections::BTreeSet;

/// The longest window that is made of a span.
const LONGEST: u64 = 4_096;

/// What must come up in spans of any format.
const SPANS: [&str; 8] = [
    "no cell",
    "one cell",
    "many cells",
    "cell 0",
    "the top",
    "behind row 12",
    "behind row 13",
    "longer than all windows",
];

/// What must come up in questions for a cell's record.
const ORIGINS: [&str; 8] = [
    "the first record",
    "a later record",
    "of several records",
    "byte 0",
    "no record below",
    "no record above",
    "no record between",
    "in a record that is not read",
];

/// What only S-records have.
const RECORDS_ONLY: [&str; 3] = ["no data outside", "a header", "an entry"];

/// How often each thing came up.
struct Counts {
    rows: Tally<u32>,
    /// Of loads in the window of a span. Row 12 must not come up.
    rows_of_spans: Tally<u32>,
    spans: Tally<&'static str>,
    origins: Tally<&'static str>,
    records: Tally<&'static str>,
}

impl Counts {
    fn of(face: &Face) -> Counts {
        let numbers = face.format.wanted.numbers.iter().copied();
        let records = if face.format.has_entry {
            &RECORDS_ONLY[..]
        } else {
            &[]
        };
        Counts {
            rows: Tally::of(numbers.clone()),
            rows_of_spans: Tally::of(numbers.filter(|row| ![1, 12].contains(row))),
            spans: Tally::of(SPANS),
            origins: Tally::of(ORIGINS),
            records: Tally::of(records.iter().copied()),
        }
    }

    fn told(&self) -> Result<String, String> {
        let told = [
            self.rows.told("rows")?,
            self.rows_of_spans.told("rows in the window of a span")?,
            self.spans.told("spans")?,
            self.origins.told("origins")?,
            self.records.told("records")?,
        ];
        Ok(told.join("; "))
    }
}

/// The kinds of texts, and how many of each 100 are drawn.
const KINDS: [(Kind, u64); 3] = [(Kind::Small, 45), (Kind::Full, 10), (Kind::Crowded, 45)];

#[derive(Clone, Copy)]
enum Kind {
    Small,
    Full,
    Crowded,
}

fn case(face: &Face, kind: Kind, seed: u64, index: u64) -> LoadCase {
    let wanted = face.format.wanted;
    match kind {
        Kind::Small => wanted.load_case(seed, index, wanted.small),
        Kind::Full => wanted.load_case(!seed, index, wanted.full),
        Kind::Crowded => {
            let edition = match face.format.script {
                script::Format::Tape(edition) => edition,
                _ => Edition::Sum,
            };
            crowded::case(face, edition, &mut Random::new(seed, !index))
        }
    }
}

pub fn drawn(face: &Face, settings: &Settings) -> Result<String, String> {
    let mut counts = Counts::of(face);
    let mut cases = 0;
    for (number, case) in (face.format.numbered)(settings.seed) {
        compare(face, &case, settings.seed, &mut counts)
            .map_err(|error| format!("{number} lines: {error}"))?;
        cases += 1;
    }
    for (kind, percent) in KINDS {
        for index in 0..settings.share(percent) {
            let case = case(face, kind, settings.seed, index);
            compare(face, &case, settings.seed ^ index, &mut counts).map_err(|error| {
                let (text, base, cells) = (case.text.escape_ascii(), case.base, case.memory.len());
                format!("index {index}: {error}\ntext \"{text}\"\nbase {base:X}, {cells} cells")
            })?;
            cases += 1;
        }
    }
    Ok(format!("{cases} texts; {}", counts.told()?))
}

/// About as many lines as can be counted, and more. The first and the last cell are
/// asked for alone.
pub fn large(face: &Face, settings: &Settings) -> Result<String, String> {
    let mut rows = Tally::of(face.format.large_load_numbers.iter().copied());
    for (index, case) in (face.format.large_loads)(settings.seed).iter().enumerate() {
        let random = &mut Random::new(settings.seed, index as u64);
        let number = face.number(random);
        let in_case = |error| format!("index {index}: {error}");
        let load = compare_load(face, case, random).map_err(in_case)?;
        rows.add(load.answer.reason);
        let span = whole::span(number, &case.text);
        same("span", span, (face.span)(&case.text).into()).map_err(in_case)?;
        for address in [span.lowest as u32, span.highest as u32] {
            let found = whole::origin(number, &case.text, address);
            let wanted = (face.origin)(&case.text, address).into();
            same("where", found, wanted).map_err(in_case)?;
        }
    }
    rows.told("rows")
}

/// A load, with all that it left.
struct Load {
    answer: Loaded,
    memory: Vec<u8>,
    marks: Vec<u8>,
}

fn compare(face: &Face, case: &LoadCase, layout: u64, counts: &mut Counts) -> Result<(), String> {
    let random = &mut Random::new(layout, 7);
    let load = compare_load(face, case, random)?;
    counts.rows.add(load.answer.reason);
    count_title(face, &load.answer, counts);
    let text = Guarded::new(random, &case.text);
    let number = face.number(random);
    let span = whole::span(number, text.bytes());
    same("span", span, (face.span)(&case.text).into())?;
    let lines = lines(face, &case.text);
    for address in addresses(random, case, &span) {
        let found = whole::origin(number, text.bytes(), address);
        let wanted = (face.origin)(&case.text, address).into();
        same(&format!("where {address:X}"), found, wanted)?;
        hold_origin(&lines, &span, address, found)?;
        count_origin(&lines, &span, address, found, counts);
    }
    text.expect("text", &case.text)?;
    let origin = |address: u64| whole::origin(number, &case.text, address as u32);
    hold_accepted(case, &load, &span, origin)?;
    hold_13(&lines, &load.answer, origin)?;
    hold_window(face, case, &span, random, counts)?;
    count_span(face, &lines, &load.answer, &span, origin, counts);
    Ok(())
}

/// The whole answer, by both; and the row alone, with the same memory and marks.
fn compare_load(face: &Face, case: &LoadCase, random: &mut Random) -> Result<Load, String> {
    let text = Guarded::new(random, &case.text);
    let mut memory = Guarded::new(random, &case.memory);
    let mut marks = Guarded::new(random, &case.marks);
    let number = face.number(random);
    let (cells, bits) = (memory.bytes_mut(), marks.bytes_mut());
    let answer = whole::load(number, text.bytes(), case.base, cells, bits);
    let (mut wanted_memory, mut wanted_marks) = (case.memory.clone(), case.marks.clone());
    let (cells, bits) = (&mut wanted_memory, &mut wanted_marks);
    let wanted = (face.format.wanted.load)(&case.text, case.base, cells, bits);
    same("load", answer, Loaded::from(&wanted))?;
    text.expect("text", &case.text)?;
    memory.expect("memory", &wanted_memory)?;
    marks.expect("marks", &wanted_marks)?;
    let (mut memory, mut marks) = (case.memory.clone(), case.marks.clone());
    let row = (face.format.load)(&case.text, case.base, &mut memory, &mut marks);
    same("the row alone", row, answer.reason)?;
    same("memory by the row alone", &memory, &wanted_memory)?;
    same("marks by the row alone", &marks, &wanted_marks)?;
    Ok(Load {
        answer,
        memory,
        marks,
    })
}

/// The ends of the span and of the window, the edges of widths, and some others.
fn addresses(random: &mut Random, case: &LoadCase, span: &Span) -> BTreeSet<u32> {
    let length = case.memory.len() as u32;
    let (lowest, highest) = (span.lowest as u32, span.highest as u32);
    let mut found = BTreeSet::from([
        lowest,
        highest,
        lowest.wrapping_sub(1),
        highest.wrapping_add(1),
        case.base,
        case.base.wrapping_add(length),
        random.pick(&[0, 0xFFFF, 0x1_0000, 0xFF_FFFF, u32::MAX]),
        random.between(span.lowest, span.highest) as u32,
    ]);
    for _ in 0..4 {
        let near = random.below(2 * u64::from(length) + 2) as u32;
        found.insert(case.base.wrapping_add(near).wrapping_sub(length / 2));
    }
    found
}

/// What is told of a record stands in the text, and its cells are in the span.
fn hold_origin(lines: &[Line], span: &Span, address: u32, found: Origin) -> Result<(), String> {
    let own = u64::from(address);
    let inside = span.any == 1 && (span.lowest..=span.highest).contains(&own);
    if found.record == 0 {
        let zeros = found.place == 0 && found.byte == 0;
        let end = span.any == 1 && [span.lowest, span.highest].contains(&own);
        return hold(zeros && !end, || format!("no record for {address:X}"));
    }
    let line = lines.get(found.record - 1);
    let cells = line.and_then(Line::cells).unwrap_or_default();
    let placed = line.is_some_and(|line| line.place == found.place);
    let right = placed && cells.contains(&own) && inside && found.byte < 256;
    hold(right, || {
        format!("{address:X} is in no such record: {found:?}")
    })
}

/// An accepted load marks just the cells that records address, with their bytes, and
/// the span is from the first of them to the last.
fn hold_accepted(
    case: &LoadCase,
    load: &Load,
    span: &Span,
    origin: impl Fn(u64) -> Origin,
) -> Result<(), String> {
    if load.answer.reason != 0 {
        return Ok(());
    }
    let mut marked = Vec::new();
    for (address, (byte, mark)) in (u64::from(case.base)..).zip(load.memory.iter().zip(&load.marks))
    {
        let found = origin(address);
        let right = match mark {
            0 => found.record == 0,
            _ => found.record > 0 && found.byte == u32::from(*byte),
        };
        hold(right, || {
            format!("cell {address:X} is loaded unlike {found:?}")
        })?;
        marked.extend((*mark == 1).then_some(address));
    }
    let wanted = Span {
        any: u32::from(!marked.is_empty()),
        lowest: marked.first().copied().unwrap_or(0),
        highest: marked.last().copied().unwrap_or(0),
    };
    same("span of the marked cells", *span, wanted)
}

/// What row 13 refuses has a cell that an earlier record addresses.
fn hold_13(lines: &[Line], answer: &Loaded, origin: impl Fn(u64) -> Origin) -> Result<(), String> {
    if answer.reason != 13 {
        return Ok(());
    }
    let line = lines.get(answer.record - 1).ok_or("no such record")?;
    same("place of row 13", answer.place, line.place)?;
    let firsts = line
        .cells()
        .unwrap_or_default()
        .map(|cell| origin(cell).record);
    let firsts: Vec<usize> = firsts.collect();
    let read = firsts
        .iter()
        .all(|first| (1..=answer.record).contains(first));
    let earlier = firsts.iter().any(|first| *first < answer.record);
    hold(read && earlier, || {
        format!("row 13 at record {}, of {firsts:?}", answer.record)
    })
}

/// In the window of a span row 12 is never given. In one without its first or its
/// last cell the record that addresses it is refused, or one before it by row 13.
fn hold_window(
    face: &Face,
    case: &LoadCase,
    span: &Span,
    random: &mut Random,
    counts: &mut Counts,
) -> Result<(), String> {
    let length = match span.any {
        0 => 0,
        _ => span.highest - span.lowest + 1,
    };
    if length > LONGEST {
        counts.spans.add("longer than all windows");
        return Ok(());
    }
    let mut load = |base: u64, length: u64| {
        let (mut memory, mut marks) = (vec![0; length as usize], vec![0; length as usize]);
        let number = face.number(random);
        whole::load(number, &case.text, base as u32, &mut memory, &mut marks).reason
    };
    counts.rows_of_spans.add(load(span.lowest, length));
    if length == 0 {
        return Ok(());
    }
    let shorter = [
        load(span.lowest, length - 1),
        load((span.lowest + 1).min(0xFFFF_FFFF), length - 1),
    ];
    let right = shorter.iter().all(|row| [12, 13].contains(row));
    hold(right, || format!("rows {shorter:?} in shorter windows"))
}

fn count_title(face: &Face, answer: &Loaded, counts: &mut Counts) {
    if face.format.has_entry && answer.header_len > 0 {
        counts.records.add("a header");
    }
    if face.format.has_entry && answer.has_entry == 1 {
        counts.records.add("an entry");
    }
}

fn count_span(
    face: &Face,
    lines: &[Line],
    answer: &Loaded,
    span: &Span,
    origin: impl Fn(u64) -> Origin,
    counts: &mut Counts,
) {
    let Span {
        any,
        lowest,
        highest,
    } = *span;
    if any == 0 {
        counts.spans.add("no cell");
        return;
    }
    counts.spans.add(match highest - lowest {
        0 => "one cell",
        _ => "many cells",
    });
    let last = origin(lowest).record.max(origin(highest).record);
    let behind = |row| answer.reason == row && last > answer.record;
    let ways = [
        ("cell 0", lowest == 0),
        ("the top", highest == face.top()),
        ("behind row 12", behind(12)),
        ("behind row 13", behind(13)),
    ];
    let seen = ways.iter().filter(|(_, seen)| *seen);
    seen.for_each(|(way, _)| counts.spans.add(way));
    let cells = lines[..last].iter().filter_map(Line::cells);
    let outside = |at: u64| !(lowest..=highest).contains(&at);
    if cells
        .into_iter()
        .any(|cells| cells.is_empty() && outside(cells.start))
    {
        counts.records.add("no data outside");
    }
}

fn count_origin(lines: &[Line], span: &Span, address: u32, found: Origin, counts: &mut Counts) {
    let own = u64::from(address);
    let holding = lines
        .iter()
        .filter(|line| line.cells().is_some_and(|cells| cells.contains(&own)));
    let holding: Vec<usize> = holding.map(|line| line.number).collect();
    let none = found.record == 0 && span.any == 1;
    let ways = [
        ("the first record", found.record == 1),
        ("a later record", found.record > 1),
        ("of several records", found.record > 0 && holding.len() > 1),
        ("byte 0", found.record > 0 && found.byte == 0),
        ("no record below", none && own < span.lowest),
        ("no record above", none && own > span.highest),
        (
            "no record between",
            none && (span.lowest..span.highest).contains(&own),
        ),
        (
            "in a record that is not read",
            found.record == 0 && !holding.is_empty(),
        ),
    ];
    let seen = ways.iter().filter(|(_, seen)| *seen);
    seen.for_each(|(way, _)| counts.origins.add(way));
}
