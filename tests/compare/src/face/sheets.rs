//! Texts behind symbol blocks and patch sheets with whole answers, and the span of a
//! sheet.

use super::{hold, same};
use crate::guarded::Guarded;
use crate::settings::Settings;
use crate::tally::Tally;
use crate::whole::{self, Loaded, Span};
use second::cases::sheets::{sheets_case, ways, Call, Case, Size, CALLS, FULL, SMALL};
use second::random::Random;
use second::sheets::HEAD;
use second::spans::span_sheet;
use second::symbols::read_block;

/// The longest window that is made of a span.
const LONGEST: u64 = 4_096;

/// What must come up in spans.
const SPANS: [&str; 9] = [
    "no cell",
    "one cell",
    "many cells",
    "cell 0",
    "FFFFFFFF",
    "above FFFFFFFF",
    "behind row 12",
    "behind row 13",
    "longer than all windows",
];

/// What the load in the window of a span can answer: not row 12.
const ROWS: [u32; 8] = [0, 13, 22, 23, 24, 25, 26, 27];

/// How often each thing came up.
struct Counts {
    calls: [(Call, Tally<String>); 2],
    rows: Tally<u32>,
    spans: Tally<&'static str>,
}

pub fn small(settings: &Settings) -> Result<String, String> {
    drawn(settings.seed, settings.cases, SMALL)
}

pub fn full(settings: &Settings) -> Result<String, String> {
    drawn(settings.seed, settings.share(50), FULL)
}

fn drawn(seed: u64, cases: u64, size: Size) -> Result<String, String> {
    let mut counts = Counts {
        calls: CALLS.map(|call| (call, Tally::of(call.wanted(size)))),
        // Only a large block has too many symbols.
        rows: Tally::of(ROWS.into_iter().filter(|row| size.large || *row != 24)),
        spans: Tally::of(SPANS),
    };
    for index in 0..cases {
        let case = sheets_case(seed, index, size);
        let random = &mut Random::new(seed, !index);
        compare(&case, random, &mut counts)
            .map_err(|error| format!("seed {seed}, index {index}: {error}\n{case:02X?}"))?;
        let own = counts
            .calls
            .iter_mut()
            .filter(|(call, _)| *call == case.call);
        own.for_each(|(_, tally)| ways(&case).into_iter().for_each(|way| tally.add(way)));
    }
    let mut told = vec![format!("{cases} cases")];
    for (call, tally) in &counts.calls {
        told.push(tally.told(&format!("ways of {call:?}"))?);
    }
    told.push(counts.rows.told("rows in the window of a span")?);
    told.push(counts.spans.told("spans")?);
    Ok(told.join("; "))
}

fn compare(case: &Case, random: &mut Random, counts: &mut Counts) -> Result<(), String> {
    let text = Guarded::new(random, &case.load.text);
    let sheet = Guarded::new(random, &case.sheet);
    let mut memory = Guarded::new(random, &case.load.memory);
    let mut marks = Guarded::new(random, &case.load.marks);
    let (cells, bits) = (memory.bytes_mut(), marks.bytes_mut());
    let base = case.load.base;
    let answer = match case.call {
        Call::Behind => whole::load_behind(text.bytes(), base, cells, bits),
        Call::Sheet => whole::load_sheet(text.bytes(), sheet.bytes(), base, cells, bits),
    };
    let (wanted, left_memory, left_marks) = case.run();
    same("load", answer, Loaded::from(&wanted))?;
    memory.expect("memory", &left_memory)?;
    marks.expect("marks", &left_marks)?;
    let rest = read_block(&case.load.text).map_or(case.load.text.len(), |block| block.end);
    same("where the rest begins", whole::behind(text.bytes()), rest)?;
    if case.call == Call::Sheet {
        let span = whole::span_sheet(text.bytes(), sheet.bytes());
        let wanted = span_sheet(&case.load.text, &case.sheet);
        same("span", span, wanted.into())?;
        hold_accepted(base, &answer, &left_marks, &span)?;
        hold_window(case, &span, counts)?;
        count_span(case, &answer, &span, counts);
    }
    text.expect("text", &case.load.text)?;
    sheet.expect("sheet", &case.sheet)
}

/// The span of an accepted sheet is from its first marked cell to its last.
fn hold_accepted(base: u32, answer: &Loaded, marks: &[u8], span: &Span) -> Result<(), String> {
    if answer.reason != 0 {
        return Ok(());
    }
    let marked = (u64::from(base)..)
        .zip(marks)
        .filter(|(_, mark)| **mark == 1);
    let marked: Vec<u64> = marked.map(|(address, _)| address).collect();
    let wanted = Span {
        any: u32::from(!marked.is_empty()),
        lowest: marked.first().copied().unwrap_or(0),
        highest: marked.last().copied().unwrap_or(0),
    };
    same("span of the marked cells", *span, wanted)
}

/// In the window of a span row 12 is never given. In one without its first or its
/// last cell a pair is refused by row 12, or one before it by row 13.
fn hold_window(case: &Case, span: &Span, counts: &mut Counts) -> Result<(), String> {
    let length = match span.any {
        0 => 0,
        _ => span.highest - span.lowest + 1,
    };
    if span.highest > 0xFFFF_FFFF {
        counts.spans.add("above FFFFFFFF");
        return Ok(());
    }
    if length > LONGEST {
        counts.spans.add("longer than all windows");
        return Ok(());
    }
    let load = |base: u64, length: u64| {
        let (mut memory, mut marks) = (vec![0; length as usize], vec![0; length as usize]);
        let (text, sheet) = (&case.load.text, &case.sheet);
        whole::load_sheet(text, sheet, base as u32, &mut memory, &mut marks).reason
    };
    counts.rows.add(load(span.lowest, length));
    if length == 0 {
        return Ok(());
    }
    let shorter = [
        load(span.lowest, length - 1),
        load((span.lowest + 1).min(0xFFFF_FFFF), length - 1),
    ];
    let right = shorter.iter().all(|row| [12, 13].contains(row));
    hold(right, || format!("rows {shorter:?} in shorter windows"))
}

fn count_span(case: &Case, answer: &Loaded, span: &Span, counts: &mut Counts) {
    // Pairs behind the one that the load refuses, whose second field is at its place.
    let behind = |row| {
        answer.reason == row && {
            let place = answer.place;
            let length = u16::from_be_bytes([case.sheet[place + 1], case.sheet[place + 2]]);
            let end = place + HEAD + usize::from(length);
            Span::from(span_sheet(&case.load.text, &case.sheet[..end])) != *span
        }
    };
    let ways = [
        ("no cell", span.any == 0),
        ("one cell", span.any == 1 && span.lowest == span.highest),
        ("many cells", span.lowest < span.highest),
        ("cell 0", span.any == 1 && span.lowest == 0),
        ("FFFFFFFF", span.highest == 0xFFFF_FFFF),
        ("behind row 12", behind(12)),
        ("behind row 13", behind(13)),
    ];
    let seen = ways.iter().filter(|(_, seen)| *seen);
    seen.for_each(|(way, _)| counts.spans.add(way));
}
