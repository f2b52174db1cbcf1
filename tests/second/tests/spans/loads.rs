//! What loads have to do with spans and origins, on drawn texts.

use second::cases::tapes::{SUM_TAPES, TAPES};
use second::cases::{Drawing, LoadCase, RECORDS};
use second::spans::{origin, origin_tape, span, span_tape, Origin, Span};
use second::tape::Edition;

const CASES: u64 = 6_000;

/// A drawing with the calls of its format.
type Calls = (
    &'static Drawing,
    fn(&[u8]) -> Option<Span>,
    fn(&[u8], u32) -> Option<Origin>,
);

const CALLS: [Calls; 3] = [
    (&RECORDS, span, origin),
    (
        &TAPES,
        |text| span_tape(Edition::Repeat, text),
        |text, address| origin_tape(Edition::Repeat, text, address),
    ),
    (
        &SUM_TAPES,
        |text| span_tape(Edition::Sum, text),
        |text, address| origin_tape(Edition::Sum, text, address),
    ),
];

/// The row of a load in a window, whatever it held.
fn row(drawing: &Drawing, text: &[u8], (base, length): (u64, u64)) -> u32 {
    let (mut memory, mut marks) = (vec![0; length as usize], vec![0; length as usize]);
    let loaded = (drawing.load)(text, base as u32, &mut memory, &mut marks);
    loaded.refusal.number
}

/// In the window of a span row 12 is not given, and in a smaller one a row is.
#[test]
fn the_window_of_a_span() {
    for (drawing, span, _) in CALLS {
        let mut seen = 0;
        for index in 0..CASES {
            let text = drawing.load_case(5, index, drawing.small).text;
            let Some(Span { lowest, highest }) = span(&text) else {
                assert_ne!(row(drawing, &text, (0, 0)), 12);
                continue;
            };
            let length = highest - lowest + 1;
            if length > 100_000 {
                continue;
            }
            assert_ne!(row(drawing, &text, (lowest, length)), 12);
            let shorter = row(drawing, &text, (lowest, length - 1));
            assert!([12, 13].contains(&shorter), "{shorter}");
            if length > 1 {
                let later = row(drawing, &text, (lowest + 1, length - 1));
                assert!([12, 13].contains(&later), "{later}");
            }
            seen += 1;
        }
        assert!(seen > CASES / 3, "{seen}");
    }
}

/// The marked cells of an accepted load are those that have an origin, with its byte.
#[test]
fn the_cells_of_a_load() {
    for (drawing, span, origin) in CALLS {
        for index in (0..CASES).filter(|&index| drawing.aimed_number(index) == Some(0)) {
            let LoadCase {
                text,
                base,
                mut memory,
                mut marks,
            } = drawing.load_case(6, index, drawing.small);
            (drawing.load)(&text, base, &mut memory, &mut marks);
            let marked = (0..marks.len()).filter(|&i| marks[i] == 1);
            let marked: Vec<u64> = marked.map(|i| u64::from(base) + i as u64).collect();
            let outer = marked.first().zip(marked.last());
            let outer = outer.map(|(&lowest, &highest)| Span { lowest, highest });
            assert_eq!(span(&text), outer);
            for (i, mark) in marks.iter().enumerate() {
                let found = origin(&text, base + i as u32);
                let byte = found.map(|found| found.byte);
                assert_eq!(byte, (*mark == 1).then_some(memory[i]));
            }
        }
    }
}
