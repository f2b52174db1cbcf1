//! What texts and sheets address, and how much room a write needs, with the answers
//! worked out by hand.

mod loads;
mod origins;
mod records;
mod rooms;
mod sheets;
mod tapes;

use second::spans::Span;
use second::tape::EDITIONS;

/// Lines of S-records, each with what it addresses.
const CELLS_10_11: &str = "S10500101122B7";
const CELL_11: &str = "S10400119951";
const CELL_20: &str = "S104002033A8";
const CELLS_F_TO_12: &str = "S107000F01020304DF";
const NO_CELL_1234: &str = "S1031234B6";
const END: &str = "S9030000FC";

/// Lines of tapes.
const TAPE_10_11: &str = ";02001011220045";
const TAPE_11: &str = ";0100119900AB";
const TAPE_20: &str = ";010020330054";
const TAPE_END_2: &str = ";0000020002";

fn lines(lines: &[&str]) -> Vec<u8> {
    lines.join("\n").into_bytes()
}

fn from_to(lowest: u64, highest: u64) -> Option<Span> {
    Some(Span { lowest, highest })
}
