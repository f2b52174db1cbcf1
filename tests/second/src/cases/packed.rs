//! Which drawn cases have packed marks, and what comes up in their loads.

use crate::calls::{self, Bench, Call};
use crate::form::Form;
use crate::packed::{has_spare_bit, length, ones, unpack};
use crate::parts::Number;
use crate::random::Random;
use crate::script;

/// One case of three has packed marks. It is drawn by itself: an index also says
/// what a case is made for, and that must come up in either form.
pub fn any_form(seed: u64, index: u64) -> Form {
    match Random::new(seed, !index).chance(1, 3) {
        true => Form::Packed,
        false => Form::Bytes,
    }
}

/// What comes up in loads of whole texts. Each must.
pub const LOAD_WAYS: [&str; 11] = [
    "no cells",
    "fewer than 8 cells",
    "whole bytes",
    "spare bits",
    "refused",
    "no mark",
    "first bit of a later byte",
    "last bit of a byte",
    "run across bytes",
    "each bit of a byte",
    "last cell before spare bits",
];

/// Which of these come up in a case with packed marks.
pub fn load_ways(case: &script::Case) -> Vec<&'static str> {
    let cells = case.cells;
    let (loaded, _, packed) = case.load();
    let accepted = loaded.refusal.number == 0;
    let marks = unpack(&packed, cells);
    let marked = |index: usize| marks.get(index) == Some(&1);
    let bytes = |found: &dyn Fn(usize) -> bool| (0..packed.len()).any(found);
    let seen = [
        ("no cells", cells == 0),
        ("fewer than 8 cells", (1..8).contains(&cells)),
        ("whole bytes", cells > 0 && cells.is_multiple_of(8)),
        ("spare bits", !cells.is_multiple_of(8)),
        ("refused", !accepted),
        ("no mark", accepted && cells > 0 && !marks.contains(&1)),
        (
            "first bit of a later byte",
            bytes(&|n| n > 0 && marked(8 * n)),
        ),
        ("last bit of a byte", bytes(&|n| marked(8 * n + 7))),
        (
            "run across bytes",
            bytes(&|n| marked(8 * n + 7) && marked(8 * n + 8)),
        ),
        ("each bit of a byte", packed.contains(&0xFF)),
        (
            "last cell before spare bits",
            !cells.is_multiple_of(8) && marked(cells - 1),
        ),
    ];
    let seen = seen.into_iter().filter(|(_, seen)| *seen);
    seen.map(|(name, _)| name).collect()
}

/// What comes up in loads in parts. Each must.
pub const CALL_WAYS: [&str; 16] = [
    "spare bits cleared by a part",
    "spare bits cleared by a part that completes no record",
    "spare bits cleared by a part that is refused",
    "spare bits cleared by an end",
    "spare bits cleared by begin",
    "spare bits left by a part behind a refusal",
    "spare bits left by an end behind a refusal",
    "too few mark bytes",
    "mark bytes rounded down",
    "too many mark bytes",
    "a mark byte for each cell",
    "other cells and fitting mark bytes",
    "more ones than data bytes",
    "fewer ones than data bytes",
    "a cell marked by the caller is addressed",
    "a cell cleared by the caller",
];

/// What a call is compared with.
struct Before {
    number: usize,
    complete: usize,
    /// Whether a spare bit is set in mark bytes that fit.
    spare_bits: bool,
}

impl Before {
    fn of(bench: &Bench) -> Before {
        let fits = bench.marks_lent == length(bench.cells);
        Before {
            number: number(bench),
            complete: bench.state.number(Number::Complete),
            spare_bits: fits && has_spare_bit(bench.lent_marks(), bench.cells),
        }
    }
}

/// The refusal number of the state.
fn number(bench: &Bench) -> usize {
    bench.state.number(Number::Reason)
}

/// Which of these come up in a case with packed marks; some can be told more than
/// once.
pub fn call_ways(case: &calls::Case) -> Vec<&'static str> {
    let mut bench = Bench::new(case.form, case.base, case.cells);
    let mut rest = &case.text[..];
    let mut found = Vec::new();
    let mut marked_by_caller = false;
    for &call in &case.calls {
        if let Call::Mark(index, new) = call {
            let old = bench.marks[index];
            marked_by_caller |= new & !old != 0;
            found.extend((old & !new != 0).then_some("a cell cleared by the caller"));
        }
        let before = Before::of(&bench);
        rest = bench.call(call, rest);
        let newly_13 = before.number == 0 && number(&bench) == 13;
        let addressed = newly_13 && marked_by_caller;
        let seen = [
            see_spare_bits(call, &before, &bench),
            see_row_1(call, &before, &bench),
            see_ones(call, &bench),
            addressed.then_some("a cell marked by the caller is addressed"),
        ];
        found.extend(seen.into_iter().flatten());
    }
    found
}

/// What a call makes of spare bits.
fn see_spare_bits(call: Call, before: &Before, behind: &Bench) -> Option<&'static str> {
    let refused = before.number > 0;
    let same = before.complete == behind.state.number(Number::Complete);
    let way = match call {
        Call::Begin => "spare bits cleared by begin",
        Call::End if refused => "spare bits left by an end behind a refusal",
        Call::End => "spare bits cleared by an end",
        Call::Feed(_) if refused => "spare bits left by a part behind a refusal",
        Call::Feed(_) if number(behind) > 0 => "spare bits cleared by a part that is refused",
        Call::Feed(_) if same => "spare bits cleared by a part that completes no record",
        Call::Feed(_) => "spare bits cleared by a part",
        _ => return None,
    };
    before.spare_bits.then_some(way)
}

/// Why row 1 refuses now.
fn see_row_1(call: Call, before: &Before, behind: &Bench) -> Option<&'static str> {
    let newly = call == Call::Begin || before.number == 0;
    if !newly || number(behind) != 1 {
        return None;
    }
    let (cells, lent) = (behind.cells, behind.marks_lent);
    let fitting = length(cells);
    let other_cells = cells != behind.state.number(Number::Size);
    match lent {
        _ if lent == fitting => other_cells.then_some("other cells and fitting mark bytes"),
        _ if lent == cells => Some("a mark byte for each cell"),
        _ if lent > fitting => Some("too many mark bytes"),
        _ if lent == cells / 8 => Some("mark bytes rounded down"),
        _ => Some("too few mark bytes"),
    }
}

/// Whether an accepted end counts other cells than the records had.
fn see_ones(call: Call, behind: &Bench) -> Option<&'static str> {
    if call != Call::End || number(behind) > 0 {
        return None;
    }
    let data_bytes = behind.state.number(Number::Cells);
    match ones(behind.lent_marks()) {
        ones if ones > data_bytes => Some("more ones than data bytes"),
        ones if ones < data_bytes => Some("fewer ones than data bytes"),
        _ => None,
    }
}
