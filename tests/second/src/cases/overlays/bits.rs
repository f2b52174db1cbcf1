//! What comes up in a case with packed marks.

use super::ways::Seen;
use super::writes::has_bad_mark;
use crate::form::Form;
use crate::overlay::Word;
use crate::packed::length;
use crate::patches::{Bench, Case, Command, Held};
use crate::reading::HEADER_ROOM;

/// What can come up in looks and merges. Each must.
pub const PACKED_WAYS: [&str; 29] = [
    "no cells",
    "whole bytes",
    "spare bits",
    "patch run across bytes",
    "base run across bytes",
    "run to the last bit of a byte",
    "run from the first bit of a later byte",
    "run of the last cell before spare bits",
    "cell of neither",
    "look refused by row 1",
    "look refused by row 16",
    "too few mark bytes in the base",
    "too few mark bytes in the patch",
    "too many mark bytes in the base",
    "too many mark bytes in the patch",
    "mark bytes rounded down in the base",
    "mark bytes rounded down in the patch",
    "a mark byte for each cell",
    "other cells in the patch, as many mark bytes",
    "other cells in the patch and fitting mark bytes",
    "rows 1 and 16",
    "rows 15 and 16",
    "spare bits in the base",
    "spare bits in the patch",
    "spare bits in both",
    "bits of one byte joined",
    "a byte of the base filled",
    "merge behind a merge",
    "merge behind a refused one",
];

/// Which of these come up; some can be told more than once.
pub fn packed_ways(case: &Case) -> Vec<&'static str> {
    let mut bench = Bench::new(case.form, case.start);
    let mut seen = Seen::default();
    let mut before = None;
    for command in &case.commands {
        match command {
            Command::Look(addresses) => {
                let looks = addresses.iter();
                looks.for_each(|&address| see_look(&mut seen, &bench, address));
            }
            Command::Merge => {
                let rows = rows(&bench);
                let accepted = rows.is_empty();
                see_cells(&mut seen, &bench, accepted);
                see_lengths(&mut seen, &bench);
                see_spare_bits(&mut seen, &bench, &rows);
                seen.see("merge behind a merge", accepted && before == Some(true));
                seen.see(
                    "merge behind a refused one",
                    accepted && before == Some(false),
                );
                before = Some(accepted);
            }
            _ => {}
        }
        bench.run(command);
    }
    seen.0
}

/// Where a run begins and ends.
fn see_look(seen: &mut Seen, bench: &Bench, address: u32) {
    let (base, patch) = (bench.base.image(), bench.patch.image());
    let (part, word) = bench.form.look(bench.start, base, patch, address);
    let first = address.wrapping_sub(bench.start) as usize;
    let (cells, end) = (base.memory.len(), first + part.len());
    let across = !part.is_empty() && first / 8 < (end - 1) / 8;
    match word {
        Word::Refused(refusal) if refusal.number == 1 => seen.see("look refused by row 1", true),
        Word::Refused(_) => seen.see("look refused by row 16", true),
        Word::Patch => seen.see("patch run across bytes", across),
        Word::Base => seen.see("base run across bytes", across),
        Word::Neither => seen.see("cell of neither", first < cells),
    }
    if !part.is_empty() {
        let whole = |index: usize| index.is_multiple_of(8);
        seen.see("run to the last bit of a byte", whole(end));
        seen.see(
            "run from the first bit of a later byte",
            first > 0 && whole(first),
        );
        seen.see(
            "run of the last cell before spare bits",
            end == cells && !whole(cells),
        );
    }
}

fn fits(image: &Held) -> bool {
    image.marks.len() == length(image.memory.len())
}

/// All rows that apply to a merge.
fn rows(bench: &Bench) -> Vec<u32> {
    let images = [&bench.base, &bench.patch];
    let [base, patch] = images.map(|image| image.memory.len());
    let past_top = u64::from(bench.start) + base as u64 > 1 << 32;
    let too_long = |image: &&Held| image.title.header.len() > HEADER_ROOM;
    let bad = |image: &&Held| has_bad_mark(Form::Packed, image);
    let apply = [
        (
            1,
            base != patch || !images.map(fits).iter().all(|&f| f) || past_top,
        ),
        (15, images.iter().any(too_long)),
        (16, images.iter().any(bad)),
    ];
    let apply = apply.into_iter().filter(|(_, applies)| *applies);
    apply.map(|(row, _)| row).collect()
}

fn see_cells(seen: &mut Seen, bench: &Bench, accepted: bool) {
    let cells = bench.base.memory.len();
    let whole = cells.is_multiple_of(8);
    seen.see("no cells", accepted && cells == 0);
    seen.see("whole bytes", accepted && cells > 0 && whole);
    seen.see("spare bits", accepted && !whole);
    let bytes = bench.base.marks.iter().zip(&bench.patch.marks);
    for (&base, &patch) in bytes.filter(|_| accepted) {
        let joined = base | patch;
        let both = joined != base && joined != patch;
        seen.see("bits of one byte joined", both);
        seen.see("a byte of the base filled", both && joined == 0xFF);
    }
}

/// Which mark bytes do not fit, where all else does.
fn see_lengths(seen: &mut Seen, bench: &Bench) {
    let images = [&bench.base, &bench.patch];
    let [cells, patch_cells] = images.map(|image| image.memory.len());
    let [marks, patch_marks] = images.map(|image| image.marks.len());
    if images.map(fits) == [true; 2] && cells != patch_cells {
        let same = marks == patch_marks;
        seen.see("other cells in the patch, as many mark bytes", same);
        seen.see("other cells in the patch and fitting mark bytes", !same);
    }
    let fitting = length(cells);
    let names = [
        [
            "too few mark bytes in the base",
            "too many mark bytes in the base",
            "mark bytes rounded down in the base",
        ],
        [
            "too few mark bytes in the patch",
            "too many mark bytes in the patch",
            "mark bytes rounded down in the patch",
        ],
    ];
    for (own, [few, many, down]) in [marks, patch_marks].into_iter().zip(names) {
        if cells == patch_cells && images.map(fits).contains(&true) {
            seen.see(few, own < fitting);
            seen.see(many, own > fitting);
            seen.see(down, own < fitting && own == cells / 8);
            seen.see("a mark byte for each cell", own > fitting && own == cells);
        }
    }
}

fn see_spare_bits(seen: &mut Seen, bench: &Bench, rows: &[u32]) {
    let bad = [&bench.base, &bench.patch].map(|image| has_bad_mark(Form::Packed, image));
    let told = rows == [16];
    seen.see("rows 1 and 16", rows.contains(&1) && rows.contains(&16));
    seen.see("rows 15 and 16", rows == [15, 16]);
    seen.see("spare bits in the base", told && bad == [true, false]);
    seen.see("spare bits in the patch", told && bad == [false, true]);
    seen.see("spare bits in both", told && bad == [true, true]);
}
