//! What comes up in a case of a base image and patches, with a byte for each mark.

use crate::cases::TOP;
use crate::overlay::{look, Word};
use crate::patches::{Bench, Case, Command, Held};
use crate::reading::HEADER_ROOM;

/// How runs end, and what else can come up. Each must.
pub const WAYS: [&str; 42] = [
    "patch run to a base cell",
    "patch run to neither",
    "patch run to the end",
    "base run to a patch cell over a base cell",
    "base run to a patch cell over none",
    "base run to neither",
    "base run to the end",
    "run of one cell",
    "run of more cells",
    "cell of neither",
    "below the window",
    "behind the window",
    "look refused by row 1",
    "look refused by row 16",
    "no cells",
    "window from 0",
    "window up to the top",
    "window past the top",
    "base memory differs",
    "base marks differ",
    "patch memory differs",
    "patch marks differ",
    "252 header bytes in the base",
    "252 header bytes in the patch",
    "253 header bytes in the base",
    "253 header bytes in the patch",
    "rows 1 and 15",
    "rows 1 and 16",
    "rows 15 and 16",
    "bad marks in the base",
    "bad marks in the patch",
    "bad marks in both, lower in the patch",
    "no header",
    "header of the base alone",
    "header of the patch alone",
    "headers of both",
    "no entry",
    "entry of the base alone",
    "entry of the patch alone",
    "entries of both",
    "merge behind a merge",
    "merge behind a refused one",
];

/// What came up, in turn; some can be told more than once.
#[derive(Default)]
pub(super) struct Seen(pub Vec<&'static str>);

impl Seen {
    pub fn see(&mut self, name: &'static str, seen: bool) {
        self.0.extend(seen.then_some(name));
    }
}

/// Which of these come up.
pub fn ways(case: &Case) -> Vec<&'static str> {
    let mut bench = Bench::new(case.form, case.start);
    let mut seen = Seen::default();
    let mut before = None;
    for command in &case.commands {
        match command {
            Command::Look(addresses) => {
                let looks = addresses.iter();
                looks.for_each(|&address| see_look(&mut seen, &bench, address));
            }
            Command::Merge => {
                let rows = rows(&bench);
                let accepted = rows.is_empty();
                see_window(&mut seen, &bench);
                see_marks(&mut seen, &bench, &rows);
                see_titles(&mut seen, &bench, &rows);
                seen.see("merge behind a merge", accepted && before == Some(true));
                seen.see(
                    "merge behind a refused one",
                    accepted && before == Some(false),
                );
                before = Some(accepted);
            }
            _ => {}
        }
        bench.run(command);
    }
    seen.0
}

/// Where the run of a look ends, or why it shows nothing.
fn see_look(seen: &mut Seen, bench: &Bench, address: u32) {
    let (base, patch) = (bench.base.image(), bench.patch.image());
    let (part, word) = look(bench.start, base, patch, address);
    let index = address.wrapping_sub(bench.start) as usize;
    let end = index + part.len();
    let at_end = end == base.memory.len();
    let way = match word {
        Word::Refused(refusal) if refusal.number == 1 => "look refused by row 1",
        Word::Refused(_) => "look refused by row 16",
        Word::Patch if at_end => "patch run to the end",
        Word::Patch if base.marks[end] == 1 => "patch run to a base cell",
        Word::Patch => "patch run to neither",
        Word::Base if at_end => "base run to the end",
        Word::Base => match (patch.marks[end], base.marks[end]) {
            (1, 1) => "base run to a patch cell over a base cell",
            (1, _) => "base run to a patch cell over none",
            _ => "base run to neither",
        },
        Word::Neither if address < bench.start => "below the window",
        Word::Neither if index >= base.memory.len() => "behind the window",
        Word::Neither => "cell of neither",
    };
    seen.see(way, true);
    seen.see("run of one cell", part.len() == 1);
    seen.see("run of more cells", part.len() > 1);
}

fn lengths(bench: &Bench) -> [usize; 4] {
    let (base, patch) = (&bench.base, &bench.patch);
    [&base.memory, &base.marks, &patch.memory, &patch.marks].map(Vec::len)
}

/// Where the window would end.
fn end(bench: &Bench) -> u64 {
    u64::from(bench.start) + bench.base.memory.len() as u64
}

fn bad_mark(marks: &[u8]) -> Option<usize> {
    marks.iter().position(|&mark| mark > 1)
}

/// All rows that apply to a merge.
fn rows(bench: &Bench) -> Vec<u32> {
    let (base, patch) = (&bench.base, &bench.patch);
    let lengths = lengths(bench);
    let too_long = |image: &Held| image.title.header.len() > HEADER_ROOM;
    let bad = |image: &Held| bad_mark(&image.marks).is_some();
    let apply = [
        (1, lengths != [lengths[0]; 4] || end(bench) > TOP),
        (15, too_long(base) || too_long(patch)),
        (16, bad(base) || bad(patch)),
    ];
    let apply = apply.into_iter().filter(|(_, applies)| *applies);
    apply.map(|(row, _)| row).collect()
}

fn see_window(seen: &mut Seen, bench: &Bench) {
    let all = lengths(bench);
    let cells = !bench.base.memory.is_empty();
    seen.see("no cells", all == [0; 4]);
    seen.see("window from 0", cells && bench.start == 0);
    seen.see("window up to the top", cells && end(bench) == TOP);
    seen.see("window past the top", end(bench) > TOP);
    let names = [
        "base memory differs",
        "base marks differ",
        "patch memory differs",
        "patch marks differ",
    ];
    for (index, name) in names.into_iter().enumerate() {
        let mut others = all.to_vec();
        let one = others.remove(index);
        seen.see(name, others == [others[0]; 3] && one != others[0]);
    }
}

fn see_marks(seen: &mut Seen, bench: &Bench, rows: &[u32]) {
    let base = bad_mark(&bench.base.marks);
    let patch = bad_mark(&bench.patch.marks);
    let told = rows == [16];
    let both = told && base.is_some() && patch.is_some();
    seen.see("rows 1 and 16", rows.contains(&1) && rows.contains(&16));
    seen.see("rows 15 and 16", rows == [15, 16]);
    seen.see("bad marks in the base", told && patch.is_none());
    seen.see("bad marks in the patch", told && base.is_none());
    seen.see(
        "bad marks in both, lower in the patch",
        both && patch < base,
    );
}

fn see_titles(seen: &mut Seen, bench: &Bench, rows: &[u32]) {
    let titles = [&bench.base.title, &bench.patch.title];
    let [base, patch] = titles.map(|title| title.header.len());
    let accepted = rows.is_empty();
    let most = HEADER_ROOM;
    seen.see("rows 1 and 15", rows.starts_with(&[1, 15]));
    seen.see("252 header bytes in the base", accepted && base == most);
    seen.see("252 header bytes in the patch", accepted && patch == most);
    let told = rows.starts_with(&[15]);
    let (base_alone, patch_alone) = (told && patch <= most, told && base <= most);
    seen.see(
        "253 header bytes in the base",
        base_alone && base == most + 1,
    );
    seen.see(
        "253 header bytes in the patch",
        patch_alone && patch == most + 1,
    );
    let header = match [base > 0, patch > 0] {
        [false, false] => "no header",
        [true, false] => "header of the base alone",
        [false, true] => "header of the patch alone",
        [true, true] => "headers of both",
    };
    seen.see(header, accepted);
    let entry = match titles.map(|title| title.entry.is_some()) {
        [false, false] => "no entry",
        [true, false] => "entry of the base alone",
        [false, true] => "entry of the patch alone",
        [true, true] => "entries of both",
    };
    seen.see(entry, accepted);
}
