//! Three images put together in any grouping and order, by the program `patches`.
//! What it prints is held to itself (`laws`), and then to the second reading.
//!
//! A group is a base image A and patches B and C. One run merges (A+B)+C, B+C and
//! whatever else is asked for; what that leaves of B+C is lent in another one.

mod laws;

use crate::program::{compare, Case, PATCHES};
use crate::settings::Settings;
use crate::tally::Tally;
use crate::walks::{read, Merge, Printed};
use laws::{hold, KINDS};
use second::cases::overlays::{group, settings, Group, MERGE_NUMBERS};
use second::form::Form;
use second::patches::{self, Command, Held, Side};
use second::script::ROOM;

/// A case of merges alone: no looks stand before them.
struct Merges(patches::Case);

impl Case for Merges {
    fn script(&self) -> Vec<u8> {
        self.0.script()
    }

    fn answer(&self) -> Vec<u8> {
        self.0.answer()
    }
}

/// A base image, and the patches that are merged into it in turn.
type Row<'a> = (&'a Held, &'a [&'a Held]);

/// A+B, (A+B)+C, B+C, A+C, (A+C)+B, A with the empty patch, the empty base image
/// with A, and A with its copy.
type First = [Merge; 8];

/// How often each row and kind came up, and which of A, B and C have a cell, a
/// header and an entry.
struct Counts {
    groups: u64,
    rows: Tally<u32>,
    kinds: Tally<&'static str>,
    cells: Tally<String>,
    headers: Tally<String>,
    entries: Tally<String>,
}

/// Asks so many drawn groups.
pub fn drawn(settings: &Settings) -> Result<String, String> {
    let mut counts = Counts::new();
    let (mut groups, mut size) = (Vec::new(), 0);
    for index in 0..settings.cases {
        let group = group(settings.seed, index);
        let length = first_case(&group).script().len();
        if size + length > ROOM {
            run(&groups, &mut counts)?;
            groups.clear();
            size = 0;
        }
        size += length;
        groups.push(group);
    }
    run(&groups, &mut counts)?;
    counts.told()
}

fn case(group: &Group, rows: &[Row]) -> Merges {
    let mut commands = Vec::new();
    for (base, patches) in rows {
        commands.extend(settings(Side::Base, base));
        for patch in *patches {
            commands.extend(settings(Side::Patch, patch));
            commands.push(Command::Merge);
        }
    }
    Merges(patches::Case {
        form: Form::Bytes,
        name: group.name.clone(),
        start: group.start,
        commands,
    })
}

/// All merges for which no patch has to be made first.
fn first_case(group: &Group) -> Merges {
    let [a, b, c] = group.images();
    let (empty, copy) = (&group.empty, &group.copy);
    let rows: [Row; 6] = [
        (a, &[b, c]),
        (b, &[c]),
        (a, &[c, b]),
        (a, &[empty]),
        (empty, &[a]),
        (a, &[copy]),
    ];
    case(group, &rows)
}

/// What B+C left, unless it was refused.
fn both_patches(first: &First) -> Option<&Held> {
    let merge = &first[2];
    (merge.number == 0).then_some(&merge.left)
}

/// Asks as many groups as one input takes. What is wrong by itself is told first.
fn run(groups: &[Group], counts: &mut Counts) -> Result<(), String> {
    let cases: Vec<Merges> = groups.iter().map(first_case).collect();
    let (printed, firsts) = merged::<8>(&cases)?;
    // Shorter than the first ones, so that one input takes them, too.
    let last_case = |(group, first): (&Group, &First)| {
        let both = both_patches(first)?;
        Some(case(group, &[(&group.base, &[both])]))
    };
    let last_cases: Vec<Merges> = groups.iter().zip(&firsts).filter_map(last_case).collect();
    let (last_printed, lasts) = merged::<1>(&last_cases)?;
    let mut lasts = lasts.iter().flatten();
    for (group, first) in groups.iter().zip(&firsts) {
        let last = both_patches(first).and_then(|_| lasts.next());
        let failed = |error| format!("\"{}\": {error}", first_case(group).script().escape_ascii());
        let kinds = hold(group, first, last).map_err(failed)?;
        counts.add(group, first.iter().chain(last), kinds);
    }
    compare(&cases, &printed)?;
    compare(&last_cases, &last_printed)
}

/// All that is printed for some cases, and the merges of each: there are so many.
fn merged<const N: usize>(cases: &[Merges]) -> Result<(Vec<u8>, Vec<[Merge; N]>), String> {
    let script: Vec<u8> = cases.iter().flat_map(Merges::script).collect();
    let printed = PATCHES.run(&script)?;
    // An `@` stands before each answer, and nowhere else.
    let answers = printed.split(|&c| c == b'@').skip(1);
    let merges: Option<Vec<[Merge; N]>> = answers.map(read_merges).collect();
    let merges = merges.filter(|merges| merges.len() == cases.len());
    let merges = merges.ok_or("an answer that cannot be read")?;
    Ok((printed, merges))
}

fn read_merges<const N: usize>(answer: &[u8]) -> Option<[Merge; N]> {
    let merge = |thing| match thing {
        Printed::Merge(merge) => Some(merge),
        Printed::Look(_) | Printed::Write(_) => None,
    };
    let merges: Option<Vec<Merge>> = read(answer)?.into_iter().map(merge).collect();
    merges?.try_into().ok()
}

impl Counts {
    fn new() -> Counts {
        let owners = || {
            let bits = |number| [1, 2, 4].map(|bit| number & bit > 0);
            Tally::of((0..8).map(|number| letters(bits(number))))
        };
        Counts {
            groups: 0,
            rows: Tally::of(MERGE_NUMBERS),
            kinds: Tally::of(KINDS),
            cells: owners(),
            headers: owners(),
            entries: owners(),
        }
    }

    fn add<'a>(
        &mut self,
        group: &Group,
        merges: impl Iterator<Item = &'a Merge>,
        kinds: Vec<&'static str>,
    ) {
        self.groups += 1;
        merges.for_each(|merge| self.rows.add(merge.number));
        kinds.into_iter().for_each(|kind| self.kinds.add(kind));
        if group.is_right() {
            let images = group.images();
            for index in 0..group.base.marks.len() {
                self.cells.add(letters(images.map(|i| i.marks[index] == 1)));
            }
            let header = |image: &Held| !image.title.header.is_empty();
            self.headers.add(letters(images.map(header)));
            let entry = |image: &Held| image.title.entry.is_some();
            self.entries.add(letters(images.map(entry)));
        }
    }

    fn told(&self) -> Result<String, String> {
        let told = [
            format!("{} groups", self.groups),
            self.rows.told("rows")?,
            self.kinds.told("kinds")?,
            self.cells.told("cells of")?,
            self.headers.told("headers of")?,
            self.entries.told("entries of")?,
        ];
        Ok(told.join("; "))
    }
}

/// Which of A, B and C it is; `-` for one that it is not.
fn letters(owners: [bool; 3]) -> String {
    let letters = ['A', 'B', 'C'].into_iter().zip(owners);
    let letter = |(letter, owns)| if owns { letter } else { '-' };
    letters.map(letter).collect()
}
