//! Writes of the base image, and which of their rows apply.

use super::{bad_marks, other_mark_length, settings};
use crate::cases::TOP;
use crate::form::Form;
use crate::overlay::Title;
use crate::packed::{has_spare_bit, unpack};
use crate::patches::{write_letter, Bench, Case, Command, Held, Side, OUTPUT};
use crate::random::Random;
use crate::reading::HEADER_ROOM;
use crate::script::Format;
use crate::tape::Edition;

const FORMATS: [Format; 3] = [
    Format::Srec,
    Format::Tape(Edition::Repeat),
    Format::Tape(Edition::Sum),
];

/// What comes up in writes: the letter and the number of each, the rows where two
/// apply, and the room. Each must.
pub const WRITE_WAYS: [&str; 36] = [
    "w 0",
    "w 1",
    "w 15",
    "w 16",
    "w 17",
    "w 18",
    "r 0",
    "r 1",
    "r 11",
    "r 16",
    "r 17",
    "r 19",
    "s 0",
    "s 1",
    "s 11",
    "s 16",
    "s 17",
    "s 19",
    "w 1 and 15",
    "w 1 and 16",
    "w 1 and 18",
    "w 15 and 16",
    "w 15 and 18",
    "w 16 and 18",
    "r 1 and 16",
    "r 1 and 19",
    "r 16 and 19",
    "r 16 and 11",
    "r 19 and 11",
    "s 1 and 16",
    "s 1 and 19",
    "s 16 and 19",
    "s 16 and 11",
    "s 19 and 11",
    "just enough room",
    "one byte too little",
];

/// The base image as the format has it, mostly, or with some faults, and a write.
pub fn any_write(random: &mut Random, bench: &Bench) -> Vec<Command> {
    let format = random.pick(&FORMATS);
    let mut base = bench.base.clone();
    if random.chance(2, 3) {
        fit_title(random, format, &mut base.title);
    }
    for _ in 0..random.pick(&[0, 0, 0, 0, 1, 1, 2]) {
        spoil(random, bench.form, &mut base);
    }
    let before = settings(Side::Base, &bench.base);
    let changed = settings(Side::Base, &base).into_iter().zip(before);
    let changed = changed.filter(|(command, before)| command != before);
    let mut commands: Vec<Command> = changed.map(|(command, _)| command).collect();
    let mut bench = Bench::new(bench.form, bench.start);
    bench.base = base;
    commands.push(Command::Write(format, any_room(random, &bench, format)));
    commands
}

/// S-records have an entry, and tapes neither that nor a header.
fn fit_title(random: &mut Random, format: Format, title: &mut Title) {
    let entry = random.pick(&[0, 0xFFFF, 0x1_0000, 0xFFFF_FFFF]);
    match format {
        Format::Srec | Format::Behind => title.entry = title.entry.or(Some(entry)),
        Format::Tape(_) => *title = Title::default(),
    }
}

/// One thing that some row may refuse.
fn spoil(random: &mut Random, form: Form, base: &mut Held) {
    match random.below(5) {
        0 => base.title.entry = None,
        1 => base.title.entry = Some(random.word() as u32),
        2 => base.title.header = random.bytes(HEADER_ROOM + 1),
        3 => bad_marks(random, form, base),
        _ => other_mark_length(random, form, base),
    }
}

/// Often just enough, or a byte too little; rarely all that there is, and more.
fn any_room(random: &mut Random, bench: &Bench, format: Format) -> u32 {
    let (written, _) = bench.written(format, OUTPUT as u32);
    let needed = match written.refusal.number {
        0 => written.length,
        17 => written.refusal.place,
        _ => random.size(0, 40),
    };
    let most = OUTPUT as u32;
    let needed = needed as u32;
    let less = random.below(u64::from(needed) + 1) as u32;
    match random.below(64) {
        0 => random.pick(&[most, most + 1, u32::MAX]),
        1..=8 => needed + random.below(9) as u32,
        9..=16 => less,
        17..=32 => needed.saturating_sub(1),
        _ => needed,
    }
}

/// Which of these come up; some can be told more than once.
pub fn see_writes(case: &Case) -> Vec<String> {
    let mut bench = Bench::new(case.form, case.start);
    let mut found = Vec::new();
    for command in &case.commands {
        if let Command::Write(format, room) = *command {
            let letter = write_letter(format);
            let (written, out) = bench.written(format, room);
            let number = written.refusal.number;
            found.push(format!("{letter} {number}"));
            if let [first, second, ..] = write_rows(&bench, format)[..] {
                found.push(format!("{letter} {first} and {second}"));
            }
            let see = |name: &str, seen: bool| seen.then(|| name.to_string());
            found.extend(see(
                "just enough room",
                number == 0 && written.length == out.len(),
            ));
            let missing = written.refusal.place.checked_sub(out.len());
            found.extend(see(
                "one byte too little",
                number == 17 && missing == Some(1),
            ));
        }
        bench.run(command);
    }
    found
}

/// All rows that apply to a write, in the order in which they are tried, without
/// row 17.
fn write_rows(bench: &Bench, format: Format) -> Vec<u32> {
    let Bench {
        form, start, base, ..
    } = bench;
    let cells = base.memory.len();
    let unfit = base.marks.len() != form.length(cells) || u64::from(*start) + cells as u64 > TOP;
    let Title { header, entry } = &base.title;
    let srec = format == Format::Srec;
    let apply = [
        (1, unfit),
        (15, srec && header.len() > HEADER_ROOM),
        (16, has_bad_mark(*form, base)),
        (18, srec && entry.is_none()),
        (19, !srec && (!header.is_empty() || entry.is_some())),
        (11, !srec && !unfit && is_above_reach(*form, *start, base)),
    ];
    let apply = apply.into_iter().filter(|(_, applies)| *applies);
    apply.map(|(row, _)| row).collect()
}

/// A mark that is none, or a spare bit.
pub fn has_bad_mark(form: Form, image: &Held) -> bool {
    match form {
        Form::Bytes => image.marks.iter().any(|&mark| mark > 1),
        Form::Packed => has_spare_bit(&image.marks, image.memory.len()),
    }
}

/// Whether a marked cell lies above FFFF, for marks that fit.
fn is_above_reach(form: Form, start: u32, image: &Held) -> bool {
    let marks = match form {
        Form::Bytes => image.marks.clone(),
        Form::Packed => unpack(&image.marks, image.memory.len()),
    };
    let mut cells = (u64::from(start)..).zip(marks);
    cells.any(|(address, mark)| mark == 1 && address > 0xFFFF)
}
