//! Base images and patches, looked at cell by cell, merged and written, in the form
//! of the program `patches`.

mod bits;
mod groups;
mod ways;
mod writes;

use super::packed::any_form;
use super::{contents, window_at, TOP};
use crate::form::Form;
use crate::overlay::Title;
use crate::patches::{Bench, Case, Command, Held, Side, CELLS, HEADER};
use crate::random::Random;
use crate::reading::HEADER_ROOM;
pub use bits::{packed_ways, PACKED_WAYS};
pub use groups::{group, Group};
pub use ways::{ways, WAYS};
use writes::any_write;
pub use writes::{see_writes, WRITE_WAYS};

/// What a merge can answer: 0, or the row that refuses it.
pub const MERGE_NUMBERS: [u32; 4] = [0, 1, 15, 16];

/// A case so far, as the second reading carries it out.
struct Overlay {
    bench: Bench,
    commands: Vec<Command>,
}

impl Overlay {
    fn extend(&mut self, commands: impl IntoIterator<Item = Command>) {
        for command in commands {
            self.bench.run(&command);
            self.commands.push(command);
        }
    }

    fn write(&mut self, random: &mut Random) {
        let commands = any_write(random, &self.bench);
        self.extend(commands);
    }
}

/// A base image and up to three patches, one after the other, some with packed
/// marks. Before each merge every cell of the window is looked at, and some
/// addresses outside of it. What is left is written.
pub fn overlay_case(seed: u64, index: u64) -> Case {
    let form = any_form(seed, index);
    let random = &mut Random::new(seed, index);
    let length = any_length(random);
    let start = any_start(random, length);
    let mut overlay = Overlay {
        bench: Bench::new(form, start),
        commands: Vec::new(),
    };
    let mut base_is_right = false;
    for _ in 0..random.pick(&[1, 1, 2, 3]) {
        let patch = &mut any_image(random, form, length);
        spoil(random, form, patch);
        // A base image that was merged into stays, or another takes its place.
        if !base_is_right || random.chance(1, 8) {
            let base = &mut any_image(random, form, length);
            base_is_right = spoil(random, form, base) && relate(random, form, base, patch);
            overlay.extend(settings(Side::Base, base));
        }
        overlay.extend(settings(Side::Patch, patch));
        overlay.extend([
            Command::Look(addresses(random, start, length)),
            Command::Merge,
        ]);
        if random.chance(1, 4) {
            overlay.extend([Command::Look(addresses(random, start, length))]);
        }
    }
    for _ in 0..random.pick(&[0, 1, 2, 2]) {
        overlay.write(random);
    }
    Case {
        form,
        name: format!("seed {seed}, index {index}"),
        start,
        commands: overlay.commands,
    }
}

/// What rarely comes up by chance: equal bytes, or bad marks, in both images. Says
/// whether the base image is as right as before.
fn relate(random: &mut Random, form: Form, base: &mut Held, patch: &mut Held) -> bool {
    match random.below(24) {
        0 => {
            bad_marks(random, form, base);
            bad_marks(random, form, patch);
            false
        }
        1..=3 => {
            patch.memory.clone_from(&base.memory);
            true
        }
        _ => true,
    }
}

/// Few cells reach every way of ending a run; all that there is room for, too, and
/// about as many as fill whole bytes of packed marks.
fn any_length(random: &mut Random) -> usize {
    match random.below(32) {
        0 | 1 => 0,
        2 | 3 => 1,
        4 => CELLS,
        5 => random.size(13, CELLS),
        6 | 7 => random.pick(&[7, 8, 9, 15, 16, 17]),
        _ => random.size(2, 12),
    }
}

/// Often an edge: 0, a small number, just up to the top, or past it.
fn any_start(random: &mut Random, length: usize) -> u32 {
    let length = length as u64;
    let start = match random.below(10) {
        0 | 1 => 0,
        2 => random.between(1, 300),
        3 => random.pick(&[1 << 16, 1 << 16, 1 << 24, 1 << 31]) - random.below(length + 1),
        4 | 5 => TOP - length,
        6 => TOP - length - random.between(1, 9),
        // At most the last address, so a window of one cell is never past the top.
        7 => return (TOP - length.max(1) + random.between(1, 4)).min(TOP - 1) as u32,
        // The addresses of tapes.
        8 => random.below(1 << 16),
        _ => random.below(TOP),
    };
    window_at(start, length).0 as u32
}

/// An image to which no row applies. Its bytes mostly differ, so that a part from
/// another place is seen.
fn any_image(random: &mut Random, form: Form, length: usize) -> Held {
    let memory = if random.chance(1, 8) {
        contents(random, length)
    } else {
        random.bytes(length)
    };
    let some = random.word() as u32;
    let entry = random.pick(&[0, 1, 0x1_0000, 0xFFFF_FFFF, some, some]);
    Held {
        memory,
        marks: form.marks(any_marks(random, length)),
        title: Title {
            header: any_header(random),
            entry: random.chance(1, 2).then_some(entry),
        },
    }
}

/// Marks of many densities, one by one or in runs.
fn any_marks(random: &mut Random, length: usize) -> Vec<u8> {
    let density = random.pick(&[0, 2, 4, 8, 12, 14, 16]);
    let run = random.pick(&[1, 1, 2, 5]);
    let mut marks = Vec::new();
    while marks.len() < length {
        let mark = u8::from(random.chance(density, 16));
        let number = random.size(1, run).min(length - marks.len());
        marks.extend(vec![mark; number]);
    }
    marks
}

/// Often none, and sometimes zeros at its end, or nothing else.
fn any_header(random: &mut Random) -> Vec<u8> {
    let length = match random.below(16) {
        0..=6 => 0,
        7..=14 => random.size(1, 6),
        _ => random.pick(&[HEADER_ROOM - 1, HEADER_ROOM, HEADER_ROOM]),
    };
    let mut header = random.bytes(length);
    if random.chance(1, 4) {
        let kept = random.size(0, length);
        header[kept..].fill(0);
    }
    header
}

/// Makes something wrong with one image of four, and says whether all is right.
fn spoil(random: &mut Random, form: Form, image: &mut Held) -> bool {
    let faults = random.pick(&[0, 0, 0, 0, 0, 0, 0, 0, 0, 1, 1, 2]);
    for _ in 0..faults {
        match random.below(4) {
            0 => other_cells(random, form, image),
            1 => other_mark_length(random, form, image),
            2 => bad_marks(random, form, image),
            _ => {
                let some = random.size(HEADER_ROOM + 1, HEADER);
                let length = random.pick(&[HEADER_ROOM + 1, HEADER_ROOM + 1, HEADER, some]);
                image.title.header = random.bytes(length);
            }
        }
    }
    faults == 0
}

/// One byte more or fewer, or any number of them.
fn other_length(random: &mut Random, bytes: &mut Vec<u8>) {
    let some = random.size(0, CELLS);
    let length = bytes.len();
    let other = random.pick(&[length + 1, length + 1, length.saturating_sub(1), 0, some]);
    bytes.resize(other.min(CELLS), 1);
}

/// Other memory, and sometimes packed marks for it: they could be of another window.
fn other_cells(random: &mut Random, form: Form, image: &mut Held) {
    other_length(random, &mut image.memory);
    if form == Form::Packed && random.chance(1, 3) {
        image.marks.resize(form.length(image.memory.len()), 0);
    }
}

/// Marks of another length. Packed ones may be rounded down, or as many as the cells.
fn other_mark_length(random: &mut Random, form: Form, image: &mut Held) {
    let cells = image.memory.len();
    if form == Form::Packed && random.chance(1, 2) {
        let other = random.pick(&[cells / 8, cells]);
        image.marks.resize(other, 0);
    } else {
        other_length(random, &mut image.marks);
    }
}

/// One mark above 1, or two. Packed ones have spare bits instead, if any.
fn bad_marks(random: &mut Random, form: Form, image: &mut Held) {
    for _ in 0..random.size(1, 2) {
        match form {
            Form::Bytes if image.marks.is_empty() => {}
            Form::Bytes => {
                let index = random.size(0, image.marks.len() - 1);
                image.marks[index] = random.pick(&[2, 3, 0x10, 0x80, 0xFF]);
            }
            Form::Packed => {
                let (cells, bits) = (image.memory.len(), 8 * image.marks.len());
                if cells < bits {
                    let spare = random.size(cells, bits - 1);
                    let index = random.pick(&[cells, spare, bits - 1]);
                    image.marks[index / 8] |= 1 << (index % 8);
                }
            }
        }
    }
}

/// The commands that give a side its image.
pub fn settings(side: Side, image: &Held) -> [Command; 4] {
    [
        Command::Memory(side, image.memory.clone()),
        Command::Marks(side, image.marks.clone()),
        Command::Header(side, image.title.header.clone()),
        Command::Entry(side, image.title.entry),
    ]
}

/// Every cell of the window and some addresses around it, from below or mixed up.
fn addresses(random: &mut Random, start: u32, length: usize) -> Vec<u32> {
    let end = start.wrapping_add(length as u32);
    let cells = (0..length as u32).map(|index| start.wrapping_add(index));
    let mut addresses: Vec<u32> = cells.collect();
    let other_bit = start ^ (1 << random.below(32));
    let any = random.word() as u32;
    let outside = [
        start.wrapping_sub(1),
        end,
        end.wrapping_add(1),
        0,
        u32::MAX,
        other_bit,
        any,
    ];
    for _ in 0..random.size(0, 3) {
        addresses.push(random.pick(&outside));
    }
    if random.chance(1, 2) {
        random.shuffle(&mut addresses);
    }
    addresses
}
