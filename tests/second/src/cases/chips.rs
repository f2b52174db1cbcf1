//! Images dealt over chips, and chips collected, in the form of the program `deals`.

mod ways;

use super::{contents, TOP};
use crate::chips::{Buffers, CHIPS};
use crate::deals::{Case, Command, Side, CELLS};
use crate::random::Random;
pub use ways::{ways, Call, CALLS};

/// What a deal or a collect can answer: 0, or the row that refuses it.
pub const CHIP_NUMBERS: [u32; 4] = [0, 1, 16, 21];

/// The cells of a row that a chip has.
const ROW: usize = 16;

/// A whole and the chips before a call, and over how many chips that goes.
struct Board {
    k: u32,
    whole: Buffers,
    chips: [Buffers; CHIPS],
}

/// Up to three calls, some with another one behind it that takes what it left. Most
/// of them are accepted.
pub fn chips_case(seed: u64, index: u64) -> Case {
    let random = &mut Random::new(seed, index);
    let k = random.pick(&[2, 4]);
    let cells = any_cells(random, k);
    let base = any_base(random, k, cells);
    let mut commands = Vec::new();
    for _ in 0..random.pick(&[1, 1, 2, 3]) {
        commands.extend(any_call(random, k, cells));
    }
    Case {
        name: format!("seed {seed}, index {index}"),
        base,
        commands,
    }
}

/// How many cells a chip has: often about as many as whole rows, and sometimes all
/// that there is room for.
fn any_cells(random: &mut Random, k: u32) -> usize {
    let most = CELLS / k as usize;
    match random.below(16) {
        0 => 0,
        1 => 1,
        2 => most,
        3 => random.size(2, most),
        4..=9 => {
            let rows = random.pick(&[1, 1, 1, 1, 2, 2, 2, 3]);
            rows * ROW + random.size(0, 2) - 1
        }
        _ => random.size(2, ROW - 1),
    }
}

/// Often an edge: 0, a small number, just up to the top, or past it. One of sixteen is
/// no multiple of k.
fn any_base(random: &mut Random, k: u32, cells: usize) -> u32 {
    let k = u64::from(k);
    let length = k * cells as u64;
    let base = match random.below(16) {
        0..=2 => 0,
        3..=5 => random.between(1, 300),
        6 | 7 => random.pick(&[1 << 16, 1 << 24, 1 << 31]) - random.below(length + 1),
        8..=10 => TOP - length,
        11 => TOP - length + k * random.between(1, cells as u64 + 1),
        _ => random.below(TOP - length),
    };
    let base = base.min(TOP - k) / k * k;
    let rest = if random.chance(1, 16) {
        random.between(1, k - 1)
    } else {
        0
    };
    (base + rest) as u32
}

/// Buffers for a call, some with faults, and the call. Behind it, sometimes, the
/// other one, which takes what is left; or that with no chips, which shows what is.
fn any_call(random: &mut Random, k: u32, cells: usize) -> Vec<Command> {
    let call = random.pick(&CALLS);
    let mut board = any_board(random, call, k, cells);
    for _ in 0..any_faults(random) {
        spoil(random, call, &mut board);
    }
    let mut commands = settings(&board);
    commands.push(call.command(board.k));
    let other = call.other();
    match random.below(12) {
        0..=2 => {
            commands.extend(other_contents(random, other, &board));
            commands.push(other.command(k));
        }
        3 => commands.push(other.command(k)),
        4 | 5 => commands.push(other.command(0)),
        _ => {}
    }
    commands
}

/// Mostly none.
fn any_faults(random: &mut Random) -> usize {
    match random.below(16) {
        0..=10 => 0,
        11..=13 => 1,
        14 => 2,
        _ => random.size(2, 3),
    }
}

/// No row applies to it, unless one does to the base.
fn any_board(random: &mut Random, call: Call, k: u32, cells: usize) -> Board {
    let mut one = |length: usize, sends: bool| Buffers {
        memory: random.bytes(length),
        marks: if sends {
            any_marks(random, length)
        } else {
            contents(random, length)
        },
    };
    let whole = one(k as usize * cells, call == Call::Deal);
    let mut chips: [Buffers; CHIPS] = Default::default();
    for chip in &mut chips[..k as usize] {
        *chip = one(cells, call == Call::Collect);
    }
    Board { k, whole, chips }
}

/// Marks of many densities.
fn any_marks(random: &mut Random, length: usize) -> Vec<u8> {
    let density = random.pick(&[0, 4, 8, 8, 12, 14, 16]);
    let mark = |_| u8::from(random.chance(density, 16));
    (0..length).map(mark).collect()
}

/// One thing that some row refuses.
fn spoil(random: &mut Random, call: Call, board: &mut Board) {
    match random.below(6) {
        0 => board.k = other_number(random, board.k),
        1 => other_whole(random, board),
        2 | 3 => other_length(random, board),
        _ => bad_marks(random, call, board),
    }
}

/// Another number of chips, sometimes one that is right in its low bits.
fn other_number(random: &mut Random, k: u32) -> u32 {
    let other = if k == 2 { 4 } else { 2 };
    let high = k | 1 << random.between(3, 31);
    let any = random.word() as u32;
    random.pick(&[0, 1, 3, 5, 6, 8, other, u32::MAX, high, high, any])
}

/// A whole of another length, with as many marks: mostly no multiple of k.
fn other_whole(random: &mut Random, board: &mut Board) {
    let length = board.whole.memory.len();
    let other = if random.chance(1, 2) {
        length + random.size(1, 4)
    } else {
        length.saturating_sub(random.size(1, 4))
    };
    let other = if other > CELLS { length - 1 } else { other };
    board.whole.memory.resize(other, 0x5A);
    board.whole.marks.resize(other, 1);
}

/// One buffer, but not the whole's memory, with a byte more or fewer, or any number
/// of them.
fn other_length(random: &mut Random, board: &mut Board) {
    let number = random.size(0, 2 * CHIPS);
    let buffer = match number.checked_sub(1) {
        None => &mut board.whole.marks,
        Some(number) if number < CHIPS => &mut board.chips[number].memory,
        Some(number) => &mut board.chips[number - CHIPS].marks,
    };
    let length = buffer.len();
    let some = random.size(0, ROW);
    let other = random.pick(&[length + 1, length + 1, length.saturating_sub(1), 0, some]);
    buffer.resize(if other > CELLS { length - 1 } else { other }, 1);
}

/// One sending mark above 1, or two.
fn bad_marks(random: &mut Random, call: Call, board: &mut Board) {
    for _ in 0..random.size(1, 2) {
        let marks = match call {
            Call::Deal => &mut board.whole.marks,
            Call::Collect => {
                let chips = board.chips.iter_mut().map(|chip| &mut chip.marks);
                let mut chips: Vec<&mut Vec<u8>> =
                    chips.filter(|marks| !marks.is_empty()).collect();
                if chips.is_empty() {
                    return;
                }
                chips.swap_remove(random.size(0, chips.len() - 1))
            }
        };
        if let Some(last) = marks.len().checked_sub(1) {
            let some = random.size(0, last);
            let index = random.pick(&[0, some, some, last]);
            marks[index] = random.pick(&[2, 3, 0x10, 0x80, 0xFF]);
        }
    }
}

/// The commands that set all buffers.
fn settings(board: &Board) -> Vec<Command> {
    let of = |side: Side, buffers: &Buffers| {
        let Buffers { memory, marks } = buffers.clone();
        [Command::Memory(side, memory), Command::Marks(side, marks)]
    };
    let chips = board.chips.iter().enumerate();
    let chips = chips.flat_map(|(number, chip)| of(Side::Chip(number), chip));
    of(Side::Whole, &board.whole)
        .into_iter()
        .chain(chips)
        .collect()
}

/// Other bytes and marks for the side that receives.
fn other_contents(random: &mut Random, call: Call, board: &Board) -> Vec<Command> {
    let mut other = |side: Side, buffers: &Buffers| {
        let Buffers { memory, marks } = buffers;
        [
            Command::Memory(side, random.bytes(memory.len())),
            Command::Marks(side, contents(random, marks.len())),
        ]
    };
    match call {
        Call::Collect => other(Side::Whole, &board.whole).to_vec(),
        Call::Deal => {
            let chips = board.chips.iter().enumerate();
            let chips = chips.filter(|(_, chip)| **chip != Buffers::default());
            chips
                .flat_map(|(number, chip)| other(Side::Chip(number), chip))
                .collect()
        }
    }
}
