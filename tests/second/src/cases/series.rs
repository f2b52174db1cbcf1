//! Loads in parts as series of calls, with what a caller can do between them.

use super::cuts::{any_parts, ways};
use super::packed::any_form;
use super::{load_case, Limits, LoadCase};
use crate::calls::{Bench, Call, Case, ROOM};
use crate::form::Form;
use crate::parts::{Number, MOST};
use crate::random::Random;

/// What a caller does at one point of a series. Each must come up.
#[derive(Clone, Copy, Debug, PartialEq, Eq, PartialOrd, Ord)]
pub enum Trick {
    None,
    Marks,
    Lengths,
    OtherBase,
    /// The total comes near the most characters.
    Most,
    /// A number that a state could have.
    Possible,
    /// A number that no state has.
    Impossible,
    /// The number of cells of the state.
    Size,
    Reason,
    EarlyEnd,
    /// The state is kept, and used again later.
    Again,
    Begin,
}

pub const TRICKS: [Trick; 12] = [
    Trick::None,
    Trick::Marks,
    Trick::Lengths,
    Trick::OtherBase,
    Trick::Most,
    Trick::Possible,
    Trick::Impossible,
    Trick::Size,
    Trick::Reason,
    Trick::EarlyEnd,
    Trick::Again,
    Trick::Begin,
];

/// What is fed behind the end.
const TAILS: [&[u8]; 6] = [
    b"",
    b"\n",
    b"\r\n\r\n",
    b"x",
    b"S1040000AA51\n",
    b"\nS9030000FC\n",
];

/// The most characters of a record that a state holds.
const KEPT: usize = 515;

/// A series so far, as the second reading makes its calls.
struct Series<'a> {
    bench: Bench,
    calls: Vec<Call>,
    rest: &'a [u8],
}

impl Series<'_> {
    fn call(&mut self, call: Call) {
        self.rest = self.bench.call(call, self.rest);
        self.calls.push(call);
    }

    fn number(&self, number: Number) -> usize {
        self.bench.state.number(number)
    }

    fn set(&mut self, number: Number, value: usize) {
        self.call(Call::Set(number, value));
    }
}

/// A series, how its text is cut, and what the caller does at one of the cuts.
pub struct Drawn {
    pub case: Case,
    pub ways: Vec<&'static str>,
    pub trick: Trick,
}

/// The load case of this seed and index, cut, with a trick at one of the cuts. Some
/// have packed marks.
pub fn series_case(seed: u64, index: u64, limits: Limits) -> Drawn {
    // The calls have other numbers than the text.
    let random = &mut Random::new(!seed, index);
    let drawn = load_case(seed, index, limits);
    let form = any_form(seed, index);
    let trick = random.pick(&TRICKS);
    let text = [&drawn.text[..], random.pick(&TAILS)].concat();
    let mut series = Series {
        bench: Bench::new(form, drawn.base, drawn.memory.len()),
        calls: Vec::new(),
        rest: &text,
    };
    let parts = any_parts(random, &drawn.text);
    draw_calls(random, &mut series, &drawn, &parts, trick);
    let case = Case {
        form,
        name: format!("seed {seed}, index {index}, {trick:?}"),
        base: drawn.base,
        cells: drawn.memory.len(),
        calls: series.calls,
        text,
    };
    let ways = ways(&parts);
    Drawn { case, ways, trick }
}

fn draw_calls(
    random: &mut Random,
    series: &mut Series,
    drawn: &LoadCase,
    parts: &[Vec<u8>],
    trick: Trick,
) {
    if drawn.marks.len() != drawn.memory.len() {
        let cells = drawn.memory.len();
        let marks = match series.bench.form {
            Form::Bytes => drawn.marks.len(),
            Form::Packed => other_mark_bytes(random, cells),
        };
        series.call(Call::Lend(cells, marks));
        series.call(Call::Begin);
    }
    let at = random.size(0, parts.len());
    for (index, part) in parts.iter().enumerate() {
        if index == at {
            play(random, series, trick);
        }
        some_spare_bits(random, series);
        series.call(Call::Feed(part.len()));
        if random.chance(1, 8) {
            series.call(Call::Show);
        }
    }
    if at == parts.len() {
        play(random, series, trick);
    }
    some_spare_bits(random, series);
    series.call(Call::End);
    behind_the_end(random, series, trick);
}

fn behind_the_end(random: &mut Random, series: &mut Series, trick: Trick) {
    if trick == Trick::Again && random.chance(1, 2) {
        series.call(Call::Use);
    }
    if random.chance(1, 2) {
        let number = random.size(1, 5);
        series.call(Call::Rest(number));
        series.call(Call::Show);
    }
    some_spare_bits(random, series);
    if random.chance(1, 2) {
        series.call(Call::End);
    }
}

/// Sets spare bits of packed marks now and then, whatever else the caller does.
fn some_spare_bits(random: &mut Random, series: &mut Series) {
    let Bench { form, cells, .. } = series.bench;
    let spare = 0xFF << (cells % 8);
    if form == Form::Packed && !cells.is_multiple_of(8) && random.chance(1, 6) {
        let last = cells / 8;
        let any = random.byte();
        let some = random.pick(&[0x80, 0xFF, 1 << (cells % 8), any]);
        series.call(Call::Mark(last, series.bench.marks[last] | spare & some));
    }
}

fn play(random: &mut Random, series: &mut Series, trick: Trick) {
    match trick {
        Trick::None => {}
        Trick::Marks => set_marks(random, series),
        Trick::Lengths => other_lengths(random, series),
        Trick::OtherBase => other_base(random, series),
        Trick::Most => near_the_most(random, series),
        Trick::Possible => possible(random, series),
        Trick::Impossible => impossible(random, series),
        Trick::Size => other_size(random, series),
        Trick::Reason => {
            let reason = random.pick(&[1, 7, 9, 14, 20, 200]);
            series.set(Number::Reason, reason);
        }
        Trick::EarlyEnd => series.call(Call::End),
        Trick::Again => {
            series.call(Call::Keep);
            let number = random.size(0, 40);
            series.call(Call::Feed(number));
            series.call(Call::Use);
        }
        Trick::Begin => series.call(Call::Begin),
    }
}

fn set_marks(random: &mut Random, series: &mut Series) {
    for _ in 0..random.size(1, 4) {
        let Bench { form, cells, .. } = series.bench;
        if cells > 0 {
            let index = random.size(0, form.length(cells) - 1);
            let old = series.bench.marks[index];
            let mark = match form {
                Form::Bytes => random.pick(&[0, 0, 1, 2, 255]),
                Form::Packed => any_bits(random, old),
            };
            series.call(Call::Mark(index, mark));
        }
    }
}

/// Mostly one bit changed, in either way.
fn any_bits(random: &mut Random, old: u8) -> u8 {
    let bit = 1 << random.below(8);
    let any = random.byte();
    random.pick(&[old ^ bit, old ^ bit, old | bit, old & !bit, 0, 0xFF, any])
}

/// A wrong number of mark bytes for so many cells.
fn other_mark_bytes(random: &mut Random, cells: usize) -> usize {
    let right = Form::Packed.length(cells);
    let some = random.size(0, right + 2);
    let other = [
        right + 1,
        right.saturating_sub(1),
        cells / 8,
        cells,
        0,
        some,
    ];
    match random.pick(&other) {
        other if other == right => right + 1,
        other => other,
    }
}

/// For one call, which may be an end, or from here on.
fn other_lengths(random: &mut Random, series: &mut Series) {
    let (cells, marks) = (series.bench.cells, series.bench.marks_lent);
    let other = |random: &mut Random, length: usize| match random.below(5) {
        0 => 0,
        1 => length.saturating_sub(1),
        2 => length + 1,
        3 => length,
        _ => random.size(0, ROOM.min(2 * length)),
    };
    let lent = other(random, cells);
    let form = series.bench.form;
    let lent_marks = match form {
        _ if random.chance(1, 2) => form.length(lent),
        Form::Bytes => other(random, marks),
        Form::Packed => other_mark_bytes(random, lent),
    };
    series.call(Call::Lend(lent, lent_marks));
    match random.below(3) {
        0 => series.call(Call::Feed(0)),
        1 => series.call(Call::Feed(1)),
        _ => series.call(Call::End),
    }
    series.call(Call::Show);
    if random.chance(1, 2) {
        series.call(Call::Lend(cells, marks));
    }
}

fn other_base(random: &mut Random, series: &mut Series) {
    let base = series.bench.base;
    let other = match random.below(4) {
        0 => base.wrapping_add(1),
        1 => base.wrapping_sub(1),
        2 => random.word() as u32,
        _ => 0u32.wrapping_sub(series.bench.cells as u32),
    };
    series.call(Call::Base(other));
    if random.chance(1, 3) {
        let number = random.size(0, 40);
        series.call(Call::Feed(number));
        series.call(Call::Base(base));
    }
}

/// So that the rest just fits, or a few characters of it do not.
fn near_the_most(random: &mut Random, series: &mut Series) {
    let rest = series.rest.len();
    let left = match random.below(4) {
        0 => rest,
        1 => rest.saturating_sub(1),
        2 => random.size(0, rest),
        _ => random.size(0, 2 * rest),
    };
    let (total, place) = (series.number(Number::Total), series.number(Number::Place));
    let more = (MOST - left).saturating_sub(total);
    series.set(Number::Total, total + more);
    // As if line ends stood before the record at hand, or were left out of it.
    if random.chance(3, 4) {
        series.set(Number::Place, place + more);
    }
}

fn possible(random: &mut Random, series: &mut Series) {
    let of = |number| series.number(number);
    let place = of(Number::Place);
    let read = [Number::Complete, Number::Records, Number::Cells];
    let number = random.pick(&[
        Number::Complete,
        Number::Records,
        Number::Cells,
        Number::Held,
        Number::Head,
        Number::Place,
        Number::Total,
    ]);
    let (low, high) = match number {
        Number::Held | Number::Head => (0, of(number)),
        Number::Place => (read.map(of).into_iter().max().unwrap_or(0), place),
        Number::Total => (of(number), of(number) + 1_000),
        _ => (0, place),
    };
    // All numbers of a refused state are left alone.
    if series.bench.state.refusal().is_none() {
        let value = match random.below(3) {
            0 => low,
            1 => high,
            _ => random.size(low, high),
        };
        series.set(number, value);
        series.call(Call::Show);
    }
}

fn impossible(random: &mut Random, series: &mut Series) {
    let of = |number| series.number(number);
    let (total, place, held) = (of(Number::Total), of(Number::Place), of(Number::Held));
    let number = random.pick(&[
        Number::Complete,
        Number::Records,
        Number::Cells,
        Number::Held,
        Number::Place,
        Number::Total,
    ]);
    let past = random.pick(&[1, 1, 2, 1_000]);
    let value = match number {
        Number::Held => (total.saturating_sub(place) + past).min(KEPT),
        Number::Place => total.saturating_sub(held) + past,
        Number::Total if place + held > 0 && random.chance(1, 2) => place + held - 1,
        Number::Total => MOST + past,
        _ => place + past,
    };
    if series.bench.state.refusal().is_none() {
        series.set(number, value);
    }
}

/// Sometimes with so many cells lent.
fn other_size(random: &mut Random, series: &mut Series) {
    let size = match random.below(3) {
        0 => series.bench.cells + 1,
        1 => series.bench.cells.saturating_sub(1),
        _ => random.size(0, 64),
    };
    series.set(Number::Size, size);
    if random.chance(2, 3) {
        let marks = series.bench.form.length(size);
        series.call(Call::Lend(size, marks));
    }
}
