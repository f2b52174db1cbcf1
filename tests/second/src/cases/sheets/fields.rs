//! Patch sheets.

use super::bad_fields::{bad_fields, outside, over, Draft};
use super::bad_terms;
use super::blocks::Block;
use super::terms::Names;
use super::{Fault, Size};
use crate::cases::TOP;
use crate::random::Random;
use crate::reading::Refusal;
use crate::sheets::{ADDRESS, DATA, HEAD};
use crate::symbols::refused;

/// An address and the bytes for it.
pub type Pair = (u32, Vec<u8>);

/// A sheet in the making.
pub struct Sheet {
    names: Names,
    size: Size,
    pub window: (u64, u64),
    /// The right pairs that stand before what is wrong, or all of them.
    pub pairs: Vec<Pair>,
    fields: Vec<Vec<u8>>,
    /// The names of what is wrong.
    pub made: Vec<String>,
    /// The row that refuses it, and the field, counted from 0.
    wrong: Option<(u32, usize)>,
}

pub fn field(tag: u8, bytes: &[u8]) -> Vec<u8> {
    let length = (bytes.len() as u16).to_be_bytes();
    [&[tag], &length[..], bytes].concat()
}

/// Pairs without a common cell: the window is cut at random and some of the pieces
/// are used, so that pairs touch each other and the window's ends. Those without
/// data may stand anywhere.
fn any_pairs(random: &mut Random, size: Size, (low, high): (u64, u64)) -> Vec<Pair> {
    let mut cuts = vec![low, high];
    let most = random.size(0, size.pairs);
    cuts.extend((0..most).map(|_| random.between(low, high)));
    cuts.sort_unstable();
    let mut pairs = Vec::new();
    for piece in cuts.windows(2) {
        let length = (piece[1] - piece[0]).min(size.data as u64);
        let start = random.pick(&[piece[0], piece[1] - length]);
        if length > 0 && random.chance(3, 4) {
            pairs.push((start as u32, random.bytes(length as usize)));
        }
    }
    for _ in 0..random.pick(&[0, 0, 0, 1, 1, 2]) {
        let any = random.word() as u32;
        let below = (low as u32).wrapping_sub(1);
        let address = random.pick(&[0, u32::MAX, low as u32, high as u32, below, any]);
        pairs.push((address, Vec::new()));
    }
    match random.below(4) {
        0 => {}
        1 => pairs.reverse(),
        _ => random.shuffle(&mut pairs),
    }
    pairs
}

impl Sheet {
    /// A right one.
    pub fn any(random: &mut Random, size: Size, window: (u64, u64), block: &Block) -> Sheet {
        let pairs = match random.chance(1, 20) {
            true => Vec::new(),
            false => any_pairs(random, size, window),
        };
        let mut sheet = Sheet {
            names: Names::of(block),
            size,
            window,
            pairs: Vec::new(),
            fields: Vec::new(),
            made: Vec::new(),
            wrong: None,
        };
        for pair in pairs {
            sheet.push(random, pair);
        }
        sheet
    }

    fn push(&mut self, random: &mut Random, pair: Pair) {
        let fields = self.fields_of(random, &pair);
        self.fields.extend(fields);
        self.pairs.push(pair);
    }

    fn fields_of(&self, random: &mut Random, (address, data): &Pair) -> [Vec<u8>; 2] {
        let long = self.size.large && random.chance(1, 60);
        let text = self.names.expression(random, *address, long);
        [field(ADDRESS, &text.concat()), field(DATA, data)]
    }

    pub fn bytes(&self) -> Vec<u8> {
        self.fields.concat()
    }

    /// The refusal that it must have.
    pub fn aim(&self) -> Option<Refusal> {
        let Some((row, field)) = self.wrong else {
            return Some(Refusal::default());
        };
        // Behind a text of no known outcome there is no row.
        let place = self.fields[..field].concat().len();
        (row > 0).then(|| refused(row, field + 1, place))
    }

    /// Keeps the first pairs, and gives the others back as fields.
    fn split(&mut self, kept: usize) -> Vec<Vec<u8>> {
        self.pairs.truncate(kept);
        self.fields.split_off(2 * kept)
    }

    /// A number of pairs that can be kept.
    fn any_place(&self, random: &mut Random) -> usize {
        random.size(0, self.pairs.len())
    }

    /// Puts a pair with a fault in its first field, or its second, between others.
    fn put(
        mut self,
        random: &mut Random,
        pair: [Vec<u8>; 2],
        (way, row, second): (String, u32, bool),
    ) -> Sheet {
        let kept = self.any_place(random);
        let rest = self.split(kept);
        self.fields.extend(pair);
        self.fields.extend(rest);
        self.made.push(way);
        self.wrong = Some((row, 2 * kept + usize::from(second)));
        self
    }

    /// Some address of the window, or just any, and data for it that has its place.
    fn some_pair(&self, random: &mut Random) -> Pair {
        let (low, high) = self.window;
        let any = random.word() as u32;
        let within = random.between(low, high) as u32;
        let address = random.pick(&[low as u32, within, any]);
        let length = random.size(0, 3);
        (address, random.bytes(length))
    }

    /// With the bad expression whose turn it is.
    pub fn with_bad_text(self, random: &mut Random, turn: u64) -> Option<Sheet> {
        let fault = bad_terms::of_turn(turn);
        let (address, data) = self.some_pair(random);
        let text = fault.text(random, &self.names, address)?;
        let pair = [field(ADDRESS, &text), field(DATA, &data)];
        Some(self.put(random, pair, (fault.way(), fault.row, false)))
    }

    /// With an expression of a few kinds of characters in no order.
    pub fn with_odd_text(self, random: &mut Random) -> Sheet {
        let length = random.size(1, 9);
        let names: Vec<&[u8]> = self
            .names
            .symbols
            .iter()
            .map(|(name, _)| &name[..])
            .collect();
        let mut text = Vec::new();
        for _ in 0..length {
            match names[..] {
                [_, ..] if random.chance(1, 4) => text.extend(random.pick(&names)),
                _ => text.extend(random.pick(&[&b"$1"[..], b"$F0", b"+", b"+", b"-", b"(", b")"])),
            }
        }
        let pair = [field(ADDRESS, &text), field(DATA, b"")];
        let way = "text in no order".to_string();
        self.put(random, pair, (way, 0, false))
    }

    /// With the bad field whose turn it is.
    pub fn with_bad_field(mut self, random: &mut Random, turn: u64) -> Option<Sheet> {
        let faults = bad_fields();
        let fault = faults[(turn % faults.len() as u64) as usize];
        let kept = self.any_place(random);
        let (address, mut data) = self.some_pair(random);
        // It can be cut.
        data.push(0x5A);
        let rest = self.split(kept);
        let [text, data] = self.fields_of(random, &(address, data));
        let mut draft = Draft {
            names: &self.names,
            address,
            text,
            data,
            rest,
        };
        let (fields, at) = (fault.make)(random, &mut draft)?;
        self.fields.extend(fields);
        self.made.push(fault.way());
        self.wrong = Some((fault.row, 2 * kept + at));
        Some(self)
    }

    /// With data outside the window, or over other data, whichever's turn it is.
    pub fn with_bad_cells(mut self, random: &mut Random, turn: u64) -> Option<Sheet> {
        let (anywhere, faults) = (outside(), [outside(), over()].concat());
        let turn = (turn % faults.len() as u64) as usize;
        let fault = faults[turn];
        let pair = (fault.make)(random, &self)?;
        let fields = self.fields_of(random, &pair);
        if turn < anywhere.len() {
            return Some(self.put(random, fields, (fault.way(), fault.row, true)));
        }
        // What it lies over stands before it.
        self.wrong = Some((fault.row, self.fields.len() + 1));
        self.fields.extend(fields);
        self.made.push(fault.way());
        if random.chance(1, 2) {
            let pair = self.some_pair(random);
            let more = self.fields_of(random, &pair);
            self.fields.extend(more);
        }
        Some(self)
    }

    /// With a bad expression, and something else that is wrong behind it.
    pub fn with_two_faults(mut self, random: &mut Random, turn: u64) -> Option<Sheet> {
        let row = TEXT_ROWS[(turn % 3) as usize];
        let kind = (turn / 3 % 4) as usize;
        let (address, _) = self.some_pair(random);
        let text = bad_terms::of_row(random, row).text(random, &self.names, address)?;
        let kept = self.any_place(random);
        self.split(kept);
        let behind = match kind {
            0 => vec![field(random.pick(&[0, 1, 3]), b"a")],
            1 => vec![field(DATA, b"ab")[..HEAD].to_vec()],
            2 => {
                let pair = self.fields_of(random, &(self.outside()?, vec![0x5A]));
                [&[field(DATA, b"")], &pair[..]].concat()
            }
            _ => {
                let other = random.pick(&[&b"+"[..], b"$0-$1", b"$1 "]);
                vec![field(DATA, b""), field(ADDRESS, other), field(DATA, b"")]
            }
        };
        self.fields.push(field(ADDRESS, &text));
        self.fields.extend(behind);
        self.made.push(first_of_two(row, TWO_FAULTS[kind]));
        self.wrong = Some((row, 2 * kept));
        Some(self)
    }

    /// An address beside the window.
    fn outside(&self) -> Option<u32> {
        match self.window {
            (_, high) if high < TOP => Some(high as u32),
            (low, _) => (low as u32).checked_sub(1),
        }
    }
}

/// The rows of an expression.
const TEXT_ROWS: [u32; 3] = [25, 26, 27];

/// What stands behind a bad expression, where two things are wrong.
const TWO_FAULTS: [&str; 4] = [
    "before a wrong tag",
    "before a field that is cut",
    "before data outside the window",
    "before another bad expression",
];

fn first_of_two(row: u32, name: &str) -> String {
    format!("row {row} {name}")
}

/// The ways in which sheets are made wrong.
pub fn wrong_ways() -> Vec<String> {
    let mut ways: Vec<String> = bad_terms::faults().iter().map(Fault::way).collect();
    ways.extend(bad_fields().iter().map(Fault::way));
    ways.extend([outside(), over()].concat().iter().map(Fault::way));
    for name in TWO_FAULTS {
        ways.extend(TEXT_ROWS.map(|row| first_of_two(row, name)));
    }
    ways
}
