//! Fields of a patch sheet with something wrong.

use super::bad_terms;
use super::fields::{field, Pair, Sheet};
use super::terms::Names;
use super::Fault;
use crate::cases::TOP;
use crate::random::Random;
use crate::sheets::{ADDRESS, HEAD};

/// Makes a pair wrong. None if that cannot be.
pub type MakeFields = fn(&mut Random, &mut Draft) -> Option<Fields>;

/// Makes a pair for cells that it must not have. None if there are none.
pub type MakePair = fn(&mut Random, &Sheet) -> Option<Pair>;

/// What can be wrong with a field as such.
pub fn bad_fields() -> Vec<Fault<MakeFields>> {
    Fault::all(&[(25, BAD_FIELDS)])
}

/// Data outside the window, wherever it stands.
pub fn outside() -> Vec<Fault<MakePair>> {
    Fault::all(&[(12, OUTSIDE)])
}

/// Data over that of a pair that stands before it.
pub fn over() -> Vec<Fault<MakePair>> {
    Fault::all(&[(12, OUTSIDE_AND_OVER), (13, OVER)])
}

/// A right pair, and the fields that would stand behind it.
pub struct Draft<'a> {
    pub names: &'a Names,
    pub address: u32,
    pub text: Vec<u8>,
    pub data: Vec<u8>,
    pub rest: Vec<Vec<u8>>,
}

/// Fields with one that is bad, and which of them that is.
pub type Fields = (Vec<Vec<u8>>, usize);

impl Draft<'_> {
    /// These fields and those behind them.
    fn and_rest(&self, fields: [&Vec<u8>; 2], bad: usize) -> Option<Fields> {
        let fields = fields.map(Vec::clone);
        Some(([&fields[..], &self.rest].concat(), bad))
    }

    /// The first field of the pair, or the second, with another tag.
    fn tagged(&mut self, tag: u8, bad: usize) -> Option<Fields> {
        let field = if bad == 0 {
            &mut self.text
        } else {
            &mut self.data
        };
        field[0] = tag;
        self.and_rest([&self.text, &self.data], bad)
    }

    /// The first field of the pair, cut.
    fn cut_text(&self, length: usize) -> Option<Fields> {
        Some((vec![self.text[..length].to_vec()], 0))
    }

    fn cut_data(&self, length: usize) -> Option<Fields> {
        Some((vec![self.text.clone(), self.data[..length].to_vec()], 1))
    }

    /// A bad expression with nothing behind it.
    fn lone(&self, random: &mut Random, row: u32) -> Option<Fields> {
        let fault = bad_terms::of_row(random, row);
        let text = fault.text(random, self.names, self.address)?;
        Some((vec![field(ADDRESS, &text)], 0))
    }
}

/// Tags that are none, some of them with the right low bits or as digits.
const TAGS: [u8; 9] = [3, 4, 0x10, 0x20, b'1', b'2', 0x81, 0x82, 0xFF];

/// The two bytes of a length in the other order. None unless the field is then cut.
fn swapped(mut field: Vec<u8>, rest: usize) -> Option<Vec<u8>> {
    let there = field.len() - HEAD + rest;
    field.swap(1, 2);
    let length = u16::from_be_bytes([field[1], field[2]]);
    (usize::from(length) > there).then_some(field)
}

/// Row 25.
const BAD_FIELDS: &[(&str, MakeFields)] = &[
    ("tag 0 for 1", |_, draft| draft.tagged(0, 0)),
    ("tag 2 for 1", |_, draft| draft.tagged(2, 0)),
    ("another tag for 1", |random, draft| {
        draft.tagged(random.pick(&TAGS), 0)
    }),
    ("tag 0 for 2", |_, draft| draft.tagged(0, 1)),
    ("tag 1 for 2", |_, draft| draft.tagged(1, 1)),
    ("another tag for 2", |random, draft| {
        draft.tagged(random.pick(&TAGS), 1)
    }),
    ("data without an address", |_, draft| {
        let data = draft.data.clone();
        Some(([&[data], &draft.rest[..]].concat(), 0))
    }),
    ("an address twice", |_, draft| {
        let text = draft.text.clone();
        draft.and_rest([&text, &text], 1)
    }),
    ("an address cut behind its tag", |_, draft| {
        draft.cut_text(1)
    }),
    ("an address cut in its length", |_, draft| draft.cut_text(2)),
    ("an address cut behind its length", |_, draft| {
        draft.cut_text(HEAD)
    }),
    ("an address cut by one byte", |_, draft| {
        draft.cut_text(draft.text.len() - 1)
    }),
    ("data cut behind the tag", |_, draft| draft.cut_data(1)),
    ("data cut in its length", |_, draft| draft.cut_data(2)),
    ("data cut behind its length", |_, draft| {
        draft.cut_data(HEAD)
    }),
    ("data cut by one byte", |_, draft| {
        draft.cut_data(draft.data.len() - 1)
    }),
    ("an address's length with its low byte first", |_, draft| {
        let text = swapped(draft.text.clone(), draft.data.len())?;
        Some((vec![text, draft.data.clone()], 0))
    }),
    ("data's length with its low byte first", |_, draft| {
        let data = swapped(draft.data.clone(), 0)?;
        Some((vec![draft.text.clone(), data], 1))
    }),
    ("a length of 65,535", |random, draft| {
        let mut fields = vec![draft.text.clone(), draft.data.clone()];
        let bad = random.size(0, 1);
        fields[bad][1..HEAD].fill(0xFF);
        Some((fields, bad))
    }),
    ("an address with nothing behind it", |_, draft| {
        Some((vec![draft.text.clone()], 0))
    }),
    (
        "a bad expression with nothing behind it",
        |random, draft| draft.lone(random, 25),
    ),
    ("an unknown name with nothing behind it", |random, draft| {
        draft.lone(random, 26)
    }),
    (
        "a sum out of range with nothing behind it",
        |random, draft| draft.lone(random, 27),
    ),
    ("a byte behind the last field", |random, _| {
        let any = random.byte();
        Some((vec![vec![random.pick(&[0, 1, 2, any])]], 0))
    }),
    ("two bytes behind the last field", |random, _| {
        let any = random.byte();
        Some((vec![vec![random.pick(&[1, 1, 2, any]), 0]], 0))
    }),
];

/// Data from an address on, if there is one.
fn data_at(random: &mut Random, start: i64, length: u64) -> Option<Pair> {
    let address = u32::try_from(start).ok()?;
    Some((address, random.bytes(length as usize)))
}

impl Sheet {
    /// An earlier pair with data.
    fn earlier(&self, random: &mut Random) -> Option<Pair> {
        let full: Vec<&Pair> = self
            .pairs
            .iter()
            .filter(|pair| !pair.1.is_empty())
            .collect();
        let last = full.len().checked_sub(1)?;
        Some(full[random.size(0, last)].clone())
    }
}

/// Row 12, wherever it stands.
const OUTSIDE: &[(&str, MakePair)] = &[
    ("one cell below the window", |random, sheet| {
        let (low, high) = sheet.window;
        let length = random.between(1, 5).min(high - low + 1);
        data_at(random, low as i64 - 1, length)
    }),
    ("one cell above the window", |random, sheet| {
        let (low, high) = sheet.window;
        let length = random.between(1, 5).min(high - low + 1);
        (high < TOP).then_some(())?;
        data_at(random, (high + 1) as i64 - length as i64, length)
    }),
    ("a cell on both sides of the window", |random, sheet| {
        let (low, high) = sheet.window;
        data_at(random, low as i64 - 1, high - low + 2)
    }),
    ("all cells below the window", |random, sheet| {
        let length = random.between(1, 5);
        let gap = random.below(3);
        let start = sheet.window.0 as i64 - (length + gap) as i64;
        data_at(random, start, length)
    }),
    ("all cells above the window", |random, sheet| {
        let start = sheet.window.1 as i64 + random.below(3) as i64;
        let length = random.between(1, 5);
        data_at(random, start, length)
    }),
    ("a window without cells", |random, sheet| {
        let (low, high) = sheet.window;
        (low == high).then_some(())?;
        data_at(random, low as i64, 1)
    }),
    ("data past 2^32", |random, _| {
        let length = random.between(2, 6);
        let start = TOP - random.between(1, length - 1);
        data_at(random, start as i64, length)
    }),
    ("data past 2^32 in a window up to it", |random, sheet| {
        let (low, high) = sheet.window;
        (high == TOP && high - low > 1).then_some(())?;
        let start = random.between(low.max(high - 4), high - 1);
        data_at(random, start as i64, high - start + 1)
    }),
    ("data past 2^32 in a window from 0", |random, sheet| {
        (sheet.window.0 == 0 && sheet.window.1 > 1).then_some(())?;
        data_at(random, i64::from(u32::MAX), 2)
    }),
];

/// Rows 12 and 13.
const OUTSIDE_AND_OVER: &[(&str, MakePair)] =
    &[("data outside and over an earlier pair", |random, sheet| {
        let (start, data) = sheet.earlier(random)?;
        let (low, high) = sheet.window;
        let end = i64::from(start) + data.len() as i64;
        match random.below(2) {
            0 => data_at(random, low as i64 - 1, end as u64 - low + 1),
            _ => data_at(random, end - 1, high + 2 - end as u64),
        }
    })];

/// Row 13.
const OVER: &[(&str, MakePair)] = &[
    ("the same data again", |random, sheet| sheet.earlier(random)),
    ("other data for the same cells", |random, sheet| {
        let (start, data) = sheet.earlier(random)?;
        Some((start, data.iter().map(|byte| !byte).collect()))
    }),
    (
        "data up to the first cell of an earlier pair",
        |random, sheet| {
            let (start, _) = sheet.earlier(random)?;
            let before = u64::from(start) - sheet.window.0;
            let length = 1 + random.below(4).min(before);
            data_at(random, i64::from(start) + 1 - length as i64, length)
        },
    ),
    (
        "data from the last cell of an earlier pair on",
        |random, sheet| {
            let (start, data) = sheet.earlier(random)?;
            let last = u64::from(start) + data.len() as u64 - 1;
            let length = 1 + random.below(4).min(sheet.window.1 - last - 1);
            data_at(random, last as i64, length)
        },
    ),
    (
        "the first byte of an earlier pair again",
        |random, sheet| {
            let (start, data) = sheet.earlier(random)?;
            Some((start, data[..1].to_vec()))
        },
    ),
    (
        "data for the whole window behind a pair",
        |random, sheet| {
            sheet.earlier(random)?;
            let (low, high) = sheet.window;
            data_at(random, low as i64, high - low)
        },
    ),
];
