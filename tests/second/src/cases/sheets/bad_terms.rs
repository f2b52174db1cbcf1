//! Addresses as text with something wrong.

use super::blocks::{digits, fresh, name_of, similar};
use super::terms::{in_brackets, joined, piece, Names, Pieces, LAST};
use super::Fault;
use crate::expressions::DEEPEST;
use crate::random::Random;
use crate::symbols::LONGEST_NAME;

/// Makes something wrong with a right expression of a value, or puts other pieces in
/// place of it. None if that cannot be with these names or this value.
pub type Make = fn(&mut Random, &Names, u32, &mut Pieces) -> Option<()>;

/// What can be wrong with an expression.
pub fn faults() -> Vec<Fault<Make>> {
    Fault::all(&[(25, BAD_FORMS), (26, UNKNOWN), (27, OUT_OF_RANGE)])
}

/// The one whose turn it is.
pub fn of_turn(turn: u64) -> Fault<Make> {
    let faults = faults();
    faults[(turn % faults.len() as u64) as usize]
}

/// Any with this row.
pub fn of_row(random: &mut Random, row: u32) -> Fault<Make> {
    let faults = faults().into_iter().filter(|fault| fault.row == row);
    random.pick(&faults.collect::<Vec<_>>())
}

impl Fault<Make> {
    /// The text, if there is one.
    pub fn text(&self, random: &mut Random, names: &Names, value: u32) -> Option<Vec<u8>> {
        let mut pieces = names.expression(random, value, false);
        (self.make)(random, names, value, &mut pieces)?;
        Some(pieces.concat())
    }
}

/// The places of pieces that begin with one of these, or with none of them.
fn places(pieces: &Pieces, signs: &[u8], among: bool) -> Vec<usize> {
    let fits = |&at: &usize| signs.contains(&pieces[at][0]) == among;
    (0..pieces.len()).filter(fits).collect()
}

/// The place of a word; there is always one.
fn word(random: &mut Random, pieces: &Pieces) -> usize {
    random.pick(&places(pieces, b"+-()", false))
}

fn sign(random: &mut Random) -> Vec<u8> {
    piece(random.pick(b"+-"))
}

/// Puts other pieces in place of a word.
fn replace(random: &mut Random, pieces: &mut Pieces, others: Pieces) {
    let at = word(random, pieces);
    pieces.splice(at..=at, others);
}

/// Some bad form that leaves all words.
fn bad_form(random: &mut Random, pieces: &mut Pieces) {
    let end = pieces.len();
    match random.below(4) {
        0 => pieces.insert(0, sign(random)),
        1 => pieces.push(sign(random)),
        2 => pieces.insert(random.pick(&[0, end]), piece(b')')),
        _ => pieces.push(b" ".to_vec()),
    }
}

/// Adds a name that has no value.
fn add_unknown(random: &mut Random, names: &Names, pieces: &mut Pieces) {
    let name = fresh(random, &names.symbols);
    let sign = sign(random);
    pieces.extend([sign, name]);
}

/// What is neither a part of a word nor a sign.
const OTHERS: &[u8] = b"*/_.,:;<=>?@[\\]^`{|}~!\"#%&'\r\n\t\0\x01\x7F\x80\xA8\xB0\xC1\xFF";

/// Row 25.
const BAD_FORMS: &[(&str, Make)] = &[
    ("no text", |_, _, _, pieces| {
        pieces.clear();
        Some(())
    }),
    ("a space", |random, _, _, pieces| {
        let text = pieces.concat();
        let (left, right) = text.split_at(random.size(0, text.len()));
        *pieces = vec![left.to_vec(), b" ".to_vec(), right.to_vec()];
        Some(())
    }),
    ("another character", |random, _, _, pieces| {
        let text = pieces.concat();
        let (left, right) = text.split_at(random.size(0, text.len()));
        *pieces = vec![left.to_vec(), piece(random.pick(OTHERS)), right.to_vec()];
        Some(())
    }),
    ("another character for a sign", |random, _, _, pieces| {
        let signs = places(pieces, b"+-", true);
        let at = *signs.get(random.size(0, signs.len().checked_sub(1)?))?;
        pieces[at] = piece(random.pick(b"*/,.&|^%=:;_\0\xAB\xAD"));
        Some(())
    }),
    ("other brackets", |random, _, _, pieces| {
        let at = word(random, pieces);
        let [open, close] = random.pick(&[*b"[]", *b"{}", *b"<>", *b"(]", *b"[)"]);
        let word = pieces[at].clone();
        pieces.splice(at..=at, [piece(open), word, piece(close)]);
        Some(())
    }),
    (
        "a word of 17 characters or more",
        |random, names, _, pieces| {
            let more = random.pick(&[1, 1, 1, 30]);
            let long = name_of(random, LONGEST_NAME + more);
            let known = names
                .symbols
                .iter()
                .find(|(name, _)| name.len() == LONGEST_NAME);
            // It may begin as a name that is known.
            let other = known.map(|(name, _)| [name, &b"0"[..]].concat());
            let other = other.unwrap_or(long.clone());
            let name = random.pick(&[&long, &other]).clone();
            replace(random, pieces, vec![name]);
            Some(())
        },
    ),
    (
        "a number of nine digits or more",
        |random, _, value, pieces| {
            let width = random.pick(&[9, 9, 9, 20]);
            let number = format!("${value:0width$X}").into_bytes();
            replace(random, pieces, vec![number]);
            Some(())
        },
    ),
    ("a number without digits", |random, _, _, pieces| {
        replace(random, pieces, vec![piece(b'$')]);
        Some(())
    }),
    ("another digit in a number", |random, _, value, pieces| {
        let mut number = digits(random, value >> 4);
        let place = random.size(1, number.len());
        number.insert(place, random.pick(b"GgXxzZ$_"));
        replace(random, pieces, vec![number]);
        Some(())
    }),
    ("a number without its sign", |random, _, value, pieces| {
        let number = format!("0{:X}", value >> 8).into_bytes();
        replace(random, pieces, vec![number]);
        Some(())
    }),
    ("a word with a digit first", |random, names, _, pieces| {
        let mut name = names.known(random).unwrap_or(b"A".to_vec());
        name[0] = random.pick(b"0159");
        replace(random, pieces, vec![name]);
        Some(())
    }),
    ("two words in one", |random, names, value, pieces| {
        let name = names.known(random).unwrap_or(b"A".to_vec());
        let number = digits(random, value);
        let both = random.pick(&[(&name, &number), (&number, &number)]);
        replace(random, pieces, vec![[&both.0[..], both.1].concat()]);
        Some(())
    }),
    (
        "33 open brackets or more",
        |random, names, value, pieces| {
            let more = random.pick(&[1, 1, 1, 1, 2, 40]);
            *pieces = names.nest(random, value, DEEPEST + more);
            Some(())
        },
    ),
    ("a bracket left open", |random, _, _, pieces| {
        let at = word(random, pieces);
        pieces.insert(at, piece(b'('));
        Some(())
    }),
    ("a bracket closed too often", |random, _, _, pieces| {
        let at = word(random, pieces);
        pieces.insert(at + 1, piece(b')'));
        Some(())
    }),
    ("brackets the wrong way round", |random, _, _, pieces| {
        let at = word(random, pieces);
        let word = pieces[at].clone();
        pieces.splice(at..=at, [piece(b')'), word, piece(b'(')]);
        Some(())
    }),
    ("empty brackets", |random, _, _, pieces| {
        let brackets = in_brackets(Vec::new());
        replace(random, pieces, brackets);
        Some(())
    }),
    (
        "empty brackets behind a word",
        |random, _, value, pieces| {
            let words = [vec![digits(random, value)], in_brackets(Vec::new())];
            replace(random, pieces, words.concat());
            Some(())
        },
    ),
    (
        "empty brackets before a word",
        |random, _, value, pieces| {
            let words = [in_brackets(Vec::new()), vec![digits(random, value)]];
            replace(random, pieces, words.concat());
            Some(())
        },
    ),
    ("a sign first", |random, _, _, pieces| {
        pieces.insert(0, sign(random));
        Some(())
    }),
    ("a sign first in brackets", |random, _, value, pieces| {
        let words = vec![sign(random), digits(random, value)];
        replace(random, pieces, in_brackets(words));
        Some(())
    }),
    ("a sign last", |random, _, _, pieces| {
        pieces.push(sign(random));
        Some(())
    }),
    ("a sign last in brackets", |random, _, value, pieces| {
        let words = vec![digits(random, value), sign(random)];
        replace(random, pieces, in_brackets(words));
        Some(())
    }),
    (
        "a sign behind an open bracket",
        |random, _, value, pieces| {
            // As if the brackets were not there.
            let one = vec![digits(random, value)];
            let other = in_brackets(vec![sign(random), digits(random, 1)]);
            replace(random, pieces, [one, other].concat());
            Some(())
        },
    ),
    (
        "a sign before a closed bracket",
        |random, _, value, pieces| {
            let one = in_brackets(vec![digits(random, value), sign(random)]);
            let other = vec![digits(random, 1)];
            replace(random, pieces, [one, other].concat());
            Some(())
        },
    ),
    ("a sign alone", |random, _, _, pieces| {
        *pieces = vec![piece(random.pick(b"+-()"))];
        Some(())
    }),
    ("two signs", |random, _, value, pieces| {
        let words = vec![
            digits(random, value),
            sign(random),
            sign(random),
            digits(random, 1),
        ];
        replace(random, pieces, words);
        Some(())
    }),
    ("no sign before brackets", |random, names, value, pieces| {
        let one = vec![names.word(random, value)];
        let other = in_brackets(one.clone());
        replace(random, pieces, [one, other].concat());
        Some(())
    }),
    ("no sign behind brackets", |random, names, value, pieces| {
        let one = vec![names.word(random, value)];
        let other = in_brackets(one.clone());
        replace(random, pieces, [other, one].concat());
        Some(())
    }),
    (
        "no sign between brackets",
        |random, names, value, pieces| {
            let one = in_brackets(vec![names.word(random, value)]);
            replace(random, pieces, [one.clone(), one].concat());
            Some(())
        },
    ),
    (
        "a bad form with an unknown name",
        |random, names, _, pieces| {
            add_unknown(random, names, pieces);
            bad_form(random, pieces);
            Some(())
        },
    ),
    (
        "a bad form with a sum out of range",
        |random, names, _, pieces| {
            *pieces = names.pair(random, LAST, b'+', 1);
            bad_form(random, pieces);
            Some(())
        },
    ),
    ("a bad form with both", |random, names, _, pieces| {
        *pieces = names.pair(random, 0, b'-', 1);
        add_unknown(random, names, pieces);
        bad_form(random, pieces);
        Some(())
    }),
];

/// Row 26.
const UNKNOWN: &[(&str, Make)] = &[
    ("an unknown name", |random, names, _, pieces| {
        let name = fresh(random, &names.symbols);
        replace(random, pieces, vec![name]);
        Some(())
    }),
    (
        "an unknown name of 16 characters",
        |random, names, _, pieces| {
            let name = names.unknown(name_of(random, LONGEST_NAME))?;
            replace(random, pieces, vec![name]);
            Some(())
        },
    ),
    (
        "an unknown name in 32 brackets",
        |random, names, value, pieces| {
            *pieces = names.nest(random, value, DEEPEST);
            let name = fresh(random, &names.symbols);
            replace(random, pieces, vec![name]);
            Some(())
        },
    ),
    ("a name in the other case", |random, names, _, pieces| {
        let mut name = names.known(random)?;
        let letters = (0..name.len()).filter(|&at| name[at].is_ascii_alphabetic());
        let letters: Vec<usize> = letters.collect();
        name[random.pick(&letters)] ^= 0x20;
        let name = names.unknown(name)?;
        replace(random, pieces, vec![name]);
        Some(())
    }),
    (
        "a name and one character more",
        |random, names, _, pieces| {
            let name = [names.known(random)?, piece(random.pick(b"0A1z"))].concat();
            let name = names.unknown(name)?;
            replace(random, pieces, vec![name]);
            Some(())
        },
    ),
    (
        "a name but its last character",
        |random, names, _, pieces| {
            let mut name = names.known(random)?;
            name.pop();
            let name = names.unknown(name)?;
            replace(random, pieces, vec![name]);
            Some(())
        },
    ),
    ("the first line's name", |random, names, _, pieces| {
        let name = names.unknown(names.module.clone())?;
        replace(random, pieces, vec![name]);
        Some(())
    }),
    ("a value's digits as a name", |random, names, _, pieces| {
        let name = random.pick(&[&b"A"[..], b"FF", b"BEEF", b"f00", b"DEADBEEF"]);
        let name = names.unknown(name.to_vec())?;
        replace(random, pieces, vec![name]);
        Some(())
    }),
    (
        "an unknown name with a sum out of range",
        |random, names, _, pieces| {
            *pieces = match random.below(2) {
                0 => names.pair(random, LAST, b'+', 1),
                _ => names.pair(random, 0, b'-', 1),
            };
            add_unknown(random, names, pieces);
            Some(())
        },
    ),
    (
        "an unknown name before a sum out of range",
        |random, names, _, pieces| {
            let near = names.known(random).unwrap_or(b"A".to_vec());
            let name = names.unknown(similar(random, &near))?;
            let sum = in_brackets(names.pair(random, 0, b'-', 1));
            *pieces = joined(vec![name], b'+', sum);
            Some(())
        },
    ),
];

/// Row 27.
const OUT_OF_RANGE: &[(&str, Make)] = &[
    ("a sum of 2^32", |random, names, _, pieces| {
        let few = random.between(1, 40) as u32;
        let any = random.between(1, u64::from(LAST)) as u32;
        let left = random.pick(&[1, LAST, few, LAST - few, any, 1 << 31]);
        *pieces = names.pair(random, left, b'+', left.wrapping_neg());
        Some(())
    }),
    ("a sum far above", |random, names, _, pieces| {
        let mut large = || random.word() as u32 | 1 << 31;
        let (left, right) = (large(), large());
        *pieces = names.pair(random, left, b'+', right);
        Some(())
    }),
    (
        "a sum of twice the last number",
        |random, names, _, pieces| {
            *pieces = names.pair(random, LAST, b'+', LAST);
            Some(())
        },
    ),
    ("a difference of -1", |random, names, _, pieces| {
        let any = random.below(u64::from(LAST)) as u32;
        let left = random.pick(&[0, any, LAST - 1, 0x7FFF_FFFF]);
        *pieces = names.pair(random, left, b'-', left + 1);
        Some(())
    }),
    ("a difference far below", |random, names, _, pieces| {
        let left = random.below(1 << 31) as u32;
        let right = random.word() as u32 | 1 << 31;
        *pieces = names.pair(random, left, b'-', right);
        Some(())
    }),
    ("a way below 0 and back", |random, names, value, pieces| {
        let most = (LAST - value).min(40);
        let below = random.between(1, u64::from(most.max(1))) as u32;
        let left = random.below(40) as u32;
        let back = value.checked_add(below)?;
        let there = names.pair(random, left, b'-', left + below);
        *pieces = joined(there, b'+', names.term(random, back, 2, 2));
        Some(())
    }),
    (
        "a way above the last number and back",
        |random, names, value, pieces| {
            let above = random.between(1, u64::from(value.clamp(1, 40))) as u32;
            let right = random.between(u64::from(above), 90) as u32;
            let back = (LAST - value).checked_add(above)?;
            let there = names.pair(random, LAST - (right - above), b'+', right);
            *pieces = joined(there, b'-', names.term(random, back, 2, 2));
            Some(())
        },
    ),
    (
        "a way below 0 in brackets",
        |random, names, value, pieces| {
            let below = random.between(1, 40) as u32;
            let left = random.below(40) as u32;
            let word = names.word(random, value.checked_add(below)?);
            let inner = in_brackets(names.pair(random, left, b'-', left + below));
            *pieces = joined(vec![word], b'+', inner);
            Some(())
        },
    ),
    (
        "a way above the last number in brackets",
        |random, names, value, pieces| {
            let above = random.between(1, u64::from(value.clamp(1, 40))) as u32;
            let back = (LAST - value).checked_add(above)?;
            let inner = in_brackets(names.pair(random, LAST, b'+', above));
            *pieces = joined(inner, b'-', vec![names.word(random, back)]);
            Some(())
        },
    ),
    (
        "a difference that is right from the right",
        |random, names, value, pieces| {
            // a - b - c with b above a: from the right it is a - (b - c).
            let more = random.between(1, 40) as u32;
            let middle = value.checked_add(more)?;
            let first = names.pair(random, value, b'-', middle);
            *pieces = joined(first, b'-', vec![names.word(random, middle)]);
            Some(())
        },
    ),
];
