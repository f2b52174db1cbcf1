//! The value of an address expression.
//!
//! A text is cut into words, signs and brackets. Then it is gone through once for
//! each of the rows 25, 26 and 27: its form, its names and its sums. Nothing here
//! calls itself; open brackets are counted, or lie on a stack.

use crate::symbols::{is_name, number, Symbols};

/// How many brackets can be open at once.
pub const DEEPEST: usize = 32;

/// A word, a sign or a bracket.
enum Piece<W> {
    Word(W),
    Plus,
    Minus,
    Open,
    Close,
}

enum Word<'a> {
    Number(u32),
    Name(&'a [u8]),
}

/// The value of an expression, or the number of the first row that applies.
pub fn value(text: &[u8], symbols: &Symbols) -> Result<u32, u32> {
    let pieces = pieces(text).filter(|pieces| is_expression(pieces));
    let pieces = pieces.ok_or(25u32)?;
    let numbers = numbers(&pieces, symbols).ok_or(26u32)?;
    total(&numbers).ok_or(27)
}

/// None if a word is neither a number nor a name. Words are all that stands between
/// signs and brackets, so that a character with no meaning is part of a word.
fn pieces(text: &[u8]) -> Option<Vec<Piece<Word<'_>>>> {
    let mut pieces = Vec::new();
    let mut rest = text;
    while let Some(&first) = rest.first() {
        let (piece, length) = match first {
            b'+' => (Piece::Plus, 1),
            b'-' => (Piece::Minus, 1),
            b'(' => (Piece::Open, 1),
            b')' => (Piece::Close, 1),
            _ => {
                let end = rest.iter().position(|c| b"+-()".contains(c));
                let length = end.unwrap_or(rest.len());
                (Piece::Word(word(&rest[..length])?), length)
            }
        };
        pieces.push(piece);
        rest = &rest[length..];
    }
    Some(pieces)
}

fn word(word: &[u8]) -> Option<Word<'_>> {
    match number(word) {
        Some(value) => Some(Word::Number(value)),
        None => is_name(word).then_some(Word::Name(word)),
    }
}

/// Terms with a sign between each two; a term may be an expression in brackets.
fn is_expression<W>(pieces: &[Piece<W>]) -> bool {
    let mut open = 0;
    // Whether a term was just read, so that a sign can follow but no other term.
    let mut behind_term = false;
    for piece in pieces {
        match piece {
            Piece::Word(_) if !behind_term => behind_term = true,
            Piece::Plus | Piece::Minus if behind_term => behind_term = false,
            Piece::Open if !behind_term && open < DEEPEST => open += 1,
            // What was in the brackets is a term itself.
            Piece::Close if behind_term && open > 0 => open -= 1,
            _ => return false,
        }
    }
    behind_term && open == 0
}

/// The same with a number for each word. None if a name has no value.
fn numbers(pieces: &[Piece<Word>], symbols: &Symbols) -> Option<Vec<Piece<u32>>> {
    let number = |piece: &Piece<Word>| match piece {
        Piece::Word(Word::Number(value)) => Some(Piece::Word(*value)),
        Piece::Word(Word::Name(name)) => symbols.get(*name).copied().map(Piece::Word),
        Piece::Plus => Some(Piece::Plus),
        Piece::Minus => Some(Piece::Minus),
        Piece::Open => Some(Piece::Open),
        Piece::Close => Some(Piece::Close),
    };
    pieces.iter().map(number).collect()
}

/// A sum in the making: what it is so far, and whether the next term is taken away.
#[derive(Default)]
struct Sum {
    so_far: u32,
    minus: bool,
}

impl Sum {
    /// None if the result is below 0, or above what 32 bits hold.
    fn take(&mut self, term: u32) -> Option<()> {
        self.so_far = match self.minus {
            true => self.so_far.checked_sub(term),
            false => self.so_far.checked_add(term),
        }?;
        Some(())
    }
}

/// The value of an expression without names. None if some result on the way is out
/// of range.
fn total(pieces: &[Piece<u32>]) -> Option<u32> {
    // The sums that brackets keep waiting, and the one that is read now.
    let mut waiting: Vec<Sum> = Vec::new();
    let mut sum = Sum::default();
    for piece in pieces {
        match piece {
            Piece::Word(value) => sum.take(*value)?,
            Piece::Plus => sum.minus = false,
            Piece::Minus => sum.minus = true,
            Piece::Open => waiting.push(std::mem::take(&mut sum)),
            Piece::Close => {
                let inner = std::mem::replace(&mut sum, waiting.pop()?);
                sum.take(inner.so_far)?;
            }
        }
    }
    Some(sum.so_far)
}
