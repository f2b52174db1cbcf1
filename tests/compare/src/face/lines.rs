//! Lines of a text, and the cells that they would address, by a reading of its own.

use super::Face;
use std::ops::Range;

/// A line, the place of its first character, and its number from 1.
pub struct Line<'a> {
    pub number: usize,
    pub place: usize,
    pub line: &'a [u8],
}

pub fn lines<'a>(face: &Face, text: &'a [u8]) -> Vec<Line<'a>> {
    let mut found: Vec<Line> = Vec::new();
    let mut start = None;
    for place in 0..=text.len() {
        let ends = text.get(place).is_none_or(|c| face.separators.contains(c));
        match (start, ends) {
            (None, false) => start = Some(place),
            (Some(first), true) => {
                let number = found.len() + 1;
                let line = &text[first..place];
                found.push(Line {
                    number,
                    place: first,
                    line,
                });
                start = None;
            }
            _ => {}
        }
    }
    found
}

impl Line<'_> {
    /// The addresses of a data line, none if its form is not one.
    pub fn cells(&self) -> Option<Range<u64>> {
        let (width, data) = match self.line {
            [b'S', kind @ b'1'..=b'3', rest @ ..] => {
                let width = usize::from(kind - b'0') + 1;
                (
                    width,
                    self.number(rest, 0, 1)?.checked_sub(width as u64 + 1)?,
                )
            }
            [b';', rest @ ..] => match self.number(rest, 0, 1)? {
                0 => return None,
                length => (2, length),
            },
            _ => return None,
        };
        let rest = &self.line[if self.line[0] == b'S' { 2 } else { 1 }..];
        let address = self.number(rest, 1, width)?;
        Some(address..address + data)
    }

    /// The number in so many byte pairs behind the first ones.
    fn number(&self, rest: &[u8], first: usize, pairs: usize) -> Option<u64> {
        let digits = rest.get(2 * first..2 * (first + pairs))?;
        u64::from_str_radix(std::str::from_utf8(digits).ok()?, 16).ok()
    }
}
