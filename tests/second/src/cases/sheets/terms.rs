//! Addresses as text: expressions of a value that is known.

use super::blocks::{digits, Block, Symbol};
use crate::expressions::DEEPEST;
use crate::random::Random;
use crate::symbols::LONGEST_NAME;

/// Words, signs and brackets, one by one.
pub type Pieces = Vec<Vec<u8>>;

/// The largest number.
pub const LAST: u32 = u32::MAX;

/// What words can be made of.
pub struct Names {
    pub symbols: Vec<Symbol>,
    pub module: Vec<u8>,
}

pub fn piece(character: u8) -> Vec<u8> {
    vec![character]
}

pub fn in_brackets(inner: Pieces) -> Pieces {
    [vec![piece(b'(')], inner, vec![piece(b')')]].concat()
}

pub fn joined(left: Pieces, sign: u8, right: Pieces) -> Pieces {
    [left, vec![piece(sign)], right].concat()
}

impl Names {
    pub fn of(block: &Block) -> Names {
        Names {
            symbols: block.symbols(),
            module: block.module.clone(),
        }
    }

    /// An expression of this value. A long one has 256 characters or more.
    pub fn expression(&self, random: &mut Random, value: u32, long: bool) -> Pieces {
        match random.below(12) {
            _ if long => self.sum(random, value, 150, 3),
            0..=2 => vec![self.word(random, value)],
            3 => self.nest(random, value, DEEPEST),
            4 => {
                let depth = random.size(1, DEEPEST);
                self.nest(random, value, depth)
            }
            _ => {
                let steps = random.size(0, 5);
                self.sum(random, value, steps, 4)
            }
        }
    }

    /// A name of this value, if there is one, or a number.
    pub fn word(&self, random: &mut Random, value: u32) -> Vec<u8> {
        let named: Vec<&Symbol> = self.symbols.iter().filter(|(_, v)| *v == value).collect();
        match named[..] {
            [] => digits(random, value),
            _ if random.chance(1, 4) => digits(random, value),
            _ => random.pick(&named).0.clone(),
        }
    }

    /// Two values and a sign that give this one. Often one of them has a name.
    fn step(&self, random: &mut Random, value: u32) -> (u32, u8, u32) {
        let other = match self.symbols[..] {
            [_, ..] if random.chance(3, 4) => {
                self.symbols[random.size(0, self.symbols.len() - 1)].1
            }
            _ => {
                let few = random.below(9) as u32;
                let any = random.word() as u32;
                random.pick(&[0, 1, few, any, value, LAST])
            }
        };
        let left = match other <= value {
            true => (other, b'+', value - other),
            false => (other, b'-', other - value),
        };
        let plus = value.checked_sub(other).map(|rest| (rest, b'+', other));
        let minus = value.checked_add(other).map(|sum| (sum, b'-', other));
        random.pick(&[left, plus.unwrap_or(left), minus.unwrap_or(left)])
    }

    /// A sum of about so many steps, with brackets up to a depth.
    fn sum(&self, random: &mut Random, value: u32, steps: usize, deep: usize) -> Pieces {
        if steps == 0 {
            return self.term(random, value, 0, deep);
        }
        let (left, sign, right) = self.step(random, value);
        let left = self.sum(random, left, steps - 1, deep);
        let right = self.term(random, right, steps.min(3), deep);
        joined(left, sign, right)
    }

    pub fn term(&self, random: &mut Random, value: u32, steps: usize, deep: usize) -> Pieces {
        if deep > 0 && random.chance(1, 4) {
            return in_brackets(self.sum(random, value, steps / 2, deep - 1));
        }
        vec![self.word(random, value)]
    }

    /// An expression in which just so many brackets are open at once.
    pub fn nest(&self, random: &mut Random, value: u32, depth: usize) -> Pieces {
        if depth == 0 {
            return vec![self.word(random, value)];
        }
        let (left, sign, right) = self.step(random, value);
        match random.below(12) {
            0 => {
                let left = vec![self.word(random, left)];
                joined(left, sign, in_brackets(self.nest(random, right, depth - 1)))
            }
            1 => {
                let left = in_brackets(self.nest(random, left, depth - 1));
                joined(left, sign, vec![self.word(random, right)])
            }
            _ => in_brackets(self.nest(random, value, depth - 1)),
        }
    }

    /// The words of two values, with a sign between.
    pub fn pair(&self, random: &mut Random, left: u32, sign: u8, right: u32) -> Pieces {
        let steps = random.pick(&[0, 0, 1, 3]);
        let left = self.sum(random, left, steps, 2);
        joined(left, sign, self.term(random, right, 2, 2))
    }

    fn knows(&self, name: &[u8]) -> bool {
        self.symbols.iter().any(|(known, _)| known == name)
    }

    /// This name, which is right but has no value. None if it has one, or is none.
    pub fn unknown(&self, name: Vec<u8>) -> Option<Vec<u8>> {
        let fits = !name.is_empty() && name.len() <= LONGEST_NAME;
        (fits && !self.knows(&name)).then_some(name)
    }

    /// A name that has a value.
    pub fn known(&self, random: &mut Random) -> Option<Vec<u8>> {
        let last = self.symbols.len().checked_sub(1)?;
        Some(self.symbols[random.size(0, last)].0.clone())
    }
}
