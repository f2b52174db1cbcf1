//! Buffers that lie between bytes of a known pattern.

use second::random::Random;

/// The pattern's bytes on each side, more than a wide register holds.
const GUARD: usize = 128;

/// A buffer starts at any distance from a multiple of this.
const ALIGNMENT: usize = 64;

/// A buffer for the library, inside a larger one.
pub struct Guarded {
    whole: Vec<u8>,
    start: usize,
    length: usize,
    key: u8,
}

impl Guarded {
    /// A copy of `content`. Its start and the pattern round it are drawn.
    pub fn new(random: &mut Random, content: &[u8]) -> Guarded {
        let mut buffer = Guarded::unset(random, content.len());
        buffer.bytes_mut().copy_from_slice(content);
        buffer
    }

    /// A buffer that holds nothing but the pattern.
    pub fn unset(random: &mut Random, length: usize) -> Guarded {
        let key = random.byte();
        let size = 2 * GUARD + 2 * ALIGNMENT + length;
        let whole: Vec<u8> = (0..size).map(|index| pattern(index, key)).collect();
        let aligned = whole.as_ptr().align_offset(ALIGNMENT);
        let start = GUARD + aligned + random.size(0, ALIGNMENT - 1);
        Guarded {
            whole,
            start,
            length,
            key,
        }
    }

    pub fn bytes(&self) -> &[u8] {
        &self.whole[self.start..self.start + self.length]
    }

    pub fn bytes_mut(&mut self) -> &mut [u8] {
        &mut self.whole[self.start..self.start + self.length]
    }

    /// Says what is wrong if the bytes are not those wanted or the pattern on
    /// either side was touched.
    pub fn expect(&self, name: &str, wanted: &[u8]) -> Result<(), String> {
        let end = self.start + self.length;
        for (index, &byte) in self.whole.iter().enumerate() {
            if index < self.start && byte != pattern(index, self.key) {
                let before = self.start - index;
                return Err(format!("{name}: the byte {before} before it was changed"));
            }
            if index >= end && byte != pattern(index, self.key) {
                let after = index - end;
                return Err(format!(
                    "{name}: the byte at its length + {after} was changed"
                ));
            }
        }
        match first_difference(self.bytes(), wanted) {
            None => Ok(()),
            Some(index) => Err(format!(
                "{name}: byte {index} is {:02X?}, not {:02X?}",
                self.bytes().get(index),
                wanted.get(index)
            )),
        }
    }
}

/// A neighbour has another byte, and so has the same place in most buffers.
fn pattern(index: usize, key: u8) -> u8 {
    (index as u8).wrapping_mul(37) ^ key
}

fn first_difference(left: &[u8], right: &[u8]) -> Option<usize> {
    if left == right {
        return None;
    }
    let common = left.len().min(right.len());
    let index = (0..common).find(|&index| left[index] != right[index]);
    Some(index.unwrap_or(common))
}

/// Whether a byte changed in, before or behind a buffer is noticed.
pub fn guards_notice() -> Result<String, String> {
    let random = &mut Random::new(0, 0);
    let mut starts = [false; ALIGNMENT];
    for length in 0..1_000 {
        let content = random.bytes(length);
        let mut buffer = Guarded::new(random, &content);
        starts[buffer.bytes().as_ptr() as usize % ALIGNMENT] = true;
        buffer.expect("untouched buffer", &content)?;
        let first = buffer.start - GUARD;
        let place = random.size(first, buffer.start + length + GUARD - 1);
        for place in [buffer.start - 1, buffer.start + length, place] {
            buffer.whole[place] ^= 1;
            if buffer.expect("", &content).is_ok() {
                return Err(format!("place {place} of a buffer of {length} bytes"));
            }
            buffer.whole[place] ^= 1;
        }
    }
    if starts.contains(&false) {
        return Err("some start never came up".to_string());
    }
    Ok("a changed byte is noticed in, before and behind buffers at every start".to_string())
}
