//! A base image and two patches of one window, and two more images that change
//! nothing, to be put together in any grouping and order.

use super::{any_image, any_length, any_start, spoil};
use crate::cases::TOP;
use crate::form::Form;
use crate::overlay::Title;
use crate::patches::Held;
use crate::random::Random;
use crate::reading::HEADER_ROOM;

#[derive(Clone, Debug, PartialEq, Eq)]
pub struct Group {
    pub name: String,
    pub start: u32,
    pub base: Held,
    pub patches: [Held; 2],
    /// Without cells, header and entry; its memory holds anything.
    pub empty: Held,
    /// The base image again, with other bytes where it is unmarked.
    pub copy: Held,
}

impl Group {
    pub fn images(&self) -> [&Held; 3] {
        let [one, other] = &self.patches;
        [&self.base, one, other]
    }

    /// All three are alike in lengths, with clean marks and short headers, and the
    /// window fits: nothing is there to refuse.
    pub fn is_right(&self) -> bool {
        let length = self.base.memory.len();
        let right = |image: &Held| {
            image.memory.len() == length
                && image.marks.len() == length
                && image.marks.iter().all(|&mark| mark <= 1)
                && image.title.header.len() <= HEADER_ROOM
        };
        self.images().into_iter().all(right) && u64::from(self.start) + length as u64 <= TOP
    }
}

/// Mostly three images to which no row applies.
pub fn group(seed: u64, index: u64) -> Group {
    let random = &mut Random::new(seed, index);
    let length = any_length(random);
    let start = any_start(random, length);
    let mut images = [(); 3].map(|()| any_image(random, Form::Bytes, length));
    let [_, one, other] = &mut images;
    relate(random, one, other);
    for image in &mut images {
        if random.chance(1, 4) {
            spoil(random, Form::Bytes, image);
        }
    }
    let [base, one, other] = images;
    Group {
        name: format!("seed {seed}, index {index}"),
        start,
        empty: empty(random, &base),
        copy: copy(random, &base),
        base,
        patches: [one, other],
    }
}

/// What rarely comes up by chance: patches that may change places, and patches
/// with one thing alone in the way, which is equal in both at times.
fn relate(random: &mut Random, one: &mut Held, other: &mut Held) {
    let way = random.below(10);
    if way < 3 {
        return;
    }
    set_apart(random, one, other);
    let other_bit = u8::from(random.chance(3, 4)) << random.below(8);
    match way {
        3 | 4 if !one.memory.is_empty() => {
            let index = random.size(0, one.memory.len() - 1);
            (one.marks[index], other.marks[index]) = (1, 1);
            other.memory[index] = one.memory[index] ^ other_bit;
        }
        5 => {
            let length = random.size(1, 4);
            one.title.header = random.bytes(length);
            other.title.header.clone_from(&one.title.header);
            match random.below(2) {
                0 => other.title.header[0] ^= other_bit,
                // One that is longer by a zero is another one.
                _ => other.title.header.extend((other_bit > 0).then_some(0)),
            }
        }
        6 => {
            let entry = random.word() as u32;
            one.title.entry = Some(entry);
            other.title.entry = Some(entry ^ u32::from(other_bit) << (8 * random.below(4)));
        }
        _ => {}
    }
}

/// Takes from one of both what both have.
fn set_apart(random: &mut Random, one: &mut Held, other: &mut Held) {
    for (mark, other_mark) in one.marks.iter_mut().zip(&mut other.marks) {
        if *mark == 1 && *other_mark == 1 {
            *random_of(random, mark, other_mark) = 0;
        }
    }
    let (one, other) = (&mut one.title, &mut other.title);
    random_of(random, &mut one.header, &mut other.header).clear();
    *random_of(random, &mut one.entry, &mut other.entry) = None;
}

fn random_of<'a, T>(random: &mut Random, one: &'a mut T, other: &'a mut T) -> &'a mut T {
    if random.chance(1, 2) {
        one
    } else {
        other
    }
}

fn empty(random: &mut Random, image: &Held) -> Held {
    Held {
        memory: random.bytes(image.memory.len()),
        marks: vec![0; image.marks.len()],
        title: Title::default(),
    }
}

fn copy(random: &mut Random, image: &Held) -> Held {
    let mut copy = image.clone();
    for (byte, mark) in copy.memory.iter_mut().zip(&image.marks) {
        if *mark == 0 {
            *byte = random.byte();
        }
    }
    copy
}
