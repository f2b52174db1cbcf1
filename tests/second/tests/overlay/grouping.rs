//! A base image and two patches, in any grouping and order.

use super::{bytes, START};
use second::overlay::{merge, Title};
use second::patches::Held;
use second::reading::{Refusal, HEADER_ROOM};

/// Where the bytes, the header and the entry of each image begin: all differ.
const OWNERS: [u8; 3] = [0x10, 0xA0, 0xC0];

/// All images of two cells, with and without each cell, a header and an entry.
fn images(owner: u8) -> impl Iterator<Item = Held> + Clone {
    (0..16u8).map(move |number| {
        let has = |bit: u8| number >> bit & 1;
        Held {
            memory: bytes(owner, 2),
            marks: vec![has(0), has(1)],
            title: Title {
                header: vec![owner; has(2).into()],
                entry: (has(3) == 1).then_some(owner.into()),
            },
        }
    })
}

/// Each base image with each two patches.
fn groups() -> impl Iterator<Item = [Held; 3]> {
    let [bases, ones, others] = OWNERS.map(images);
    bases.flat_map(move |base| {
        let others = others.clone();
        ones.clone().flat_map(move |one| {
            let base = base.clone();
            let group = move |other| [base.clone(), one.clone(), other];
            others.clone().map(group)
        })
    })
}

/// What a merge leaves, unless it is refused.
fn merged(base: &Held, patch: &Held) -> Option<Held> {
    let mut left = base.clone();
    let (memory, marks) = (&mut left.memory, &mut left.marks);
    let (title, patch_title) = (&base.title, &patch.title);
    let answer = merge(START, memory, marks, title, patch.image(), patch_title);
    left.title = answer.title;
    (answer.refusal == Refusal::default()).then_some(left)
}

/// The patches merged from the left.
fn from_left(base: &Held, [one, other]: [&Held; 2]) -> Option<Held> {
    merged(&merged(base, one)?, other)
}

/// The patches merged first.
fn from_right(base: &Held, [one, other]: [&Held; 2]) -> Option<Held> {
    merged(base, &merged(one, other)?)
}

/// Cells with their bytes, header and entry. Unmarked bytes are left out.
fn content(image: &Held) -> (Vec<Option<u8>>, &Title) {
    (image.image().cells(), &image.title)
}

#[test]
fn groupings_agree() {
    for [base, one, other] in groups() {
        let left = from_left(&base, [&one, &other]).unwrap();
        let right = from_right(&base, [&one, &other]).unwrap();
        assert_eq!(
            content(&left),
            content(&right),
            "{base:?} {one:?} {other:?}"
        );
    }
    assert_eq!(groups().count(), 4_096);
}

#[test]
fn empty_image_changes_nothing() {
    let empty = Held {
        memory: bytes(0xE0, 2),
        marks: vec![0; 2],
        title: Title::default(),
    };
    for image in images(OWNERS[0]) {
        assert_eq!(merged(&image, &empty).unwrap(), image);
        let over = merged(&empty, &image).unwrap();
        assert_eq!(content(&over), content(&image));
        // Unmarked bytes are those of the empty image.
        let bytes = over.memory.iter().zip(&image.marks);
        assert!(bytes
            .into_iter()
            .all(|(byte, mark)| (*byte < 0xE0) == (*mark == 1)));
    }
}

#[test]
fn image_merged_into_itself() {
    for image in images(OWNERS[0]) {
        let mut copy = image.clone();
        let bytes = copy.memory.iter_mut().zip(&image.marks);
        bytes.for_each(|(byte, mark)| *byte += 0xE0 * (1 - mark));
        assert_eq!(merged(&image, &copy).unwrap(), image);
    }
}

/// No two bytes, headers or entries are equal here, so the order matters as soon as
/// both patches have one.
#[test]
fn patches_change_places_unless_both_have_something() {
    for [base, one, other] in groups() {
        let first = from_left(&base, [&one, &other]).unwrap();
        let second = from_left(&base, [&other, &one]).unwrap();
        let same_cell = |index: usize| one.marks[index] == 1 && other.marks[index] == 1;
        let shared = (0..2).any(same_cell);
        let headers = !one.title.header.is_empty() && !other.title.header.is_empty();
        let entries = one.title.entry.is_some() && other.title.entry.is_some();
        let matters = shared || headers || entries;
        let agree = content(&first) == content(&second);
        assert_eq!(agree, !matters, "{base:?} {one:?} {other:?}");
    }
}

/// Something wrong with any one image: no grouping and no order is accepted.
#[test]
fn refused_in_every_grouping() {
    let faults: [fn(&mut Held); 4] = [
        |image| image.memory.push(0),
        |image| image.marks.truncate(1),
        |image| image.marks[1] = 2,
        |image| image.title.header = vec![0; HEADER_ROOM + 1],
    ];
    for fault in faults {
        for wrong in 0..3 {
            let [mut base, mut one, mut other] = groups().last().unwrap();
            fault([&mut base, &mut one, &mut other][wrong]);
            assert_eq!(from_left(&base, [&one, &other]), None);
            assert_eq!(from_right(&base, [&one, &other]), None);
            assert_eq!(from_left(&base, [&other, &one]), None);
        }
    }
}
