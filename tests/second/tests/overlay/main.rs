//! A patch over a base image, with the answers worked out by hand from the request.

mod drawn;
mod grouping;
mod looks;
mod merges;
mod refusals;

use second::overlay::{look, merge, Image, Merged, Title, Word};
use second::reading::Refusal;

/// Where the windows start, unless a test is about that.
const START: u32 = 0x100;

/// Both images with buffers of their own.
#[derive(Clone, Debug, Default, PartialEq, Eq)]
struct Both {
    start: u32,
    memory: Vec<u8>,
    marks: Vec<u8>,
    title: Title,
    patch_memory: Vec<u8>,
    patch_marks: Vec<u8>,
    patch_title: Title,
}

/// Marks, one for each character: `x` is 1 and `.` is 0.
fn marks(drawn: &str) -> Vec<u8> {
    drawn.bytes().map(|c| u8::from(c == b'x')).collect()
}

/// So many bytes, counted up from the first.
fn bytes(first: u8, length: usize) -> Vec<u8> {
    (first..).take(length).collect()
}

impl Both {
    /// The base's bytes are 10, 11 and so on, those of the patch A0, A1 and so on.
    fn of(base: &str, patch: &str) -> Both {
        Both {
            start: START,
            memory: bytes(0x10, base.len()),
            marks: marks(base),
            patch_memory: bytes(0xA0, patch.len()),
            patch_marks: marks(patch),
            ..Both::default()
        }
    }

    fn titled(mut self, base: (&[u8], Option<u32>), patch: (&[u8], Option<u32>)) -> Both {
        let title = |(header, entry): (&[u8], Option<u32>)| Title {
            header: header.to_vec(),
            entry,
        };
        (self.title, self.patch_title) = (title(base), title(patch));
        self
    }

    fn base(&self) -> Image<'_> {
        Image {
            memory: &self.memory,
            marks: &self.marks,
        }
    }

    fn patch(&self) -> Image<'_> {
        Image {
            memory: &self.patch_memory,
            marks: &self.patch_marks,
        }
    }

    fn look(&self, address: u32) -> (&[u8], Word) {
        look(self.start, self.base(), self.patch(), address)
    }

    /// Looks at a cell of the window.
    fn at(&self, index: usize) -> (&[u8], Word) {
        self.look(self.start + index as u32)
    }

    fn merge(&mut self) -> Merged {
        let patch = Image {
            memory: &self.patch_memory,
            marks: &self.patch_marks,
        };
        let (memory, marks) = (&mut self.memory, &mut self.marks);
        merge(
            self.start,
            memory,
            marks,
            &self.title,
            patch,
            &self.patch_title,
        )
    }

    /// Merges, with the answer's header and entry as those of the base from now on.
    fn accept(&mut self) {
        let merged = self.merge();
        assert_eq!(merged.refusal, Refusal::default());
        self.title = merged.title;
    }
}

fn row(number: u32, place: usize) -> Refusal {
    Refusal {
        number,
        record: 0,
        place,
        want: 0,
    }
}

/// All marks of a window with so many cells: each cell in four ways.
fn all_marks(length: usize) -> impl Iterator<Item = Both> {
    (0..1u32 << (2 * length)).map(move |number| {
        let drawn = |shift: usize| -> String {
            let bit = |index: usize| number >> (2 * index + shift) & 1;
            let sign = |index| if bit(index) == 1 { 'x' } else { '.' };
            (0..length).map(sign).collect()
        };
        Both::of(&drawn(0), &drawn(1))
    })
}
