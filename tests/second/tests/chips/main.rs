//! Images over chips, with the answers worked out by hand from the request.

mod cells;
mod drawn;
mod refusals;
mod rounds;

use second::chips::{collect, deal, Buffers, Collected, CHIPS};
use second::overlay::Title;
use second::reading::Refusal;

/// Where the whole starts, unless a test is about that. Two and four chips divide it.
const BASE: u32 = 0x104;

/// How many chips there can be.
const NUMBERS: [u32; 2] = [2, 4];

/// A whole and its chips, with buffers of their own.
#[derive(Clone, Debug, PartialEq, Eq)]
struct Board {
    k: u32,
    base: u32,
    whole: Buffers,
    chips: [Buffers; CHIPS],
}

/// Marks, one for each character: `x` is 1, `.` is 0 and `?` neither.
fn marks(drawn: &str) -> Vec<u8> {
    let mark = |c: char| match c {
        'x' => 1,
        '.' => 0,
        _ => 0xFF,
    };
    drawn.chars().map(mark).collect()
}

/// So many bytes, counted up from the first, and from 0 behind FF.
fn bytes(first: u8, length: usize) -> Vec<u8> {
    (0..length).map(|i| first.wrapping_add(i as u8)).collect()
}

impl Board {
    /// So many cells a chip. The whole has bytes from 10 on, the chips those from A0,
    /// B0, C0 and D0 on, and each mark is 0.
    fn of(k: u32, cells: usize) -> Board {
        let buffers = |first: u8, length: usize| Buffers {
            memory: bytes(first, length),
            marks: vec![0; length],
        };
        let mut chips: [Buffers; CHIPS] = Default::default();
        for (chip, first) in chips
            .iter_mut()
            .zip([0xA0, 0xB0, 0xC0, 0xD0])
            .take(k as usize)
        {
            *chip = buffers(first, cells);
        }
        Board {
            k,
            base: BASE,
            whole: buffers(0x10, k as usize * cells),
            chips,
        }
    }

    /// The same with other marks in the whole.
    fn marked(mut self, drawn: &str) -> Board {
        self.whole.marks = marks(drawn);
        self
    }

    /// The same with other marks in the chips that are used.
    fn chips_marked<const K: usize>(mut self, drawn: [&str; K]) -> Board {
        for (chip, drawn) in self.chips.iter_mut().zip(drawn) {
            chip.marks = marks(drawn);
        }
        self
    }

    /// The same at another address.
    fn at(mut self, base: u32) -> Board {
        self.base = base;
        self
    }

    fn deal(&mut self) -> Refusal {
        deal(self.k, self.base, &self.whole, &mut self.chips)
    }

    fn collect(&mut self) -> Collected {
        collect(self.k, self.base, &mut self.whole, &self.chips)
    }

    fn accept_deal(&mut self) {
        assert_eq!(self.deal(), Refusal::default());
    }

    fn accept_collect(&mut self) {
        let wanted = Collected {
            refusal: Refusal::default(),
            title: Title::default(),
        };
        assert_eq!(self.collect(), wanted);
    }

    /// Puts other bytes and marks into the whole.
    fn overwrite_whole(&mut self) {
        let length = self.whole.memory.len();
        self.whole.memory = (0..length).map(|i| 0xF0_u8.wrapping_sub(i as u8)).collect();
        self.whole.marks = (0..length).map(|i| [1, 0xFF, 0, 2][i % 4]).collect();
    }

    /// Puts other bytes and marks into the chips.
    fn overwrite_chips(&mut self) {
        for (chip, first) in self.chips.iter_mut().zip([0x30, 0x50, 0x70, 0x90]) {
            let length = chip.memory.len();
            chip.memory = bytes(first, length);
            chip.marks = (0..length).map(|i| [2, 1, 0xFF, 0][i % 4]).collect();
        }
    }
}

fn row(number: u32, place: usize) -> Refusal {
    Refusal {
        number,
        record: 0,
        place,
        want: 0,
    }
}

/// All ways to mark so many cells.
fn all_marks(length: usize) -> impl Iterator<Item = Vec<u8>> {
    (0..1u32 << length).map(move |number| {
        let mark = |index: usize| (number >> index & 1) as u8;
        (0..length).map(mark).collect()
    })
}

/// Marks that follow no row: every third is 0, beginning with the first, or the other
/// way around.
fn scattered(length: usize) -> [Vec<u8>; 2] {
    let marks = |other: u8| (0..length).map(move |i| u8::from(i % 3 != 0) ^ other);
    [marks(0).collect(), marks(1).collect()]
}
