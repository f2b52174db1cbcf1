//! What comes up in a case of chips.

use super::ROW;
use crate::cases::TOP;
use crate::chips::CHIPS;
use crate::deals::{Bench, Case, Command, CELLS};

/// Which of the two a command does.
#[derive(Clone, Copy, Debug, PartialEq, Eq)]
pub enum Call {
    Deal,
    Collect,
}

pub const CALLS: [Call; 2] = [Call::Deal, Call::Collect];

impl Call {
    pub fn other(self) -> Call {
        match self {
            Call::Deal => Call::Collect,
            Call::Collect => Call::Deal,
        }
    }

    pub fn command(self, k: u32) -> Command {
        match self {
            Call::Deal => Command::Deal(k),
            Call::Collect => Command::Collect(k),
        }
    }

    /// What a command does, and with how many chips.
    fn of(command: &Command) -> Option<(Call, u32)> {
        match command {
            Command::Deal(k) => Some((Call::Deal, *k)),
            Command::Collect(k) => Some((Call::Collect, *k)),
            _ => None,
        }
    }

    /// What must come up in so many calls of it.
    pub fn wanted(self) -> Vec<String> {
        let own = match self {
            Call::Deal => &DEALS[..],
            Call::Collect => &COLLECTS,
        };
        let others = OTHERS.iter().chain(own).map(|way| way.to_string());
        let over = OVER.iter().flat_map(|way| [2, 4].map(|k| over(way, k)));
        others.chain(over).collect()
    }
}

/// What comes up with two chips, and with four. Rows are those that apply alone, and
/// by this alone.
const OVER: [&str; 22] = [
    "no cells",
    "short row alone",
    "full rows",
    "short last row",
    "one cell in the last row",
    "last row one cell short",
    "all the room",
    "window from 0",
    "window up to the top",
    "row 21 by the base",
    "row 21 by the length",
    "row 1 by the top",
    "row 1 by the whole marks",
    "row 1 by the memory of chip 0",
    "row 1 by the memory of chip 1",
    "row 1 by the memory of chip 2",
    "row 1 by the memory of chip 3",
    "row 1 by the marks of chip 0",
    "row 1 by the marks of chip 1",
    "row 1 by the marks of chip 2",
    "row 1 by the marks of chip 3",
    "row 16 by the sending marks",
];

/// What else comes up in both calls.
const OTHERS: [&str; 19] = [
    "row 21 by 0 chips",
    "row 21 by 1 chip",
    "row 21 by 3 chips",
    "row 21 by more than 4 chips",
    "rows 21 and 1",
    "rows 21 and 16",
    "rows 1 and 16",
    "rows 21, 1 and 16",
    "unmarked byte stayed",
    "receiving mark of 1 cleared",
    "receiving mark above 1 cleared",
    "receiving mark above 1 set to 1",
    "no cell marked",
    "every cell marked",
    "behind the same call",
    "behind the other call",
    "behind a refused call",
    "sender shown behind it",
    "sender shown behind a refusal",
];

/// The bad marks of a deal to which no other row applies.
const DEALS: [&str; 4] = [
    "bad mark first",
    "bad mark last",
    "two bad marks",
    "bad mark of a lower chip behind another",
];

/// The bad marks of a collect to which no other row applies.
const COLLECTS: [&str; 6] = [
    "bad marks in chip 0 alone",
    "bad marks in chip 1 alone",
    "bad marks in chip 2 alone",
    "bad marks in chip 3 alone",
    "two bad marks in a chip",
    "bad marks in two chips, lower in the higher one",
];

fn over(way: &str, k: u32) -> String {
    format!("{way}, {k} chips")
}

/// Which of these come up, with the call; some can be told more than once.
pub fn ways(case: &Case) -> Vec<(Call, String)> {
    let mut bench = Bench::new(case.base);
    let mut before = None;
    let mut found = Vec::new();
    for command in &case.commands {
        match Call::of(command) {
            Some((call, k)) => {
                let seen = Seen {
                    call,
                    k,
                    bench: &bench,
                };
                let reasons = seen.reasons();
                let now = Before {
                    call,
                    accepted: reasons.is_empty(),
                    untouched: true,
                };
                let mut ways = seen.rows(&reasons);
                if now.accepted {
                    ways.extend(seen.window());
                    ways.extend(seen.cells());
                }
                found.extend(ways.into_iter().map(|way| (call, way)));
                found.extend(before.and_then(|before: Before| before.then(&now)));
                before = Some(now);
            }
            None => before = before.map(Before::touch),
        }
        bench.run(command);
    }
    found
}

/// A call that was made, and whether no buffer was set since.
#[derive(Clone, Copy)]
struct Before {
    call: Call,
    accepted: bool,
    untouched: bool,
}

impl Before {
    fn touch(self) -> Before {
        Before {
            untouched: false,
            ..self
        }
    }

    /// What two calls are to each other. A refused one prints the buffers that the
    /// other one sends.
    fn then(self, next: &Before) -> Option<(Call, String)> {
        let same = self.call == next.call;
        let (call, way) = match (self.accepted, next.accepted) {
            (true, true) if same => (next.call, "behind the same call"),
            (true, true) => (next.call, "behind the other call"),
            (false, true) => (next.call, "behind a refused call"),
            _ if same || !self.untouched => return None,
            (true, false) => (self.call, "sender shown behind it"),
            (false, false) => (self.call, "sender shown behind a refusal"),
        };
        Some((call, way.to_string()))
    }
}

/// Those that were seen.
fn of<const N: usize>(ways: [(&str, bool); N]) -> Vec<String> {
    let seen = ways.into_iter().filter(|(_, seen)| *seen);
    seen.map(|(way, _)| way.to_string()).collect()
}

fn bad_marks(marks: &[u8]) -> Vec<usize> {
    let indices = (0..marks.len()).filter(|&index| marks[index] > 1);
    indices.collect()
}

/// A call, and all buffers before it.
struct Seen<'a> {
    call: Call,
    k: u32,
    bench: &'a Bench,
}

impl Seen<'_> {
    fn length(&self) -> usize {
        self.bench.whole.memory.len()
    }

    /// Where the window would end.
    fn end(&self) -> u64 {
        u64::from(self.bench.base) + self.length() as u64
    }

    /// The marks of the side that sends.
    fn sending(&self) -> Vec<&[u8]> {
        match self.call {
            Call::Deal => vec![&self.bench.whole.marks],
            Call::Collect => self
                .bench
                .chips
                .iter()
                .map(|chip| &chip.marks[..])
                .collect(),
        }
    }

    /// Each row that applies, by each thing that makes it apply.
    fn reasons(&self) -> Vec<(u32, String)> {
        let mut reasons = Vec::new();
        let mut tell = |row: u32, by: String, applies: bool| {
            reasons.extend(applies.then_some((row, by)));
        };
        let (k, length) = (self.k as usize, self.length());
        match k {
            2 | 4 => {
                let base = self.bench.base as usize;
                tell(21, "the base".to_string(), !base.is_multiple_of(k));
                tell(21, "the length".to_string(), !length.is_multiple_of(k));
                for number in 0..CHIPS {
                    let chip = &self.bench.chips[number];
                    let cells = if number < k { length / k } else { 0 };
                    let memory = chip.memory.len() != cells;
                    tell(1, format!("the memory of chip {number}"), memory);
                    let marks = chip.marks.len() != cells;
                    tell(1, format!("the marks of chip {number}"), marks);
                }
            }
            1 => tell(21, "1 chip".to_string(), true),
            0 | 3 => tell(21, format!("{k} chips"), true),
            _ => tell(21, "more than 4 chips".to_string(), true),
        }
        tell(1, "the top".to_string(), self.end() > TOP);
        let marks = self.bench.whole.marks.len() != length;
        tell(1, "the whole marks".to_string(), marks);
        let bad = self
            .sending()
            .iter()
            .any(|marks| !bad_marks(marks).is_empty());
        tell(16, "the sending marks".to_string(), bad);
        reasons
    }

    /// The row that applies by one thing alone, or the rows where there are several.
    fn rows(&self, reasons: &[(u32, String)]) -> Vec<String> {
        let has = |row: u32| reasons.iter().any(|(other, _)| *other == row);
        match [21, 1, 16].map(has) {
            [true, true, true] => vec!["rows 21, 1 and 16".to_string()],
            [true, true, false] => vec!["rows 21 and 1".to_string()],
            [true, false, true] => vec!["rows 21 and 16".to_string()],
            [false, true, true] => vec!["rows 1 and 16".to_string()],
            [false, false, true] => [vec![self.row(&reasons[0])], self.marks()].concat(),
            _ if reasons.len() == 1 => vec![self.row(&reasons[0])],
            _ => Vec::new(),
        }
    }

    fn row(&self, (row, by): &(u32, String)) -> String {
        let way = format!("row {row} by {by}");
        match self.k {
            2 | 4 => over(&way, self.k),
            _ => way,
        }
    }

    /// Where the bad marks stand.
    fn marks(&self) -> Vec<String> {
        let k = self.k as usize;
        match self.call {
            Call::Deal => {
                let bad = bad_marks(&self.bench.whole.marks);
                let lower = bad.iter().any(|index| index % k < bad[0] % k);
                of([
                    ("bad mark first", bad[0] == 0),
                    ("bad mark last", bad[0] + 1 == self.length()),
                    ("two bad marks", bad.len() > 1),
                    ("bad mark of a lower chip behind another", lower),
                ])
            }
            Call::Collect => {
                let bad = self.bench.chips.iter().map(|chip| bad_marks(&chip.marks));
                let mut bad = bad.enumerate().filter(|(_, bad)| !bad.is_empty());
                let (chip, first) = bad.next().unwrap_or_default();
                let others: Vec<usize> = bad.flat_map(|(_, bad)| bad).collect();
                let lower = others.iter().any(|index| *index < first[0]);
                let way = "bad marks in two chips, lower in the higher one";
                let mut ways = of([("two bad marks in a chip", first.len() > 1), (way, lower)]);
                if others.is_empty() {
                    ways.push(format!("bad marks in chip {chip} alone"));
                }
                ways
            }
        }
    }

    /// Rows, room and place of an accepted call.
    fn window(&self) -> Vec<String> {
        let (length, row) = (self.length(), ROW * self.k as usize);
        let (rows, rest) = (length / row, length % row / self.k as usize);
        let ways = of([
            ("no cells", length == 0),
            ("short row alone", rows == 0 && rest > 0),
            ("full rows", rows > 0 && rest == 0),
            ("short last row", rows > 0 && rest > 0),
            ("one cell in the last row", rows > 0 && rest == 1),
            ("last row one cell short", rest == ROW - 1),
            ("all the room", length == CELLS),
            ("window from 0", length > 0 && self.bench.base == 0),
            ("window up to the top", length > 0 && self.end() == TOP),
        ]);
        ways.iter().map(|way| over(way, self.k)).collect()
    }

    /// Bytes and marks of an accepted call: those of the whole beside those of the
    /// chips, in turn.
    fn cells(&self) -> Vec<String> {
        let (k, length) = (self.k as usize, self.length());
        let cell = |index: usize| {
            let (whole, chip) = (&self.bench.whole, &self.bench.chips[index % k]);
            let whole = (whole.memory[index], whole.marks[index]);
            let chip = (chip.memory[index / k], chip.marks[index / k]);
            match self.call {
                Call::Deal => (whole, chip),
                Call::Collect => (chip, whole),
            }
        };
        let cells: Vec<((u8, u8), (u8, u8))> = (0..length).map(cell).collect();
        let any = |sent: u8, held: fn(u8) -> bool| {
            let mut marks = cells.iter().map(|((_, sent), (_, held))| (*sent, *held));
            marks.any(|(mark, old)| mark == sent && held(old))
        };
        let mut bytes = cells.iter().filter(|((_, mark), _)| *mark == 0);
        let stayed = bytes.any(|((sent, _), (held, _))| sent != held);
        let marked = cells.iter().filter(|((_, mark), _)| *mark == 1).count();
        of([
            ("unmarked byte stayed", stayed),
            ("receiving mark of 1 cleared", any(0, |held| held == 1)),
            ("receiving mark above 1 cleared", any(0, |held| held > 1)),
            ("receiving mark above 1 set to 1", any(1, |held| held > 1)),
            ("no cell marked", length > 0 && marked == 0),
            ("every cell marked", length > 0 && marked == length),
        ])
    }
}
