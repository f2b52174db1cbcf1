//! The form in which the program `calls` takes loads in parts and prints what
//! they give: crates/calls/src/main.rt says which.

use crate::form::Form;
use crate::parts::{Number, State};
use crate::script::{answer_line, form_sign, hex, refusal_words, split_heading, ROOM as INPUT};
use std::fmt::{self, Display, Formatter};

/// The cells and the marks that `calls` can lend.
pub const ROOM: usize = 1_024;

/// What a case can do, in turn.
#[derive(Clone, Copy, Debug, PartialEq, Eq)]
pub enum Call {
    Begin,
    /// Feeds so many of the text's characters, or all that are left.
    Feed(usize),
    /// Feeds all that are left in parts of so many.
    Rest(usize),
    End,
    Show,
    /// Keeps the state.
    Keep,
    /// Goes on with the state that was kept.
    Use,
    /// Sets a mark, or a byte of packed ones.
    Mark(usize, u8),
    /// Lends so many cells and mark bytes from here on.
    Lend(usize, usize),
    Base(u32),
    /// Overwrites a number of the state.
    Set(Number, usize),
}

/// The letters of the numbers of a state.
pub const NUMBERS: [(char, Number); 9] = [
    ('S', Number::Size),
    ('T', Number::Total),
    ('P', Number::Place),
    ('H', Number::Held),
    ('N', Number::Complete),
    ('R', Number::Records),
    ('C', Number::Cells),
    ('L', Number::Head),
    ('X', Number::Reason),
];

impl Display for Call {
    fn fmt(&self, out: &mut Formatter) -> fmt::Result {
        match *self {
            Call::Begin => write!(out, "b"),
            Call::Feed(number) => write!(out, "f{number}"),
            Call::Rest(number) => write!(out, "r{number}"),
            Call::End => write!(out, "e"),
            Call::Show => write!(out, "p"),
            Call::Keep => write!(out, "k"),
            Call::Use => write!(out, "u"),
            Call::Mark(index, mark) => write!(out, "m{index}:{mark}"),
            Call::Lend(cells, marks) => write!(out, "l{cells}:{marks}"),
            Call::Base(base) => write!(out, "a{base}"),
            Call::Set(number, value) => {
                let named = NUMBERS.iter().find(|(_, named)| *named == number);
                let letter = named.map_or('?', |(letter, _)| *letter);
                write!(out, "{letter}{value}")
            }
        }
    }
}

/// Two numbers with a colon between them.
fn two(word: &str) -> Option<(usize, usize)> {
    let (first, second) = word.split_once(':')?;
    Some((first.parse().ok()?, second.parse().ok()?))
}

fn parse_call(word: &str) -> Option<Call> {
    let letter = word.chars().next()?;
    let rest = word.strip_prefix(letter)?;
    let simple = match letter {
        'b' => Some(Call::Begin),
        'e' => Some(Call::End),
        'p' => Some(Call::Show),
        'k' => Some(Call::Keep),
        'u' => Some(Call::Use),
        _ => None,
    };
    if simple.is_some() {
        return simple.filter(|_| rest.is_empty());
    }
    match letter {
        'f' => Some(Call::Feed(rest.parse().ok()?)),
        'r' => Some(Call::Rest(rest.parse().ok()?)),
        'a' => Some(Call::Base(rest.parse().ok()?)),
        'm' => two(rest).map(|(index, mark)| Call::Mark(index, mark as u8)),
        'l' => two(rest).map(|(cells, marks)| Call::Lend(cells, marks)),
        _ => {
            let &(_, number) = NUMBERS.iter().find(|(named, _)| *named == letter)?;
            Some(Call::Set(number, rest.parse().ok()?))
        }
    }
}

/// A text, the window that it is loaded into, and the calls.
#[derive(Clone, Debug, PartialEq, Eq)]
pub struct Case {
    pub form: Form,
    pub name: String,
    pub base: u32,
    pub cells: usize,
    pub calls: Vec<Call>,
    pub text: Vec<u8>,
}

impl Case {
    fn heading(&self) -> String {
        let sign = form_sign(self.form);
        format!("@{:08X}:{:08X}{sign}{}\n", self.base, self.cells, self.name)
    }

    /// The case as `calls` reads it.
    pub fn script(&self) -> Vec<u8> {
        let words: Vec<String> = self.calls.iter().map(Call::to_string).collect();
        let lines = self.heading() + &words.join(" ") + "\n";
        [lines.as_bytes(), &self.text].concat()
    }

    /// Whether it can be handed over.
    pub fn fits(&self) -> bool {
        let lent = |call: &Call| match *call {
            Call::Lend(cells, marks) => cells <= ROOM && marks <= ROOM,
            Call::Mark(index, _) => index < ROOM,
            _ => true,
        };
        self.cells <= ROOM
            && self.calls.iter().all(lent)
            && !self.text.contains(&b'@')
            && self.script().len() <= INPUT
    }

    /// Makes all calls.
    fn run(&self) -> Bench {
        let mut bench = Bench::new(self.form, self.base, self.cells);
        let mut text = &self.text[..];
        for call in &self.calls {
            text = bench.call(*call, text);
        }
        bench
    }

    /// What `calls` has to print for it.
    pub fn answer(&self) -> Vec<u8> {
        (self.heading() + &self.run().printed).into_bytes()
    }

    /// The refusal number of each end.
    pub fn ends(&self) -> Vec<u32> {
        self.run().ends
    }
}

/// The cases of a whole input.
pub fn parse(script: &[u8]) -> Option<Vec<Case>> {
    let mut cases = script.split(|&c| c == b'@');
    // Nothing stands before the first `@`.
    cases.next().filter(|before| before.is_empty())?;
    cases.map(parse_case).collect()
}

fn parse_case(script: &[u8]) -> Option<Case> {
    let mut lines = script.splitn(3, |&c| c == b'\n');
    let heading = std::str::from_utf8(lines.next()?).ok()?;
    let words = std::str::from_utf8(lines.next()?).ok()?;
    let text = lines.next()?.to_vec();
    let (window, form, name) = split_heading(heading)?;
    let (base, cells) = window.split_once(':')?;
    let words = words.split(' ').filter(|word| !word.is_empty());
    let case = Case {
        form,
        name: name.to_string(),
        base: u32::from_str_radix(base, 16).ok()?,
        cells: usize::from_str_radix(cells, 16).ok()?,
        calls: words.map(parse_call).collect::<Option<_>>()?,
        text,
    };
    case.fits().then_some(case)
}

/// A load in parts, with all that is lent to it and what was printed.
#[derive(Clone)]
pub struct Bench {
    pub form: Form,
    pub state: State,
    kept: State,
    pub base: u32,
    pub cells: usize,
    pub marks_lent: usize,
    memory: Vec<u8>,
    pub marks: Vec<u8>,
    ends: Vec<u32>,
    printed: String,
}

impl Bench {
    /// A load that is begun, in buffers that were used before.
    pub fn new(form: Form, base: u32, cells: usize) -> Bench {
        let mut memory: Vec<u8> = (0..ROOM).map(|index| 0xE0 + index as u8 % 16).collect();
        let mut marks = vec![7; ROOM];
        let marks_lent = form.length(cells);
        let state = form.begin(base, &mut memory[..cells], &mut marks[..marks_lent]);
        Bench {
            form,
            kept: state.clone(),
            state,
            base,
            cells,
            marks_lent,
            memory,
            marks,
            ends: Vec::new(),
            printed: String::new(),
        }
    }

    pub fn lent_marks(&self) -> &[u8] {
        &self.marks[..self.marks_lent]
    }

    /// Makes a call and gives the rest of the text.
    pub fn call<'a>(&mut self, call: Call, text: &'a [u8]) -> &'a [u8] {
        match call {
            Call::Begin => {
                let memory = &mut self.memory[..self.cells];
                let marks = &mut self.marks[..self.marks_lent];
                self.state = self.form.begin(self.base, memory, marks);
            }
            Call::Feed(number) => {
                let (part, rest) = text.split_at(number.min(text.len()));
                self.feed(part);
                return rest;
            }
            // Parts of no characters would never end.
            Call::Rest(0) => {}
            Call::Rest(number) => {
                text.chunks(number).for_each(|part| self.feed(part));
                return &[];
            }
            Call::End => self.end(),
            Call::Show => self.show(),
            Call::Keep => self.kept = self.state.clone(),
            Call::Use => self.state = self.kept.clone(),
            Call::Mark(index, mark) => self.marks[index] = mark,
            Call::Lend(cells, marks) => (self.cells, self.marks_lent) = (cells, marks),
            Call::Base(base) => self.base = base,
            Call::Set(number, value) => self.state.set(number, value),
        }
        text
    }

    fn feed(&mut self, part: &[u8]) {
        let state = self.state.clone();
        let memory = &mut self.memory[..self.cells];
        let marks = &mut self.marks[..self.marks_lent];
        self.state = self.form.feed(state, part, self.base, memory, marks);
    }

    fn end(&mut self) {
        let state = self.state.clone();
        let memory = &mut self.memory[..self.cells];
        let marks = &mut self.marks[..self.marks_lent];
        let (loaded, state) = self.form.end(state, self.base, memory, marks);
        self.state = state;
        self.ends.push(loaded.refusal.number);
        self.printed += &answer_line(&loaded);
        self.show();
    }

    /// The state, and all bytes that are lent.
    fn show(&mut self) {
        let memory = hex(&self.memory[..self.cells]);
        let marks = hex(self.lent_marks());
        let state = state_words(&self.state);
        self.printed += &format!("state {state}\nmemory {memory}\nmarks {marks}\n");
    }
}

/// Nothing is said of the numbers of a state that is refused.
fn state_words(state: &State) -> String {
    if let Some(refusal) = state.refusal() {
        return format!("refused {}", refusal_words(&refusal));
    }
    let entry = state.entry().map(|entry| format!("{entry:08x}"));
    format!(
        "size {} total {} place {} held {} number {} records {} cells {} head {} entry {}",
        state.number(Number::Size),
        state.number(Number::Total),
        state.number(Number::Place),
        state.number(Number::Held),
        state.number(Number::Complete),
        state.number(Number::Records),
        state.number(Number::Cells),
        state.number(Number::Head),
        entry.unwrap_or("none".to_string()),
    )
}
