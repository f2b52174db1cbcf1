//! A load of S-records in parts: begun, fed parts of the text and ended.
//!
//! The characters of a line are kept until its end has come. Then the record is
//! read whole, by rows 2 to 13, and what it says is stored at once. So memory
//! keeps the records before a refused one.

use crate::reading::{row_1, Loaded, Refusal, HEADER_ROOM};

/// The most characters that all parts together can have.
pub const MOST: usize = 4_294_967_295;

/// The most characters that a record can have.
const LONGEST: usize = 514;

/// The most characters of a record that are kept: so many are too many.
const KEPT: usize = LONGEST + 1;

/// What is kept between the calls of a load.
#[derive(Clone, Debug, PartialEq, Eq)]
pub struct State {
    /// The length of the memory at the beginning.
    pub(crate) size: usize,
    /// How many characters arrived.
    pub(crate) total: usize,
    /// How many of them stand before the record at hand.
    pub(crate) place: usize,
    /// The record at hand, as far as it is kept.
    pub(crate) line: Vec<u8>,
    /// How many records were read, each of them at its line end.
    pub(crate) complete: usize,
    pub(crate) head: usize,
    pub(crate) header: [u8; HEADER_ROOM],
    pub(crate) entry: Option<u32>,
    pub(crate) data_records: usize,
    /// The data bytes of all data records.
    pub(crate) cells: usize,
    /// The first refusal, which stays.
    pub(crate) refusal: Option<Refusal>,
}

/// The numbers of a state that a caller could change.
#[derive(Clone, Copy, Debug, PartialEq, Eq)]
pub enum Number {
    Total,
    Place,
    /// How many characters of the record at hand are kept.
    Held,
    Complete,
    Records,
    Cells,
    /// The length of the header.
    Head,
    Size,
    /// The refusal number; record, place and byte become 0 with it.
    Reason,
}

impl State {
    pub fn refusal(&self) -> Option<Refusal> {
        self.refusal
    }

    pub fn entry(&self) -> Option<u32> {
        self.entry
    }

    pub fn number(&self, number: Number) -> usize {
        match number {
            Number::Total => self.total,
            Number::Place => self.place,
            Number::Held => self.line.len(),
            Number::Complete => self.complete,
            Number::Records => self.data_records,
            Number::Cells => self.cells,
            Number::Head => self.head,
            Number::Size => self.size,
            Number::Reason => self.refusal.map_or(0, |refusal| refusal.number as usize),
        }
    }

    /// Overwrites a number. No rule says which characters are kept behind those
    /// of the record at hand: here they are zero.
    pub fn set(&mut self, number: Number, value: usize) {
        match number {
            Number::Total => self.total = value,
            Number::Place => self.place = value,
            Number::Held => self.line.resize(value, 0),
            Number::Complete => self.complete = value,
            Number::Records => self.data_records = value,
            Number::Cells => self.cells = value,
            Number::Head => self.head = value,
            Number::Size => self.size = value,
            Number::Reason => {
                let number = value as u32;
                let refusal = Refusal {
                    number,
                    ..Refusal::default()
                };
                self.refusal = (number != 0).then_some(refusal);
            }
        }
    }

    /// No call gives such numbers out.
    fn impossible(&self) -> bool {
        let read = [self.complete, self.data_records, self.cells];
        read.iter().any(|&number| number > self.place)
            || self.place + self.line.len() > self.total
            || self.total > MOST
    }

    /// The state as it is once so many line ends more were fed, behind a line
    /// end or at the beginning. Row 20 can be tested with it: nobody lends parts
    /// of that length.
    pub fn behind_line_ends(mut self, number: usize) -> State {
        assert!(self.line.is_empty() && self.refusal.is_none());
        assert!(number <= MOST - self.total);
        self.total += number;
        self.place += number;
        self
    }
}

/// The window of one call.
struct Lent<'a> {
    base: u32,
    memory: &'a mut [u8],
    marks: &'a mut [u8],
}

/// Begins a load. The marks are zero then, whatever they held.
pub fn begin(base: u32, memory: &mut [u8], marks: &mut [u8]) -> State {
    let mut state = State {
        size: memory.len(),
        total: 0,
        place: 0,
        line: Vec::new(),
        complete: 0,
        head: 0,
        header: [0; HEADER_ROOM],
        entry: None,
        data_records: 0,
        cells: 0,
        refusal: None,
    };
    marks.fill(0);
    let lent = &mut Lent {
        base,
        memory,
        marks,
    };
    state.ask_row_1(lent);
    state
}

/// Reads the next part of the text, which can be empty.
pub fn feed(
    mut state: State,
    part: &[u8],
    base: u32,
    memory: &mut [u8],
    marks: &mut [u8],
) -> State {
    let lent = &mut Lent {
        base,
        memory,
        marks,
    };
    state.ask_row_1(lent);
    state.ask_row_20(part, lent);
    for &character in part {
        if state.refusal.is_some() {
            break;
        }
        state.take(character, lent);
    }
    state
}

/// Ends a load and gives its answer, and the state behind it. A last record
/// needs no line end.
pub fn end(mut state: State, base: u32, memory: &mut [u8], marks: &mut [u8]) -> (Loaded, State) {
    let lent = &mut Lent {
        base,
        memory,
        marks,
    };
    state.ask_row_1(lent);
    if state.refusal.is_none() {
        state.end_line(lent);
    }
    if state.entry.is_none() {
        state.refuse(state.without_record(14), lent);
    }
    (state.answer(), state)
}

impl State {
    /// Only the first refusal counts, and no call changes anything behind it.
    fn refuse(&mut self, refusal: Refusal, lent: &mut Lent) {
        if self.refusal.is_none() {
            self.refusal = Some(refusal);
            lent.marks.fill(0);
        }
    }

    /// A refusal that is about no single record.
    fn without_record(&self, number: u32) -> Refusal {
        Refusal {
            number,
            record: self.complete,
            place: self.total,
            want: 0,
        }
    }

    /// The window is not allowed, or its length is not that of the beginning, or
    /// the state is none that was given out.
    fn ask_row_1(&mut self, lent: &mut Lent) {
        let length = lent.memory.len();
        let unfit = row_1(lent.base, length, lent.marks.len()) || length != self.size;
        if unfit || self.impossible() {
            let refusal = Refusal {
                number: 1,
                ..Refusal::default()
            };
            self.refuse(refusal, lent);
        }
    }

    /// The part is too long behind those before it.
    fn ask_row_20(&mut self, part: &[u8], lent: &mut Lent) {
        if self.refusal.is_none() && part.len() > MOST - self.total {
            self.refuse(self.without_record(20), lent);
        }
    }

    fn take(&mut self, character: u8, lent: &mut Lent) {
        self.total += 1;
        if character == b'\r' || character == b'\n' {
            self.end_line(lent);
        } else if self.line.len() < KEPT {
            self.line.push(character);
        }
    }

    /// Reads the line at hand. An empty one is no record. The next one starts
    /// behind all that arrived.
    fn end_line(&mut self, lent: &mut Lent) {
        let line = std::mem::take(&mut self.line);
        let place = std::mem::replace(&mut self.place, self.total);
        if line.is_empty() {
            return;
        }
        match self.judge(&line, lent) {
            Ok(record) => self.accept(record, lent),
            Err(fault) => {
                let refusal = Refusal {
                    number: fault.number,
                    record: self.complete + 1,
                    place: place + fault.index,
                    want: fault.want,
                };
                self.refuse(refusal, lent);
            }
        }
    }

    /// The record of a line, or the first of rows 2 to 13 that applies.
    fn judge(&self, line: &[u8], lent: &Lent) -> Result<Record, Fault> {
        if self.entry.is_some() {
            return Err(Fault::of(2));
        }
        let record = Record::read(line)?;
        match self.late_row(&record, lent) {
            Some(number) => Err(Fault::of(number)),
            None => Ok(record),
        }
    }

    /// The first of rows 8 to 13 that applies. Number 9 is reserved.
    fn late_row(&self, record: &Record, lent: &Lent) -> Option<u32> {
        let end = record.address + record.data.len() as u64;
        let low = u64::from(lent.base);
        match record.kind {
            b'0' if self.complete > 0 => Some(8),
            b'5' if record.address != self.data_records as u64 => Some(10),
            b'1'..=b'3' if end > 1 << (8 * record.width) => Some(11),
            // No cell is asked for.
            b'1'..=b'3' if record.data.is_empty() => None,
            b'1'..=b'3' if record.address < low => Some(12),
            b'1'..=b'3' if end > low + lent.memory.len() as u64 => Some(12),
            b'1'..=b'3' => {
                let marks = &lent.marks[(record.address - low) as usize..(end - low) as usize];
                marks.iter().any(|&mark| mark != 0).then_some(13)
            }
            _ => None,
        }
    }

    /// Takes in a record to which no row applies.
    fn accept(&mut self, record: Record, lent: &mut Lent) {
        self.complete += 1;
        match record.kind {
            b'0' => {
                self.head = record.data.len();
                self.header[..self.head].copy_from_slice(&record.data);
            }
            b'7'..=b'9' => self.entry = Some(record.address as u32),
            b'1'..=b'3' => {
                self.data_records += 1;
                self.cells += record.data.len();
                for (address, byte) in (record.address..).zip(record.data) {
                    let index = (address - u64::from(lent.base)) as usize;
                    lent.memory[index] = byte;
                    lent.marks[index] = 1;
                }
            }
            _ => {}
        }
    }

    fn answer(&self) -> Loaded {
        let mut loaded = Loaded {
            refusal: self.refusal.unwrap_or_default(),
            header_len: 0,
            header: [0; HEADER_ROOM],
            entry: None,
            records: 0,
            cells: 0,
        };
        if self.refusal.is_none() {
            loaded.header_len = self.head;
            loaded.header[..self.head].copy_from_slice(&self.header[..self.head]);
            loaded.entry = self.entry;
            loaded.records = self.data_records;
            loaded.cells = self.cells;
        }
        loaded
    }
}

/// Why a record is refused.
struct Fault {
    number: u32,
    /// The character that the place is of, from the record's first on.
    index: usize,
    want: u8,
}

impl Fault {
    fn of(number: u32) -> Fault {
        Fault {
            number,
            index: 0,
            want: 0,
        }
    }
}

/// The fields of a record.
struct Record {
    kind: u8,
    /// The number of address bytes.
    width: usize,
    address: u64,
    data: Vec<u8>,
}

impl Record {
    /// Asks rows 3 to 7, which are about the line alone.
    fn read(line: &[u8]) -> Result<Record, Fault> {
        if line.len() > LONGEST {
            return Err(Fault::of(3));
        }
        let (kind, width) = kind_and_width(line).ok_or(Fault::of(4))?;
        let bytes = bytes_of_pairs(line)?;
        let (&count, behind) = bytes.split_first().ok_or(Fault::of(6))?;
        let without_data = !(b'0'..=b'3').contains(&kind);
        let fewest = width + 1;
        let right_length = line.len() == 4 + 2 * usize::from(count);
        if !right_length || behind.len() < fewest || without_data && behind.len() > fewest {
            return Err(Fault::of(6));
        }
        let (&checksum, fields) = behind.split_last().ok_or(Fault::of(6))?;
        let sum = fields.iter().fold(count, |sum, &b| sum.wrapping_add(b));
        let want = 255 - sum;
        if checksum != want {
            return Err(Fault {
                want,
                ..Fault::of(7)
            });
        }
        let (address, data) = fields.split_at(width);
        let address = address
            .iter()
            .fold(0, |value, &b| 256 * value + u64::from(b));
        Ok(Record {
            kind,
            width,
            address,
            data: data.to_vec(),
        })
    }
}

/// The type and its number of address bytes; none in row 4.
fn kind_and_width(line: &[u8]) -> Option<(u8, usize)> {
    let [b'S', kind, _, _, ..] = line else {
        return None;
    };
    match kind {
        b'0' | b'1' | b'5' | b'9' => Some((*kind, 2)),
        b'2' | b'8' => Some((*kind, 3)),
        b'3' | b'7' => Some((*kind, 4)),
        _ => None,
    }
}

/// The bytes of the digits from the third character on, without half a pair at
/// the end: row 6 refuses that. A character that is no digit is row 5.
fn bytes_of_pairs(line: &[u8]) -> Result<Vec<u8>, Fault> {
    let mut digits = Vec::new();
    for (index, &character) in line.iter().enumerate().skip(2) {
        let digit = char::from(character).to_digit(16).ok_or(Fault {
            index,
            ..Fault::of(5)
        })?;
        digits.push(digit as u8);
    }
    let pairs = digits.chunks_exact(2);
    Ok(pairs.map(|pair| 16 * pair[0] + pair[1]).collect())
}
