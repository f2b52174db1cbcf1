//! The loader and the writer, in the plainest reading of the rules.
//!
//! Every row of the refusal table is a function named after its number, and
//! `ROWS` holds those of one record in the order in which they are tried. What
//! tapes share with S-records stands here, too; `Format` holds the rest.

use std::ops::Range;

/// The most data bytes a header can have.
pub const HEADER_ROOM: usize = 252;

/// The most characters a record can have.
const LONGEST: usize = 514;

/// Why a load or a write was refused; all of it is 0 for an accepted one.
#[derive(Clone, Copy, Debug, Default, PartialEq, Eq)]
pub struct Refusal {
    pub number: u32,
    pub record: usize,
    pub place: usize,
    /// The checksum that would have been right, in row 7; otherwise 0.
    pub want: u8,
}

/// The answer of the loader. After a refusal the entry is absent, and all else
/// but `refusal` is zero.
#[derive(Clone, Debug, PartialEq, Eq)]
pub struct Loaded {
    pub refusal: Refusal,
    pub header_len: usize,
    pub header: [u8; HEADER_ROOM],
    pub entry: Option<u32>,
    pub records: usize,
    pub cells: usize,
}

impl Loaded {
    fn refused(number: u32, record: usize, place: usize, want: u8) -> Loaded {
        Loaded {
            refusal: Refusal {
                number,
                record,
                place,
                want,
            },
            header_len: 0,
            header: [0; HEADER_ROOM],
            entry: None,
            records: 0,
            cells: 0,
        }
    }

    /// Neither header nor entry nor cells.
    pub(crate) fn nothing(refusal: Refusal) -> Loaded {
        Loaded {
            refusal,
            ..Loaded::refused(0, 0, 0, 0)
        }
    }
}

/// The answer of the writer: the text's length, which is 0 after a refusal.
#[derive(Clone, Copy, Debug, PartialEq, Eq)]
pub struct Written {
    pub refusal: Refusal,
    pub length: usize,
}

/// Text, base, memory and marks.
pub type Loader = fn(&[u8], u32, &mut [u8], &mut [u8]) -> Loaded;

/// Base, memory, marks, header, entry and output.
pub type Writer = fn(u32, &[u8], &[u8], &[u8], Option<u32>, &mut [u8]) -> Written;

/// Loads a text into the window from `base` on.
pub fn load(text: &[u8], base: u32, memory: &mut [u8], marks: &mut [u8]) -> Loaded {
    load_records(records, text, base, memory, marks)
}

/// The same for a text of any format, which `records` takes apart.
pub(crate) fn load_records(
    records: Records,
    text: &[u8],
    base: u32,
    memory: &mut [u8],
    marks: &mut [u8],
) -> Loaded {
    // No answer depends on what the marks held before.
    marks.fill(0);
    if row_1(base, memory.len(), marks.len()) {
        return Loaded::refused(1, 0, 0, 0);
    }
    let mut reader = Reader::new(base, memory.len());
    for record in records(text) {
        if let Some(number) = reader.first_row(&record) {
            let place = place_of(number, &record);
            let want = (record.format.want)(number, &record);
            return Loaded::refused(number, reader.taken + 1, place, want);
        }
        reader.take(&record);
    }
    let Some(entry) = reader.entry else {
        return Loaded::refused(14, reader.taken, text.len(), 0);
    };
    // Nothing was stored so far: a refusal must leave the memory as it was.
    let cells = reader.store(memory, marks);
    let mut header = [0; HEADER_ROOM];
    header[..reader.header.len()].copy_from_slice(&reader.header);
    Loaded {
        refusal: Refusal::default(),
        header_len: reader.header.len(),
        header,
        entry: Some(entry),
        records: reader.data_records,
        cells,
    }
}

/// All rows that apply to the first refused record of a text, in rising order;
/// none if no record is refused. The first of them is the refusal number.
/// Rows 1 and 14 are about no record and left out.
pub fn rows_of_refused_record(text: &[u8], base: u32, length: usize) -> Vec<u32> {
    rows_of_refused(records, text, base, length)
}

/// The same for a text of any format.
pub(crate) fn rows_of_refused(records: Records, text: &[u8], base: u32, length: usize) -> Vec<u32> {
    let mut reader = Reader::new(base, length);
    for record in records(text) {
        let rows = reader.all_rows(&record);
        if !rows.is_empty() {
            return rows;
        }
        reader.take(&record);
    }
    Vec::new()
}

/// Marks and memory differ in length, or the window passes 2^32.
pub(crate) fn row_1(base: u32, memory: usize, marks: usize) -> bool {
    marks != memory || u64::from(base) + memory as u64 > 1 << 32
}

/// The place is that of the record's first character, except in row 5.
fn place_of(number: u32, record: &Record) -> usize {
    match record.bad_digit() {
        Some(index) if number == 5 => record.place + index,
        _ => record.place,
    }
}

/// Only row 7 tells the right checksum, which can be 0 there as well.
fn want_of(number: u32, record: &Record) -> u8 {
    match number {
        7 => record.right_checksum(),
        _ => 0,
    }
}

#[derive(Clone, Copy, PartialEq, Eq)]
pub(crate) enum Role {
    Header,
    Data,
    Count,
    Terminator,
}

/// What a format has of its own. In all of them a line is a few characters and
/// then digits: a count, an address, data and a check.
pub(crate) struct Format {
    /// What stands between lines.
    pub separates: fn(u8) -> bool,
    /// The most characters of a line.
    pub longest: usize,
    /// How many of them stand before the digits.
    pub lead: usize,
    /// The bytes of the check.
    pub check: usize,
    /// The role of a line and its number of address bytes.
    pub kind: fn(&Record) -> Option<(Role, usize)>,
    /// The rows tried for each line, from the top.
    pub rows: &'static [(u32, Row)],
    /// What a refusal with this number tells of the right check.
    pub want: fn(u32, &Record) -> u8,
}

pub(crate) static SREC: Format = Format {
    separates: |c| c == b'\r' || c == b'\n',
    longest: LONGEST,
    lead: 2,
    check: 1,
    kind: kind_of,
    rows: &ROWS,
    want: want_of,
};

/// A line of the text that is not empty.
///
/// The fields can be asked of any line: a digit that is missing or bad counts
/// as zero, and the last byte pairs as the check. So each row stands alone, and
/// rows 4 to 6 turn away the lines where this would matter.
pub(crate) struct Record<'a> {
    format: &'static Format,
    pub place: usize,
    pub line: &'a [u8],
}

/// Takes a text apart into its lines.
pub(crate) type Records = fn(&[u8]) -> Vec<Record<'_>>;

pub(crate) fn records(text: &[u8]) -> Vec<Record<'_>> {
    lines(&SREC, text)
}

/// The longest stretches free of what stands between lines.
pub(crate) fn lines<'a>(format: &'static Format, text: &'a [u8]) -> Vec<Record<'a>> {
    let mut found = Vec::new();
    let mut place = 0;
    for line in text.split(|&c| (format.separates)(c)) {
        if !line.is_empty() {
            found.push(Record {
                format,
                place,
                line,
            });
        }
        place += line.len() + 1;
    }
    found
}

/// The type table.
fn kind_of(record: &Record) -> Option<(Role, usize)> {
    match record.line.get(1)? {
        b'0' => Some((Role::Header, 2)),
        b'1' => Some((Role::Data, 2)),
        b'2' => Some((Role::Data, 3)),
        b'3' => Some((Role::Data, 4)),
        b'5' => Some((Role::Count, 2)),
        b'7' => Some((Role::Terminator, 4)),
        b'8' => Some((Role::Terminator, 3)),
        b'9' => Some((Role::Terminator, 2)),
        _ => None,
    }
}

impl Record<'_> {
    fn kind(&self) -> Option<(Role, usize)> {
        (self.format.kind)(self)
    }

    pub fn is(&self, role: Role) -> bool {
        self.kind().is_some_and(|(own, _)| own == role)
    }

    /// The number of address bytes.
    fn width(&self) -> usize {
        self.kind().map_or(0, |(_, width)| width)
    }

    /// The index of the first character behind the lead that is no digit.
    fn bad_digit(&self) -> Option<usize> {
        (self.format.lead..self.line.len()).find(|&index| hex_value(self.line[index]).is_none())
    }

    fn digit(&self, index: usize) -> u8 {
        let character = self.line.get(index).copied();
        character.and_then(hex_value).unwrap_or(0)
    }

    /// Byte pair `index`, where pair 0 is the count.
    pub fn byte(&self, index: usize) -> u8 {
        let first = self.format.lead + 2 * index;
        16 * self.digit(first) + self.digit(first + 1)
    }

    /// The index of the check's first byte pair.
    pub fn last(&self) -> usize {
        let digits = self.line.len().saturating_sub(self.format.lead);
        (digits / 2).saturating_sub(self.format.check)
    }

    /// What the checksum must be by the count, address and data bytes.
    fn right_checksum(&self) -> u8 {
        let summed = (0..self.last()).map(|index| self.byte(index));
        255 - summed.fold(0u8, |sum, byte| sum.wrapping_add(byte))
    }

    /// The number in the byte pairs.
    pub fn number(&self, pairs: Range<usize>) -> u64 {
        let bytes = pairs.map(|index| self.byte(index));
        bytes.fold(0, |value, byte| 256 * value + u64::from(byte))
    }

    pub fn address(&self) -> u64 {
        self.number(1..1 + self.width())
    }

    pub fn data(&self) -> Vec<u8> {
        let first = 1 + self.width();
        (first..self.last()).map(|index| self.byte(index)).collect()
    }

    /// The address after the record's last data byte.
    fn end(&self) -> u64 {
        self.address() + self.data().len() as u64
    }
}

pub(crate) fn hex_value(character: u8) -> Option<u8> {
    match character {
        b'0'..=b'9' => Some(character - b'0'),
        b'A'..=b'F' => Some(character - b'A' + 10),
        b'a'..=b'f' => Some(character - b'a' + 10),
        _ => None,
    }
}

/// What the records taken so far have said.
pub(crate) struct Reader {
    base: u64,
    cells: Vec<Option<u8>>,
    header: Vec<u8>,
    taken: usize,
    pub data_records: usize,
    entry: Option<u32>,
}

pub(crate) type Row = fn(&Reader, &Record) -> bool;

/// The rows tried for each record, from the top. Number 9 is reserved: no row
/// gives it, as data records and terminators of all widths go together.
const ROWS: [(u32, Row); 11] = [
    (2, row_2),
    (3, row_3),
    (4, row_4),
    (5, row_5),
    (6, row_6),
    (7, row_7),
    (8, row_8),
    (10, row_10),
    (11, row_11),
    (12, row_12),
    (13, row_13),
];

/// The record stands after the terminator.
pub(crate) fn row_2(reader: &Reader, _: &Record) -> bool {
    reader.entry.is_some()
}

/// More characters than a line can have.
pub(crate) fn row_3(_: &Reader, record: &Record) -> bool {
    record.line.len() > record.format.longest
}

/// Fewer than 4 characters, no `S`, or a type that is not in the table.
fn row_4(_: &Reader, record: &Record) -> bool {
    record.line.len() < 4 || record.line[0] != b'S' || record.kind().is_none()
}

/// A character behind the lead is no hex digit.
pub(crate) fn row_5(_: &Reader, record: &Record) -> bool {
    record.bad_digit().is_some()
}

/// The count does not agree with the record's length or its type.
fn row_6(_: &Reader, record: &Record) -> bool {
    let count = usize::from(record.byte(0));
    let least = record.width() + 1;
    let without_data = record.is(Role::Count) || record.is(Role::Terminator);
    record.line.len() != 4 + 2 * count || count < least || (without_data && count != least)
}

/// The checksum differs.
fn row_7(_: &Reader, record: &Record) -> bool {
    record.byte(record.last()) != record.right_checksum()
}

/// An S0 that is not the first record.
fn row_8(reader: &Reader, record: &Record) -> bool {
    record.is(Role::Header) && reader.taken > 0
}

/// An S5 with another number than that of the data records before it.
fn row_10(reader: &Reader, record: &Record) -> bool {
    record.is(Role::Count) && record.address() != reader.data_records as u64
}

/// Address + data bytes passes what the record's own width can address.
pub(crate) fn row_11(_: &Reader, record: &Record) -> bool {
    record.is(Role::Data) && record.end() > 1 << (8 * record.width())
}

/// Some data byte is addressed outside the window.
pub(crate) fn row_12(reader: &Reader, record: &Record) -> bool {
    let window_end = reader.base + reader.cells.len() as u64;
    let outside = record.address() < reader.base || record.end() > window_end;
    record.is(Role::Data) && !record.data().is_empty() && outside
}

/// Some cell was already addressed.
pub(crate) fn row_13(reader: &Reader, record: &Record) -> bool {
    let mut cells = record.address()..record.end();
    record.is(Role::Data) && cells.any(|address| reader.addressed(address))
}

impl Reader {
    pub fn new(base: u32, length: usize) -> Reader {
        Reader {
            base: u64::from(base),
            cells: vec![None; length],
            header: Vec::new(),
            taken: 0,
            data_records: 0,
            entry: None,
        }
    }

    fn first_row(&self, record: &Record) -> Option<u32> {
        let mut rows = record.format.rows.iter();
        let found = rows.find(|(_, applies)| applies(self, record));
        found.map(|&(number, _)| number)
    }

    pub fn all_rows(&self, record: &Record) -> Vec<u32> {
        let rows = record.format.rows.iter();
        let found = rows.filter(|(_, applies)| applies(self, record));
        found.map(|&(number, _)| number).collect()
    }

    fn addressed(&self, address: u64) -> bool {
        let index = address.checked_sub(self.base);
        let cell = index.and_then(|index| self.cells.get(index as usize));
        matches!(cell, Some(Some(_)))
    }

    /// Takes in a record to which no row applies.
    fn take(&mut self, record: &Record) {
        self.pass(record);
        if record.is(Role::Data) {
            for (address, byte) in (record.address()..).zip(record.data()) {
                self.cells[(address - self.base) as usize] = Some(byte);
            }
        }
    }

    /// Takes in all of a record but its cells.
    pub fn pass(&mut self, record: &Record) {
        self.taken += 1;
        if record.is(Role::Header) {
            self.header = record.data();
        }
        if record.is(Role::Data) {
            self.data_records += 1;
        }
        if record.is(Role::Terminator) {
            self.entry = Some(record.address() as u32);
        }
    }

    /// Stores and marks the addressed cells and gives their number. The marks
    /// are all zero before.
    fn store(&self, memory: &mut [u8], marks: &mut [u8]) -> usize {
        let mut stored = 0;
        for (index, cell) in self.cells.iter().enumerate() {
            if let Some(byte) = cell {
                memory[index] = *byte;
                marks[index] = 1;
                stored += 1;
            }
        }
        stored
    }
}

/// Writes the canonical text of the marked cells.
pub fn write(
    base: u32,
    memory: &[u8],
    marks: &[u8],
    header: &[u8],
    entry: Option<u32>,
    out: &mut [u8],
) -> Written {
    let rows: [WriteRow; 4] = [
        (1, &|| row_1(base, memory.len(), marks.len()).then_some(0)),
        (15, &|| (header.len() > HEADER_ROOM).then_some(0)),
        (16, &|| row_16(marks)),
        (18, &|| entry.is_none().then_some(0)),
    ];
    let text = || canonical(base, memory, marks, header, entry.unwrap_or(0));
    write_text(&rows, text, out)
}

/// The index of the first mark that is neither 0 nor 1.
pub(crate) fn row_16(marks: &[u8]) -> Option<usize> {
    marks.iter().position(|&mark| mark > 1)
}

/// A row of the writer, and its place if it applies. It is not asked behind a row
/// that applies: marks that row 1 refuses are not read.
pub(crate) type WriteRow<'a> = (u32, &'a dyn Fn() -> Option<usize>);

/// Refuses by the first row that has a place, or by row 17 if there is no room
/// for the text, and leaves the output as it was then. Else the text is written.
pub(crate) fn write_text(rows: &[WriteRow], text: impl Fn() -> Vec<u8>, out: &mut [u8]) -> Written {
    // No refusal of the writer is about a record.
    let refused = |number, place| Written {
        refusal: Refusal {
            number,
            place,
            ..Refusal::default()
        },
        length: 0,
    };
    for &(number, place) in rows {
        if let Some(place) = place() {
            return refused(number, place);
        }
    }
    let text = text();
    if text.len() > out.len() {
        return refused(17, text.len());
    }
    out[..text.len()].copy_from_slice(&text);
    Written {
        refusal: Refusal::default(),
        length: text.len(),
    }
}

/// The canonical text, for an entry that is present and other arguments to
/// which rows 1, 15 and 16 do not apply.
pub fn canonical(base: u32, memory: &[u8], marks: &[u8], header: &[u8], entry: u32) -> Vec<u8> {
    // It is the address that counts here, not the index in the window.
    let rows = rows_of_cells(base, memory, marks, |address, _| address % 16 != 0);
    let last_cell = rows
        .last()
        .map_or(0, |row| row.address + row.data.len() as u64 - 1);
    let (width, data_kind, end_kind) = match last_cell.max(u64::from(entry)) {
        0..=0xFFFF => (2, b'1', b'9'),
        0x1_0000..=0xFF_FFFF => (3, b'2', b'8'),
        _ => (4, b'3', b'7'),
    };
    let mut text = Vec::new();
    put_record(&mut text, b'0', 2, 0, header);
    for row in &rows {
        put_record(&mut text, data_kind, width, row.address, &row.data);
    }
    // The count record has two bytes for the number, so a larger one has none.
    if rows.len() <= 0xFFFF {
        put_record(&mut text, b'5', 2, rows.len() as u64, &[]);
    }
    put_record(&mut text, end_kind, width, u64::from(entry), &[]);
    text
}

/// Consecutive cells that become one data record.
pub(crate) struct CellRow {
    pub address: u64,
    pub data: Vec<u8>,
}

/// The runs of marked cells, cut where a cell may not join the row before it,
/// by its address and the length of that row.
pub(crate) fn rows_of_cells(
    base: u32,
    memory: &[u8],
    marks: &[u8],
    joins: impl Fn(u64, usize) -> bool,
) -> Vec<CellRow> {
    let mut rows: Vec<CellRow> = Vec::new();
    let mut in_run = false;
    for (address, (&byte, &mark)) in (u64::from(base)..).zip(memory.iter().zip(marks)) {
        if mark == 1 {
            match rows.last_mut() {
                Some(row) if in_run && joins(address, row.data.len()) => row.data.push(byte),
                _ => rows.push(CellRow {
                    address,
                    data: vec![byte],
                }),
            }
        }
        in_run = mark == 1;
    }
    rows
}

fn put_record(text: &mut Vec<u8>, kind: u8, width: usize, address: u64, data: &[u8]) {
    let mut bytes = vec![(width + data.len() + 1) as u8];
    bytes.extend(&address.to_be_bytes()[8 - width..]);
    bytes.extend(data);
    let sum = bytes.iter().fold(0u8, |sum, &byte| sum.wrapping_add(byte));
    bytes.push(255 - sum);
    put_line(text, &[b'S', kind], &bytes, b"\n");
}

/// The bytes as digits, with what stands before and behind them.
pub(crate) fn put_line(text: &mut Vec<u8>, lead: &[u8], bytes: &[u8], end: &[u8]) {
    text.extend(lead);
    for byte in bytes {
        text.push(b"0123456789ABCDEF"[usize::from(byte / 16)]);
        text.push(b"0123456789ABCDEF"[usize::from(byte % 16)]);
    }
    text.extend(end);
}
