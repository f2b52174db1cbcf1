//! The functions that give whole answers, over a copy of the second reading.

use crate::chips::{self, Buffers, CHIPS};
use crate::overlay::{self, Image, Title};
use crate::parts::{self, State, MOST};
use crate::reading::{self, Refusal, Writer, HEADER_ROOM};
use crate::sheets::load_sheet;
use crate::spans;
use crate::symbols::{load_behind, read_block};
use crate::tape::{self, Edition};
use crate::{lent, lent_mut};

#[repr(C)]
pub struct Loaded {
    reason: u32,
    want: u32,
    record: usize,
    place: usize,
    records: usize,
    cells: usize,
    has_entry: u32,
    entry: u32,
    header_len: usize,
    header: [u8; HEADER_ROOM],
}

#[repr(C)]
pub struct Written {
    reason: u32,
    place: usize,
    length: usize,
}

#[repr(C)]
pub struct Span {
    any: u32,
    lowest: u64,
    highest: u64,
}

#[repr(C)]
pub struct Origin {
    record: usize,
    place: usize,
    byte: u32,
}

fn loaded(answer: &reading::Loaded) -> Loaded {
    Loaded {
        reason: answer.refusal.number,
        want: u32::from(answer.refusal.want),
        record: answer.refusal.record,
        place: answer.refusal.place,
        records: answer.records,
        cells: answer.cells,
        has_entry: u32::from(answer.entry.is_some()),
        entry: answer.entry.unwrap_or(0),
        header_len: answer.header_len,
        header: answer.header,
    }
}

/// A refusal, and what an image has besides its cells.
fn titled(refusal: Refusal, title: &Title) -> Loaded {
    let mut answer = reading::Loaded::nothing(refusal);
    answer.entry = title.entry;
    answer.header_len = title.header.len();
    answer.header[..title.header.len()].copy_from_slice(&title.header);
    loaded(&answer)
}

fn written(answer: reading::Written) -> Written {
    Written {
        reason: answer.refusal.number,
        place: answer.refusal.place,
        length: answer.length,
    }
}

fn span(found: Option<spans::Span>) -> Span {
    Span {
        any: u32::from(found.is_some()),
        lowest: found.map_or(0, |found| found.lowest),
        highest: found.map_or(0, |found| found.highest),
    }
}

/// The edition of a tape that a format's number names; none for S-records.
fn tape_of(format: u32) -> Option<Edition> {
    match format {
        0 => Some(Edition::Repeat),
        1 => Some(Edition::Sum),
        _ => None,
    }
}

fn writer(format: u32) -> Writer {
    match tape_of(format) {
        None => reading::write,
        Some(Edition::Repeat) => |base, memory, marks, header, entry, out| {
            tape::write_tape(Edition::Repeat, base, memory, marks, header, entry, out)
        },
        Some(Edition::Sum) => |base, memory, marks, header, entry, out| {
            tape::write_tape(Edition::Sum, base, memory, marks, header, entry, out)
        },
    }
}

fn entry_of(has_entry: u32, entry: u32) -> Option<u32> {
    (has_entry != 0).then_some(entry)
}

/// # Safety
/// As in include/srec.h, here and below.
#[no_mangle]
pub unsafe extern "C" fn srec_load_as(
    format: u32,
    text: *const u8,
    text_len: usize,
    base: u32,
    memory: *mut u8,
    memory_len: usize,
    marks: *mut u8,
    marks_len: usize,
) -> Loaded {
    let text = lent(text, text_len);
    let (memory, marks) = (lent_mut(memory, memory_len), lent_mut(marks, marks_len));
    loaded(&match tape_of(format) {
        None => reading::load(text, base, memory, marks),
        Some(edition) => tape::load_tape(edition, text, base, memory, marks),
    })
}

#[no_mangle]
pub unsafe extern "C" fn srec_write_as(
    format: u32,
    base: u32,
    memory: *const u8,
    memory_len: usize,
    marks: *const u8,
    marks_len: usize,
    header: *const u8,
    header_len: usize,
    has_entry: u32,
    entry: u32,
    out: *mut u8,
    out_len: usize,
) -> Written {
    let (memory, marks) = (lent(memory, memory_len), lent(marks, marks_len));
    let (header, out) = (lent(header, header_len), lent_mut(out, out_len));
    let entry = entry_of(has_entry, entry);
    written(writer(format)(base, memory, marks, header, entry, out))
}

#[no_mangle]
pub unsafe extern "C" fn srec_room(
    format: u32,
    base: u32,
    memory: *const u8,
    memory_len: usize,
    marks: *const u8,
    marks_len: usize,
    header: *const u8,
    header_len: usize,
    has_entry: u32,
    entry: u32,
) -> Written {
    let (memory, marks) = (lent(memory, memory_len), lent(marks, marks_len));
    let (header, entry) = (lent(header, header_len), entry_of(has_entry, entry));
    written(spans::room(writer(format), base, memory, marks, header, entry))
}

#[no_mangle]
pub unsafe extern "C" fn srec_span(format: u32, text: *const u8, text_len: usize) -> Span {
    let text = lent(text, text_len);
    span(match tape_of(format) {
        None => spans::span(text),
        Some(edition) => spans::span_tape(edition, text),
    })
}

#[no_mangle]
pub unsafe extern "C" fn srec_where(format: u32, text: *const u8, text_len: usize, address: u32) -> Origin {
    let text = lent(text, text_len);
    let found = match tape_of(format) {
        None => spans::origin(text, address),
        Some(edition) => spans::origin_tape(edition, text, address),
    };
    Origin {
        record: found.map_or(0, |found| found.record),
        place: found.map_or(0, |found| found.place),
        byte: found.map_or(0, |found| u32::from(found.byte)),
    }
}

#[no_mangle]
pub unsafe extern "C" fn srec_merge(
    base: u32,
    memory: *mut u8,
    memory_len: usize,
    marks: *mut u8,
    marks_len: usize,
    header: *const u8,
    header_len: usize,
    has_entry: u32,
    entry: u32,
    patch_memory: *const u8,
    patch_memory_len: usize,
    patch_marks: *const u8,
    patch_marks_len: usize,
    patch_header: *const u8,
    patch_header_len: usize,
    patch_has_entry: u32,
    patch_entry: u32,
) -> Loaded {
    let title = |header, entry| Title { header, entry };
    let patch = Image {
        memory: lent(patch_memory, patch_memory_len),
        marks: lent(patch_marks, patch_marks_len),
    };
    let own = title(lent(header, header_len).to_vec(), entry_of(has_entry, entry));
    let others = lent(patch_header, patch_header_len).to_vec();
    let others = title(others, entry_of(patch_has_entry, patch_entry));
    let (memory, marks) = (lent_mut(memory, memory_len), lent_mut(marks, marks_len));
    let merged = overlay::merge(base, memory, marks, &own, patch, &others);
    titled(merged.refusal, &merged.title)
}

unsafe fn buffers(memory: *const u8, memory_len: usize, marks: *const u8, marks_len: usize) -> Buffers {
    Buffers {
        memory: lent(memory, memory_len).to_vec(),
        marks: lent(marks, marks_len).to_vec(),
    }
}

/// What a call left goes back to the caller.
unsafe fn put(buffers: &Buffers, memory: *mut u8, marks: *mut u8) {
    lent_mut(memory, buffers.memory.len()).copy_from_slice(&buffers.memory);
    lent_mut(marks, buffers.marks.len()).copy_from_slice(&buffers.marks);
}

/// A number of chips that does not fit is none that can be.
fn number_of(chips: usize) -> u32 {
    u32::try_from(chips).unwrap_or(0)
}

#[no_mangle]
pub unsafe extern "C" fn srec_deal(
    chips: usize,
    base: u32,
    memory: *const u8,
    memory_len: usize,
    marks: *const u8,
    marks_len: usize,
    memory0: *mut u8,
    memory0_len: usize,
    marks0: *mut u8,
    marks0_len: usize,
    memory1: *mut u8,
    memory1_len: usize,
    marks1: *mut u8,
    marks1_len: usize,
    memory2: *mut u8,
    memory2_len: usize,
    marks2: *mut u8,
    marks2_len: usize,
    memory3: *mut u8,
    memory3_len: usize,
    marks3: *mut u8,
    marks3_len: usize,
) -> Loaded {
    let whole = buffers(memory, memory_len, marks, marks_len);
    let mut all: [Buffers; CHIPS] = [
        buffers(memory0, memory0_len, marks0, marks0_len),
        buffers(memory1, memory1_len, marks1, marks1_len),
        buffers(memory2, memory2_len, marks2, marks2_len),
        buffers(memory3, memory3_len, marks3, marks3_len),
    ];
    let refusal = chips::deal(number_of(chips), base, &whole, &mut all);
    put(&all[0], memory0, marks0);
    put(&all[1], memory1, marks1);
    put(&all[2], memory2, marks2);
    put(&all[3], memory3, marks3);
    titled(refusal, &Title::default())
}

#[no_mangle]
pub unsafe extern "C" fn srec_collect(
    chips: usize,
    base: u32,
    memory: *mut u8,
    memory_len: usize,
    marks: *mut u8,
    marks_len: usize,
    memory0: *const u8,
    memory0_len: usize,
    marks0: *const u8,
    marks0_len: usize,
    memory1: *const u8,
    memory1_len: usize,
    marks1: *const u8,
    marks1_len: usize,
    memory2: *const u8,
    memory2_len: usize,
    marks2: *const u8,
    marks2_len: usize,
    memory3: *const u8,
    memory3_len: usize,
    marks3: *const u8,
    marks3_len: usize,
) -> Loaded {
    let mut whole = buffers(memory, memory_len, marks, marks_len);
    let all: [Buffers; CHIPS] = [
        buffers(memory0, memory0_len, marks0, marks0_len),
        buffers(memory1, memory1_len, marks1, marks1_len),
        buffers(memory2, memory2_len, marks2, marks2_len),
        buffers(memory3, memory3_len, marks3, marks3_len),
    ];
    let collected = chips::collect(number_of(chips), base, &mut whole, &all);
    put(&whole, memory, marks);
    titled(collected.refusal, &collected.title)
}

#[no_mangle]
pub unsafe extern "C" fn srec_load_behind(
    text: *const u8,
    text_len: usize,
    base: u32,
    memory: *mut u8,
    memory_len: usize,
    marks: *mut u8,
    marks_len: usize,
) -> Loaded {
    let (memory, marks) = (lent_mut(memory, memory_len), lent_mut(marks, marks_len));
    loaded(&load_behind(lent(text, text_len), base, memory, marks))
}

#[no_mangle]
pub unsafe extern "C" fn srec_load_sheet(
    text: *const u8,
    text_len: usize,
    sheet: *const u8,
    sheet_len: usize,
    base: u32,
    memory: *mut u8,
    memory_len: usize,
    marks: *mut u8,
    marks_len: usize,
) -> Loaded {
    let (text, sheet) = (lent(text, text_len), lent(sheet, sheet_len));
    let (memory, marks) = (lent_mut(memory, memory_len), lent_mut(marks, marks_len));
    loaded(&load_sheet(text, sheet, base, memory, marks))
}

#[no_mangle]
pub unsafe extern "C" fn srec_span_sheet(
    text: *const u8,
    text_len: usize,
    sheet: *const u8,
    sheet_len: usize,
) -> Span {
    span(spans::span_sheet(lent(text, text_len), lent(sheet, sheet_len)))
}

#[no_mangle]
pub unsafe extern "C" fn srec_behind(text: *const u8, text_len: usize) -> usize {
    read_block(lent(text, text_len)).map_or(text_len, |block| block.end)
}

/// The most characters of a record that are held.
const HELD: usize = 516;

#[repr(C)]
pub struct Parts {
    reason: u32,
    want: u8,
    ended: u8,
    has_entry: u32,
    entry: u32,
    record: usize,
    place: usize,
    size: usize,
    total: usize,
    begins: usize,
    number: usize,
    records: usize,
    cells: usize,
    head: usize,
    held: usize,
    header: [u8; HEADER_ROOM],
    line: [u8; HELD],
}

#[repr(C)]
pub struct Ended {
    loaded: Loaded,
    parts: Parts,
}

fn given(state: &State) -> Parts {
    let refusal = state.refusal.unwrap_or_default();
    let mut line = [0; HELD];
    line[..state.line.len()].copy_from_slice(&state.line);
    Parts {
        reason: refusal.number,
        want: refusal.want,
        ended: u8::from(state.entry.is_some()),
        has_entry: u32::from(state.entry.is_some()),
        entry: state.entry.unwrap_or(0),
        record: refusal.record,
        place: refusal.place,
        size: state.size,
        total: state.total,
        begins: state.place,
        number: state.complete,
        records: state.data_records,
        cells: state.cells,
        head: state.head,
        held: state.line.len(),
        header: state.header,
        line,
    }
}

/// A state that cannot be is refused by row 1.
fn taken(parts: &Parts) -> State {
    let numbers = [parts.total, parts.begins, parts.number, parts.records, parts.cells];
    let fits = parts.head <= HEADER_ROOM && parts.held < HELD;
    let possible = fits && numbers.iter().all(|&number| number <= MOST);
    let refusal = Refusal {
        number: if possible { parts.reason } else { 1 },
        record: parts.record,
        place: parts.place,
        want: parts.want,
    };
    State {
        size: parts.size,
        total: parts.total,
        place: parts.begins,
        line: parts.line[..parts.held.min(HELD)].to_vec(),
        complete: parts.number,
        head: parts.head,
        header: parts.header,
        entry: entry_of(parts.has_entry, parts.entry),
        data_records: parts.records,
        cells: parts.cells,
        refusal: (refusal.number != 0).then_some(refusal),
    }
}

#[no_mangle]
pub unsafe extern "C" fn srec_begin(
    base: u32,
    memory: *const u8,
    memory_len: usize,
    marks: *mut u8,
    marks_len: usize,
) -> Parts {
    let mut memory = lent(memory, memory_len).to_vec();
    given(&parts::begin(base, &mut memory, lent_mut(marks, marks_len)))
}

#[no_mangle]
pub unsafe extern "C" fn srec_feed(
    state: Parts,
    part: *const u8,
    part_len: usize,
    base: u32,
    memory: *mut u8,
    memory_len: usize,
    marks: *mut u8,
    marks_len: usize,
) -> Parts {
    let (memory, marks) = (lent_mut(memory, memory_len), lent_mut(marks, marks_len));
    let part = lent(part, part_len);
    given(&parts::feed(taken(&state), part, base, memory, marks))
}

#[no_mangle]
pub unsafe extern "C" fn srec_end(
    state: Parts,
    base: u32,
    memory: *mut u8,
    memory_len: usize,
    marks: *mut u8,
    marks_len: usize,
) -> Ended {
    let (memory, marks) = (lent_mut(memory, memory_len), lent_mut(marks, marks_len));
    let (answer, behind) = parts::end(taken(&state), base, memory, marks);
    Ended {
        loaded: loaded(&answer),
        parts: given(&behind),
    }
}
