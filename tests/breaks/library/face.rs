//! The functions of include/srec.h over a copy of the second reading, to be edited wrongly.

mod chips;
mod expressions;
mod overlay;
mod parts;
mod reading;
mod sheets;
mod spans;
mod symbols;
mod tape;
mod whole;

use std::slice::{from_raw_parts, from_raw_parts_mut};

/// Any pointer will do for a length of 0.
unsafe fn lent<'a>(pointer: *const u8, length: usize) -> &'a [u8] {
    if length == 0 {
        return &[];
    }
    from_raw_parts(pointer, length)
}

unsafe fn lent_mut<'a>(pointer: *mut u8, length: usize) -> &'a mut [u8] {
    if length == 0 {
        return &mut [];
    }
    from_raw_parts_mut(pointer, length)
}

/// # Safety
/// As in include/srec.h.
#[no_mangle]
pub unsafe extern "C" fn srec_load(
    text: *const u8,
    text_len: usize,
    base: u32,
    memory: *mut u8,
    memory_len: usize,
    marks: *mut u8,
    marks_len: usize,
) -> u32 {
    // load starts
    let lines = lent(text, text_len);
    let cells = lent_mut(memory, memory_len);
    let number = reading::load(lines, base, cells, lent_mut(marks, marks_len))
        .refusal
        .number;
    // load ends
    number
}

/// # Safety
/// As in include/srec.h.
#[no_mangle]
pub unsafe extern "C" fn srec_write(
    base: u32,
    memory: *const u8,
    memory_len: usize,
    marks: *const u8,
    marks_len: usize,
    header: *const u8,
    header_len: usize,
    entry: u32,
    out: *mut u8,
    out_len: usize,
) -> usize {
    // write starts
    let cells = lent(memory, memory_len);
    let title = lent(header, header_len);
    let room = lent_mut(out, out_len);
    let marks = lent(marks, marks_len);
    let length = reading::write(base, cells, marks, title, Some(entry), room).length;
    // write ends
    length
}

/// # Safety
/// As in include/srec.h.
#[no_mangle]
pub unsafe extern "C" fn srec_load_tape(
    edition: u32,
    text: *const u8,
    text_len: usize,
    base: u32,
    memory: *mut u8,
    memory_len: usize,
    marks: *mut u8,
    marks_len: usize,
) -> u32 {
    // tape load starts
    let lines = lent(text, text_len);
    let cells = lent_mut(memory, memory_len);
    let loaded = tape::load_tape(named(edition), lines, base, cells, lent_mut(marks, marks_len));
    // tape load ends
    loaded.refusal.number
}

/// # Safety
/// As in include/srec.h.
#[no_mangle]
pub unsafe extern "C" fn srec_write_tape(
    edition: u32,
    base: u32,
    memory: *const u8,
    memory_len: usize,
    marks: *const u8,
    marks_len: usize,
    out: *mut u8,
    out_len: usize,
) -> usize {
    // tape write starts
    let cells = lent(memory, memory_len);
    let marks = lent(marks, marks_len);
    let room = lent_mut(out, out_len);
    let written = tape::write_tape(named(edition), base, cells, marks, &[], None, room);
    // tape write ends
    written.length
}

/// The edition that a number names.
fn named(edition: u32) -> tape::Edition {
    match edition {
        0 => tape::Edition::Repeat,
        _ => tape::Edition::Sum,
    }
}
