//! The library's functions, as include/srec.h declares them.

use second::tape::Edition;

extern "C" {
    fn srec_load(
        text: *const u8,
        text_len: usize,
        base: u32,
        memory: *mut u8,
        memory_len: usize,
        marks: *mut u8,
        marks_len: usize,
    ) -> u32;

    fn srec_write(
        base: u32,
        memory: *const u8,
        memory_len: usize,
        marks: *const u8,
        marks_len: usize,
        header: *const u8,
        header_len: usize,
        entry: u32,
        out: *mut u8,
        out_len: usize,
    ) -> usize;

    fn srec_load_tape(
        edition: u32,
        text: *const u8,
        text_len: usize,
        base: u32,
        memory: *mut u8,
        memory_len: usize,
        marks: *mut u8,
        marks_len: usize,
    ) -> u32;

    fn srec_write_tape(
        edition: u32,
        base: u32,
        memory: *const u8,
        memory_len: usize,
        marks: *const u8,
        marks_len: usize,
        out: *mut u8,
        out_len: usize,
    ) -> usize;
}

/// Text, base, memory and marks; gives 0, or the number of the row that refuses it.
pub type Load = fn(&[u8], u32, &mut [u8], &mut [u8]) -> u32;

/// Base, memory, marks, header, entry and output; gives the length, or 0 if a row
/// refuses it.
pub type Write = fn(u32, &[u8], &[u8], &[u8], Option<u32>, &mut [u8]) -> usize;

pub fn load(text: &[u8], base: u32, memory: &mut [u8], marks: &mut [u8]) -> u32 {
    // SAFETY: each pointer goes with the length of its own slice, and slices
    // that can be changed overlap no other.
    unsafe {
        srec_load(
            text.as_ptr(),
            text.len(),
            base,
            memory.as_mut_ptr(),
            memory.len(),
            marks.as_mut_ptr(),
            marks.len(),
        )
    }
}

pub fn load_tape(
    edition: Edition,
    text: &[u8],
    base: u32,
    memory: &mut [u8],
    marks: &mut [u8],
) -> u32 {
    // SAFETY: as above.
    unsafe {
        srec_load_tape(
            number(edition),
            text.as_ptr(),
            text.len(),
            base,
            memory.as_mut_ptr(),
            memory.len(),
            marks.as_mut_ptr(),
            marks.len(),
        )
    }
}

/// The number by which C names an edition.
fn number(edition: Edition) -> u32 {
    match edition {
        Edition::Repeat => 0,
        Edition::Sum => 1,
    }
}

/// C has no way to leave the entry out: it gives 0 for one that is absent.
pub fn write(
    base: u32,
    memory: &[u8],
    marks: &[u8],
    header: &[u8],
    entry: Option<u32>,
    out: &mut [u8],
) -> usize {
    // SAFETY: as above; only `out` can be changed.
    unsafe {
        srec_write(
            base,
            memory.as_ptr(),
            memory.len(),
            marks.as_ptr(),
            marks.len(),
            header.as_ptr(),
            header.len(),
            entry.unwrap_or(0),
            out.as_mut_ptr(),
            out.len(),
        )
    }
}

/// C can give neither a header nor an entry to a tape.
pub fn write_tape(
    edition: Edition,
    base: u32,
    memory: &[u8],
    marks: &[u8],
    out: &mut [u8],
) -> usize {
    // SAFETY: as above.
    unsafe {
        srec_write_tape(
            number(edition),
            base,
            memory.as_ptr(),
            memory.len(),
            marks.as_ptr(),
            marks.len(),
            out.as_mut_ptr(),
            out.len(),
        )
    }
}
