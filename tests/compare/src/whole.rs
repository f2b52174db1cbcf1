//! The library's functions that give whole answers, as include/srec.h declares them.

use second::chips::{Collected, CHIPS};
use second::overlay::{Image, Merged};
use second::reading::{self, Refusal, HEADER_ROOM};
use second::spans;

#[repr(C)]
#[derive(Clone, Copy, Debug, PartialEq, Eq)]
pub struct Loaded {
    pub reason: u32,
    pub want: u32,
    pub record: usize,
    pub place: usize,
    pub records: usize,
    pub cells: usize,
    pub has_entry: u32,
    pub entry: u32,
    pub header_len: usize,
    pub header: [u8; HEADER_ROOM],
}

#[repr(C)]
#[derive(Clone, Copy, Debug, PartialEq, Eq)]
pub struct Written {
    pub reason: u32,
    pub place: usize,
    pub length: usize,
}

#[repr(C)]
#[derive(Clone, Copy, Debug, PartialEq, Eq)]
pub struct Span {
    pub any: u32,
    pub lowest: u64,
    pub highest: u64,
}

#[repr(C)]
#[derive(Clone, Copy, Debug, PartialEq, Eq)]
pub struct Origin {
    pub record: usize,
    pub place: usize,
    pub byte: u32,
}

/// The most characters of a record that a load in parts holds.
pub const HELD: usize = 516;

/// The state of a load in parts.
#[repr(C)]
#[derive(Clone, Copy, Debug)]
pub struct Parts {
    pub reason: u32,
    pub want: u8,
    pub ended: u8,
    pub has_entry: u32,
    pub entry: u32,
    pub record: usize,
    pub place: usize,
    pub size: usize,
    pub total: usize,
    pub begins: usize,
    pub number: usize,
    pub records: usize,
    pub cells: usize,
    pub head: usize,
    pub held: usize,
    pub header: [u8; HEADER_ROOM],
    pub line: [u8; HELD],
}

/// What ended a load in parts: its answer, and the state behind it.
#[repr(C)]
#[derive(Clone, Copy, Debug)]
pub struct Ended {
    pub loaded: Loaded,
    pub parts: Parts,
}

/// The second reading's answers as C has them.
impl From<&reading::Loaded> for Loaded {
    fn from(loaded: &reading::Loaded) -> Loaded {
        Loaded {
            records: loaded.records,
            cells: loaded.cells,
            has_entry: u32::from(loaded.entry.is_some()),
            entry: loaded.entry.unwrap_or(0),
            header_len: loaded.header_len,
            header: loaded.header,
            ..Loaded::from(loaded.refusal)
        }
    }
}

impl From<Refusal> for Loaded {
    fn from(refusal: Refusal) -> Loaded {
        Loaded {
            reason: refusal.number,
            want: u32::from(refusal.want),
            record: refusal.record,
            place: refusal.place,
            records: 0,
            cells: 0,
            has_entry: 0,
            entry: 0,
            header_len: 0,
            header: [0; HEADER_ROOM],
        }
    }
}

impl From<&Merged> for Loaded {
    fn from(merged: &Merged) -> Loaded {
        let own = &merged.title.header;
        let mut header = [0; HEADER_ROOM];
        header[..own.len()].copy_from_slice(own);
        Loaded {
            has_entry: u32::from(merged.title.entry.is_some()),
            entry: merged.title.entry.unwrap_or(0),
            header_len: own.len(),
            header,
            ..Loaded::from(merged.refusal)
        }
    }
}

impl From<&Collected> for Loaded {
    fn from(collected: &Collected) -> Loaded {
        Loaded::from(&Merged {
            refusal: collected.refusal,
            title: collected.title.clone(),
        })
    }
}

impl From<reading::Written> for Written {
    fn from(written: reading::Written) -> Written {
        Written {
            reason: written.refusal.number,
            place: written.refusal.place,
            length: written.length,
        }
    }
}

impl From<Option<spans::Span>> for Span {
    fn from(span: Option<spans::Span>) -> Span {
        Span {
            any: u32::from(span.is_some()),
            lowest: span.map_or(0, |span| span.lowest),
            highest: span.map_or(0, |span| span.highest),
        }
    }
}

impl From<Option<spans::Origin>> for Origin {
    fn from(origin: Option<spans::Origin>) -> Origin {
        Origin {
            record: origin.map_or(0, |origin| origin.record),
            place: origin.map_or(0, |origin| origin.place),
            byte: origin.map_or(0, |origin| u32::from(origin.byte)),
        }
    }
}

/// The number of S-records.
pub const RECORDS: u32 = 2;

/// The two words by which C says an entry: whether there is one, and which.
pub type Entry = (u32, u32);

type In = *const u8;
type Out = *mut u8;

extern "C" {
    fn srec_load_as(
        format: u32,
        text: In,
        text_len: usize,
        base: u32,
        memory: Out,
        memory_len: usize,
        marks: Out,
        marks_len: usize,
    ) -> Loaded;

    fn srec_write_as(
        format: u32,
        base: u32,
        memory: In,
        memory_len: usize,
        marks: In,
        marks_len: usize,
        header: In,
        header_len: usize,
        has_entry: u32,
        entry: u32,
        out: Out,
        out_len: usize,
    ) -> Written;

    fn srec_room(
        format: u32,
        base: u32,
        memory: In,
        memory_len: usize,
        marks: In,
        marks_len: usize,
        header: In,
        header_len: usize,
        has_entry: u32,
        entry: u32,
    ) -> Written;

    fn srec_span(format: u32, text: In, text_len: usize) -> Span;

    fn srec_where(format: u32, text: In, text_len: usize, address: u32) -> Origin;

    fn srec_merge(
        base: u32,
        memory: Out,
        memory_len: usize,
        marks: Out,
        marks_len: usize,
        header: In,
        header_len: usize,
        has_entry: u32,
        entry: u32,
        patch_memory: In,
        patch_memory_len: usize,
        patch_marks: In,
        patch_marks_len: usize,
        patch_header: In,
        patch_header_len: usize,
        patch_has_entry: u32,
        patch_entry: u32,
    ) -> Loaded;

    fn srec_deal(
        chips: usize,
        base: u32,
        memory: In,
        memory_len: usize,
        marks: In,
        marks_len: usize,
        memory0: Out,
        memory0_len: usize,
        marks0: Out,
        marks0_len: usize,
        memory1: Out,
        memory1_len: usize,
        marks1: Out,
        marks1_len: usize,
        memory2: Out,
        memory2_len: usize,
        marks2: Out,
        marks2_len: usize,
        memory3: Out,
        memory3_len: usize,
        marks3: Out,
        marks3_len: usize,
    ) -> Loaded;

    fn srec_collect(
        chips: usize,
        base: u32,
        memory: Out,
        memory_len: usize,
        marks: Out,
        marks_len: usize,
        memory0: In,
        memory0_len: usize,
        marks0: In,
        marks0_len: usize,
        memory1: In,
        memory1_len: usize,
        marks1: In,
        marks1_len: usize,
        memory2: In,
        memory2_len: usize,
        marks2: In,
        marks2_len: usize,
        memory3: In,
        memory3_len: usize,
        marks3: In,
        marks3_len: usize,
    ) -> Loaded;

    fn srec_load_behind(
        text: In,
        text_len: usize,
        base: u32,
        memory: Out,
        memory_len: usize,
        marks: Out,
        marks_len: usize,
    ) -> Loaded;

    fn srec_load_sheet(
        text: In,
        text_len: usize,
        sheet: In,
        sheet_len: usize,
        base: u32,
        memory: Out,
        memory_len: usize,
        marks: Out,
        marks_len: usize,
    ) -> Loaded;

    fn srec_span_sheet(text: In, text_len: usize, sheet: In, sheet_len: usize) -> Span;

    fn srec_behind(text: In, text_len: usize) -> usize;

    fn srec_begin(base: u32, memory: In, memory_len: usize, marks: Out, marks_len: usize) -> Parts;

    fn srec_feed(
        parts: Parts,
        part: In,
        part_len: usize,
        base: u32,
        memory: Out,
        memory_len: usize,
        marks: Out,
        marks_len: usize,
    ) -> Parts;

    fn srec_end(
        parts: Parts,
        base: u32,
        memory: Out,
        memory_len: usize,
        marks: Out,
        marks_len: usize,
    ) -> Ended;
}

/// A buffer of length 0 may have any pointer: it is NULL here.
fn at(bytes: &[u8]) -> In {
    match bytes {
        [] => std::ptr::null(),
        _ => bytes.as_ptr(),
    }
}

fn at_mut(bytes: &mut [u8]) -> Out {
    match bytes {
        [] => std::ptr::null_mut(),
        _ => bytes.as_mut_ptr(),
    }
}

pub fn load(format: u32, text: &[u8], base: u32, memory: &mut [u8], marks: &mut [u8]) -> Loaded {
    // SAFETY: each pointer goes with the length of its own slice, and slices
    // that can be changed overlap no other.
    unsafe {
        srec_load_as(
            format,
            at(text),
            text.len(),
            base,
            at_mut(memory),
            memory.len(),
            at_mut(marks),
            marks.len(),
        )
    }
}

/// An image to write, with its header and its entry.
#[derive(Clone, Copy)]
pub struct Source<'a> {
    pub base: u32,
    pub memory: &'a [u8],
    pub marks: &'a [u8],
    pub header: &'a [u8],
    pub entry: Entry,
}

pub fn write(format: u32, source: Source, out: &mut [u8]) -> Written {
    // SAFETY: as above; only `out` can be changed.
    unsafe {
        srec_write_as(
            format,
            source.base,
            at(source.memory),
            source.memory.len(),
            at(source.marks),
            source.marks.len(),
            at(source.header),
            source.header.len(),
            source.entry.0,
            source.entry.1,
            at_mut(out),
            out.len(),
        )
    }
}

pub fn room(format: u32, source: Source) -> Written {
    // SAFETY: as above; nothing can be changed.
    unsafe {
        srec_room(
            format,
            source.base,
            at(source.memory),
            source.memory.len(),
            at(source.marks),
            source.marks.len(),
            at(source.header),
            source.header.len(),
            source.entry.0,
            source.entry.1,
        )
    }
}

pub fn span(format: u32, text: &[u8]) -> Span {
    // SAFETY: as above.
    unsafe { srec_span(format, at(text), text.len()) }
}

pub fn origin(format: u32, text: &[u8], address: u32) -> Origin {
    // SAFETY: as above.
    unsafe { srec_where(format, at(text), text.len(), address) }
}

pub fn merge(
    base: u32,
    (memory, marks): (&mut [u8], &mut [u8]),
    (header, entry): (&[u8], Entry),
    patch: Image,
    (patch_header, patch_entry): (&[u8], Entry),
) -> Loaded {
    // SAFETY: as above; only `memory` and `marks` can be changed.
    unsafe {
        srec_merge(
            base,
            at_mut(memory),
            memory.len(),
            at_mut(marks),
            marks.len(),
            at(header),
            header.len(),
            entry.0,
            entry.1,
            at(patch.memory),
            patch.memory.len(),
            at(patch.marks),
            patch.marks.len(),
            at(patch_header),
            patch_header.len(),
            patch_entry.0,
            patch_entry.1,
        )
    }
}

/// Memory and marks that are lent to be changed.
pub type Lent<'a> = (&'a mut [u8], &'a mut [u8]);

pub fn deal(chips: usize, base: u32, whole: Image, lent: [Lent; CHIPS]) -> Loaded {
    let [(m0, k0), (m1, k1), (m2, k2), (m3, k3)] = lent;
    // SAFETY: as above.
    unsafe {
        srec_deal(
            chips,
            base,
            at(whole.memory),
            whole.memory.len(),
            at(whole.marks),
            whole.marks.len(),
            at_mut(m0),
            m0.len(),
            at_mut(k0),
            k0.len(),
            at_mut(m1),
            m1.len(),
            at_mut(k1),
            k1.len(),
            at_mut(m2),
            m2.len(),
            at_mut(k2),
            k2.len(),
            at_mut(m3),
            m3.len(),
            at_mut(k3),
            k3.len(),
        )
    }
}

pub fn collect(chips: usize, base: u32, (memory, marks): Lent, sending: [Image; CHIPS]) -> Loaded {
    let [a, b, c, d] = sending;
    // SAFETY: as above.
    unsafe {
        srec_collect(
            chips,
            base,
            at_mut(memory),
            memory.len(),
            at_mut(marks),
            marks.len(),
            at(a.memory),
            a.memory.len(),
            at(a.marks),
            a.marks.len(),
            at(b.memory),
            b.memory.len(),
            at(b.marks),
            b.marks.len(),
            at(c.memory),
            c.memory.len(),
            at(c.marks),
            c.marks.len(),
            at(d.memory),
            d.memory.len(),
            at(d.marks),
            d.marks.len(),
        )
    }
}

pub fn load_behind(text: &[u8], base: u32, memory: &mut [u8], marks: &mut [u8]) -> Loaded {
    // SAFETY: as above.
    unsafe {
        srec_load_behind(
            at(text),
            text.len(),
            base,
            at_mut(memory),
            memory.len(),
            at_mut(marks),
            marks.len(),
        )
    }
}

pub fn load_sheet(
    text: &[u8],
    sheet: &[u8],
    base: u32,
    memory: &mut [u8],
    marks: &mut [u8],
) -> Loaded {
    // SAFETY: as above.
    unsafe {
        srec_load_sheet(
            at(text),
            text.len(),
            at(sheet),
            sheet.len(),
            base,
            at_mut(memory),
            memory.len(),
            at_mut(marks),
            marks.len(),
        )
    }
}

pub fn span_sheet(text: &[u8], sheet: &[u8]) -> Span {
    // SAFETY: as above.
    unsafe { srec_span_sheet(at(text), text.len(), at(sheet), sheet.len()) }
}

pub fn behind(text: &[u8]) -> usize {
    // SAFETY: as above.
    unsafe { srec_behind(at(text), text.len()) }
}

pub fn begin(base: u32, memory: &[u8], marks: &mut [u8]) -> Parts {
    // SAFETY: as above.
    unsafe { srec_begin(base, at(memory), memory.len(), at_mut(marks), marks.len()) }
}

pub fn feed(parts: Parts, part: &[u8], base: u32, memory: &mut [u8], marks: &mut [u8]) -> Parts {
    // SAFETY: as above; a state may hold anything.
    unsafe {
        srec_feed(
            parts,
            at(part),
            part.len(),
            base,
            at_mut(memory),
            memory.len(),
            at_mut(marks),
            marks.len(),
        )
    }
}

pub fn end(parts: Parts, base: u32, memory: &mut [u8], marks: &mut [u8]) -> Ended {
    // SAFETY: as above.
    unsafe {
        srec_end(
            parts,
            base,
            at_mut(memory),
            memory.len(),
            at_mut(marks),
            marks.len(),
        )
    }
}
