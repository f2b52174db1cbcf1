//! Drawn cases in both forms: the packed one gives the answers, texts and memory of
//! the byte form, and marks that unpack to the same.

use second::cases::cuts::{parts_case, PartsCase};
use second::cases::tapes::{SUM_TAPES, TAPES};
use second::cases::{Drawing, LoadCase, WriteCase, RECORDS};
use second::overlay::{look, merge, Image, Title};
use second::packed::{self, length, pack, unpack};
use second::random::Random;
use second::reading::Loaded;

const CASES: u64 = 10_000;

/// What stands in packed bytes before a load; spare bits, too.
fn old(random: &mut Random, cells: usize) -> Vec<u8> {
    random.bytes(length(cells))
}

/// The packed bytes hold just these marks.
#[track_caller]
fn assert_packed(packed: &[u8], marks: &[u8]) {
    assert_eq!(packed, pack(marks));
    assert_eq!(unpack(packed, marks.len()), marks);
}

fn check_load(drawing: &Drawing, random: &mut Random, case: &LoadCase) {
    let cells = case.memory.len();
    let (mut memory, mut marks) = (case.memory.clone(), vec![0; cells]);
    let wanted = (drawing.load)(&case.text, case.base, &mut memory, &mut marks);
    let (mut other_memory, mut packed) = (case.memory.clone(), old(random, cells));
    let (text, base) = (&case.text, case.base);
    let loaded = packed::load(drawing.load, text, base, &mut other_memory, &mut packed);
    assert_eq!((loaded, other_memory), (wanted, memory));
    assert_packed(&packed, &marks);
}

#[test]
fn loads() {
    for drawing in [&RECORDS, &TAPES, &SUM_TAPES] {
        let random = &mut Random::new(3, 0);
        for index in 0..CASES {
            let case = drawing.load_case(1, index, drawing.small);
            check_load(drawing, random, &case);
        }
    }
}

fn check_write(drawing: &Drawing, case: &WriteCase) {
    let WriteCase {
        base,
        memory,
        marks,
        header,
        entry,
        room,
    } = case;
    let (mut out, mut other_out) = (vec![0xEE; *room], vec![0xEE; *room]);
    let wanted = (drawing.write)(*base, memory, marks, header, *entry, &mut out);
    let writer = drawing.write;
    let packed = pack(marks);
    let written = packed::write(
        writer,
        *base,
        memory,
        &packed,
        header,
        *entry,
        &mut other_out,
    );
    assert_eq!((written, other_out), (wanted, out));
}

#[test]
fn writes() {
    for drawing in [&RECORDS, &TAPES, &SUM_TAPES] {
        for index in 0..CASES {
            let case = drawing.write_case(1, index, drawing.small);
            let right = case.marks.iter().all(|&mark| mark <= 1);
            if right && case.marks.len() == case.memory.len() {
                check_write(drawing, &case);
            }
        }
    }
}

fn in_parts(random: &mut Random, case: &PartsCase) -> (Loaded, Vec<u8>, Vec<u8>) {
    let (base, mut memory) = (case.base, case.memory.clone());
    let mut packed = old(random, memory.len());
    let mut state = packed::begin(base, &mut memory, &mut packed);
    for part in &case.parts {
        state = packed::feed(state, part, base, &mut memory, &mut packed);
    }
    let (loaded, _) = packed::end(state, base, &mut memory, &mut packed);
    (loaded, memory, packed)
}

#[test]
fn loads_in_parts() {
    let random = &mut Random::new(4, 0);
    for index in 0..CASES {
        let mut case = parts_case(2, index, RECORDS.small);
        case.marks = vec![0; case.memory.len()];
        let (wanted, memory, marks) = case.run();
        let (loaded, other_memory, packed) = in_parts(random, &case);
        assert_eq!((loaded, other_memory), (wanted, memory));
        assert_packed(&packed, &marks);
    }
}

fn image<'a>(memory: &'a [u8], marks: &'a [u8]) -> Image<'a> {
    Image { memory, marks }
}

/// Two images of so many cells, of any marks.
fn images(random: &mut Random, cells: usize) -> [(Vec<u8>, Vec<u8>); 2] {
    [(); 2].map(|()| {
        let density = random.pick(&[1, 8, 15]);
        let mark = |random: &mut Random| u8::from(random.chance(density, 16));
        let marks = (0..cells).map(|_| mark(random)).collect();
        (random.bytes(cells), marks)
    })
}

#[test]
fn looks_and_merges() {
    let random = &mut Random::new(5, 0);
    for _ in 0..CASES {
        let cells = random.size(0, 20);
        let [(mut memory, mut marks), (patch_memory, patch_marks)] = images(random, cells);
        let (mut packed, patch_packed) = (pack(&marks), pack(&patch_marks));
        let patch = image(&patch_memory, &patch_marks);
        let patch_bits = image(&patch_memory, &patch_packed);
        for address in 9..=11 + cells as u32 {
            let wanted = look(10, image(&memory, &marks), patch, address);
            let shown = packed::look(10, image(&memory, &packed), patch_bits, address);
            assert_eq!(shown, wanted);
        }
        let mut other_memory = memory.clone();
        let title = &Title::default();
        let wanted = merge(10, &mut memory, &mut marks, title, patch, title);
        let merged = packed::merge(10, &mut other_memory, &mut packed, title, patch_bits, title);
        assert_eq!((merged, &other_memory), (wanted, &memory));
        assert_packed(&packed, &marks);
    }
}
