//! Writes, and the order of their rows.

use super::row;
use second::cases::tapes::{SUM_TAPES, TAPES};
use second::cases::RECORDS;
use second::packed::write;
use second::reading::{Refusal, Writer};

/// The arguments of a write with packed marks: nine cells, of which 0, 7 and 8 are
/// marked, and nothing to refuse.
#[derive(Clone)]
struct Arguments {
    base: u32,
    memory: Vec<u8>,
    packed: Vec<u8>,
    header: Vec<u8>,
    entry: Option<u32>,
    room: usize,
}

fn records() -> Arguments {
    Arguments {
        base: 0,
        memory: (0x10..0x19).collect(),
        packed: vec![0x81, 0x01],
        header: Vec::new(),
        entry: Some(0),
        room: 99,
    }
}

fn tape() -> Arguments {
    Arguments {
        entry: None,
        ..records()
    }
}

impl Arguments {
    /// The refusal and the text. The output behind it, and that of a refused
    /// write, must be as before.
    fn write(&self, writer: Writer) -> (Refusal, String) {
        let mut out = vec![0xEE; self.room];
        let (memory, packed, header) = (&self.memory, &self.packed, &self.header);
        let written = write(
            writer, self.base, memory, packed, header, self.entry, &mut out,
        );
        let (text, behind) = out.split_at(written.length);
        assert!(behind.iter().all(|&byte| byte == 0xEE));
        let text = String::from_utf8(text.to_vec()).unwrap();
        (written.refusal, text)
    }
}

#[test]
fn marked_cells_are_written() {
    let text = "S0030000FC\nS104000010EB\nS10500071718C4\nS5030002FA\nS9030000FC\n";
    let written = records().write(RECORDS.write);
    assert_eq!(written, (Refusal::default(), text.to_string()));
    let text = ";010000100011\r\n;02000717180038\r\n;0000020002\r\n";
    for drawing in [&TAPES, &SUM_TAPES] {
        let written = tape().write(drawing.write);
        assert_eq!(written, (Refusal::default(), text.to_string()));
    }
}

type Fault = (u32, usize, fn(&mut Arguments));

const PAST_THE_TOP: Fault = (1, 0, |write| write.base = u32::MAX);
const ROUNDED_DOWN: Fault = (1, 0, |write| write.packed.truncate(1));
const SPARE_BIT: Fault = (16, 9, |write| write.packed[1] |= 0x80);
const NO_ROOM: Fault = (17, 0, |write| write.room = 0);

/// All faults from one on are there: the row of that one is given.
#[track_caller]
fn in_order(right: &Arguments, writer: Writer, faults: &[Fault]) {
    for first in 0..faults.len() {
        let mut arguments = right.clone();
        // Rows that cut something come last here, so that all can be carried out.
        faults[first..]
            .iter()
            .rev()
            .for_each(|(_, _, fault)| fault(&mut arguments));
        let (number, place, _) = faults[first];
        let (refusal, text) = arguments.write(writer);
        assert_eq!((refusal, &text[..]), (row(number, place), ""));
    }
}

#[test]
fn rows_of_records_in_order() {
    let faults: [Fault; 6] = [
        ROUNDED_DOWN,
        PAST_THE_TOP,
        (15, 0, |write| write.header = vec![0; 253]),
        SPARE_BIT,
        (18, 0, |write| write.entry = None),
        (17, 61, NO_ROOM.2),
    ];
    in_order(&records(), RECORDS.write, &faults);
}

#[test]
fn rows_of_tapes_in_order() {
    let faults: [Fault; 6] = [
        ROUNDED_DOWN,
        PAST_THE_TOP,
        SPARE_BIT,
        (19, 0, |write| write.entry = Some(0)),
        (11, 8, |write| write.base = 0xFFF8),
        (17, 45, NO_ROOM.2),
    ];
    for drawing in [&TAPES, &SUM_TAPES] {
        in_order(&tape(), drawing.write, &faults);
    }
}

/// Row 16 with one of the rows behind it.
#[test]
fn row_16_before_each_later_row() {
    let later_of_records: [fn(&mut Arguments); 2] = [|write| write.entry = None, NO_ROOM.2];
    let later_of_tapes: [fn(&mut Arguments); 4] = [
        |write| write.entry = Some(0),
        |write| write.header = vec![0x41],
        |write| write.base = 0xFFF8,
        NO_ROOM.2,
    ];
    for (right, writer, later) in [
        (records(), RECORDS.write, &later_of_records[..]),
        (tape(), TAPES.write, &later_of_tapes),
        (tape(), SUM_TAPES.write, &later_of_tapes),
    ] {
        for fault in later {
            let mut arguments = right.clone();
            fault(&mut arguments);
            assert_ne!(arguments.write(writer).0, Refusal::default());
            (SPARE_BIT.2)(&mut arguments);
            assert_eq!(arguments.write(writer), (row(16, 9), String::new()));
        }
    }
}

/// Every spare bit of every length; the place is the memory's length.
#[test]
fn row_16_for_each_spare_bit() {
    for cells in 1..=17usize {
        for index in cells..cells.div_ceil(8) * 8 {
            let mut write = Arguments {
                memory: vec![0; cells],
                packed: vec![0; cells.div_ceil(8)],
                ..records()
            };
            assert_eq!(write.write(RECORDS.write).0, Refusal::default());
            write.packed[index / 8] = 1 << (index % 8);
            assert_eq!(write.write(RECORDS.write).0, row(16, cells));
            write.entry = None;
            assert_eq!(write.write(TAPES.write).0, row(16, cells));
        }
    }
}

#[test]
fn row_1_by_the_packed_length() {
    for (cells, wrong) in [(0, &[1][..]), (8, &[0, 2, 8]), (9, &[1, 3, 9])] {
        for &length in wrong {
            let write = Arguments {
                memory: vec![0; cells],
                packed: vec![0xFF; length],
                ..records()
            };
            assert_eq!(write.write(RECORDS.write).0, row(1, 0));
        }
    }
}
