//! Tapes.

use super::{unequal_marks_are_refused, unwritten, Outcome};
use second::cases::tapes;
use second::reading::{Refusal, Written};
use second::tape::Edition::{Repeat, Sum};
use second::tape::{self, Edition, EDITIONS};

/// For a tape on which the editions agree: one with fewer than 256 data lines
/// whose last line has such a number, too.
#[track_caller]
fn load_at(text: &str, base: u32, length: usize) -> Outcome {
    let [outcome, other] = EDITIONS.map(|edition| load_in(edition, text, base, length));
    assert_eq!(outcome.loaded, other.loaded);
    assert_eq!(
        (&outcome.memory, &outcome.marks),
        (&other.memory, &other.marks)
    );
    outcome
}

#[track_caller]
fn load_in(edition: Edition, text: &str, base: u32, length: usize) -> Outcome {
    let outcome = super::load_at(tapes::of(edition).load, text, base, length);
    // Also in an accepted one, and no right check is told in row 7.
    let loaded = &outcome.loaded;
    assert_eq!((loaded.header_len, loaded.header), (0, [0; 252]));
    assert_eq!((loaded.entry, loaded.refusal.want), (None, 0));
    outcome
}

/// Number, record and place of a load into 1,024 cells from 0 on.
#[track_caller]
fn refusal(text: &str) -> (u32, usize, usize) {
    refusal_at(text, 0, 1024)
}

#[track_caller]
fn refusal_at(text: &str, base: u32, length: usize) -> (u32, usize, usize) {
    load_at(text, base, length).refusal()
}

/// The same in one edition: in the other it may be another one.
#[track_caller]
fn refusal_in(edition: Edition, text: &str) -> (u32, usize, usize) {
    load_in(edition, text, 0, 1024).refusal()
}

/// The tape must be accepted with so many data lines and cells, and written
/// again as `wanted`, whose lines are ended by LF here.
#[track_caller]
fn accepted_at(text: &str, window: (u32, usize), counts: (usize, usize), wanted: &str) {
    let outcome = load_at(text, window.0, window.1);
    assert_eq!(outcome.loaded.refusal, Refusal::default());
    assert_eq!(outcome.counts(), (counts.0, counts.1, None));
    let marked = outcome.marks.iter().filter(|&&mark| mark == 1).count();
    assert_eq!(marked, counts.1);
    for (byte, mark) in outcome.memory.iter().zip(&outcome.marks) {
        assert!(*mark == 1 || *mark == 0 && *byte == 0xEE);
    }
    assert_eq!(written(window.0, &outcome.memory, &outcome.marks), wanted);
}

#[track_caller]
fn accepted(text: &str, counts: (usize, usize), wanted: &str) {
    accepted_at(text, (0, 1024), counts, wanted);
}

/// What both editions answer and write: there are fewer than 256 data lines.
#[track_caller]
fn write_tape(
    base: u32,
    memory: &[u8],
    marks: &[u8],
    header: &[u8],
    entry: Option<u32>,
    out: &mut [u8],
) -> Written {
    let mut other = out.to_vec();
    let [written, again] = [(Repeat, &mut *out), (Sum, &mut other[..])]
        .map(|(edition, out)| tape::write_tape(edition, base, memory, marks, header, entry, out));
    assert_eq!((written, out), (again, &mut other[..]));
    written
}

#[track_caller]
fn canonical_tape(base: u32, memory: &[u8], marks: &[u8]) -> Vec<u8> {
    let [tape, other] = EDITIONS.map(|edition| tape::canonical_tape(edition, base, memory, marks));
    assert_eq!(tape, other);
    tape
}

/// The canonical tape with lines ended by LF, to be read more easily.
#[track_caller]
fn written(base: u32, memory: &[u8], marks: &[u8]) -> String {
    let mut out = vec![0; 20_000];
    let written = write_tape(base, memory, marks, &[], None, &mut out);
    assert_eq!(written.refusal, Refusal::default());
    let text = String::from_utf8(out[..written.length].to_vec()).unwrap();
    // Every LF stands behind a CR, every CR before an LF.
    assert_eq!(text.replace("\r\n", "").find(['\r', '\n']), None);
    text.replace("\r\n", "\n")
}

/// The first sample of srec_mos_tech(5). 0C and the letters' 1096 are 1108,
/// which is 454.
const HELLO: &str = ";0C000048656C6C6F2C20576F726C640454\n;0000010001\n";

/// The sample of the KIM-1 manual. 18 and the data's 2788 are 2812, which is
/// AFC.
const KIM: &str = ";180000FFEEDDCCBBAA0099887766554433221122334455667788990AFC\n;0000010001\n";

#[test]
fn samples_pass_as_printed() {
    accepted(HELLO, (1, 12), HELLO);
    let outcome = load_at(HELLO, 0, 13);
    assert_eq!(outcome.memory, b"Hello, World\xEE");
    accepted(KIM, (1, 24), KIM);
    let outcome = load_at(KIM, 0, 24);
    assert_eq!(outcome.memory[..7], [0xFF, 0xEE, 0xDD, 0xCC, 0xBB, 0xAA, 0]);
    assert_eq!(
        outcome.memory[7..],
        *b"\x99\x88\x77\x66\x55\x44\x33\x22\x11\x22\x33\x44\x55\x66\x77\x88\x99"
    );
    // With the line ends that both pages describe: CR and LF, six NUL behind
    // them in the manual, and XOFF at the end.
    accepted(&HELLO.replace('\n', "\r\n"), (1, 12), HELLO);
    let transmitted = KIM.replace('\n', "\r\n\0\0\0\0\0\0") + "\x13";
    accepted(&transmitted, (1, 24), KIM);
}

#[test]
fn what_the_pages_say_and_the_rules_refuse() {
    // The legend of the fields: its second character is a space.
    assert_eq!(refusal("; Length Address Data Checksum CRLF\n"), (5, 1, 1));
    // The KIM-1 ignores what stands ahead of the first `;`.
    assert_eq!(refusal(&format!("x{KIM}")), (4, 1, 0));
    assert_eq!(refusal(&format!("KIM\n{KIM}")), (4, 1, 0));
    assert_eq!(refusal(&format!(" {KIM}")), (4, 1, 0));
    // One page's tapes behind each other: 59 + 1 + 11 + 1 characters.
    assert_eq!(refusal(&format!("{KIM}{HELLO}")), (2, 3, 72));
    // The last line's usual sum, as the manual has it, is another one than the
    // number, as the page has it, from 256 lines on: each refuses the other's.
    let lines = one_cell_lines(256);
    let [number, sum] = [";0001000100", ";0001000001"].map(|last| format!("{lines}{last}"));
    assert_eq!(refusal_in(Repeat, &sum), (7, 257, 256 * 14));
    assert_eq!(refusal_in(Sum, &number), (7, 257, 256 * 14));
    // An S-record text is no tape, and a tape's line no S-record.
    assert_eq!(refusal("S9030000FC"), (4, 1, 0));
}

/// So many data lines of one cell each, from 0 on, of 14 characters with their
/// ends. The cell has the low byte of its address.
fn one_cell_lines(number: usize) -> String {
    let line = |address: usize| {
        let sum = 1 + address / 256 + address % 256 + address % 256;
        format!(";01{address:04X}{:02X}{sum:04X}\n", address % 256)
    };
    (0..number).map(line).collect()
}

#[test]
fn empty_tape() {
    for text in [";0000000000", ";0000000000\r\n", "\0;0000000000\x13"] {
        accepted(text, (0, 0), ";0000000000\n");
        accepted_at(text, (0, 0), (0, 0), ";0000000000\n");
        accepted_at(text, (0xFFFF_FFFF, 1), (0, 0), ";0000000000\n");
    }
    assert_eq!(canonical_tape(0, &[], &[]), b";0000000000\r\n");
    assert_eq!(
        canonical_tape(0x1_0000, &[1, 2], &[0, 0]),
        b";0000000000\r\n"
    );
}

#[test]
fn no_last_line() {
    assert_eq!(refusal(""), (14, 0, 0));
    assert_eq!(refusal("\r\n\0\0\x13"), (14, 0, 5));
    assert_eq!(refusal(";010000AA00AB"), (14, 1, 13));
    assert_eq!(refusal(";010000AA00AB\r\n\0;010001AA00AC\x13"), (14, 2, 30));
}

#[test]
fn window_that_is_not_allowed() {
    for edition in EDITIONS {
        unequal_marks_are_refused(tapes::of(edition).load, ";0000000000");
    }
    assert_eq!(refusal_at(";0000000000", 0xFFFF_FFFF, 2), (1, 0, 0));
    assert_eq!(refusal_at(";0000000000", 0xFFFF_FFFF, 1), (0, 0, 0));
    assert_eq!(refusal_at("x", 0xFFFF_FFFF, 2), (1, 0, 0));
}

#[test]
fn lines_behind_the_last_line() {
    for line in [";0000000000", ";0000010001", ";010000AA00AB", "x", ";"] {
        let text = format!(";0000000000\r\n{line}");
        assert_eq!(refusal(&text), (2, 2, 13), "{line}");
    }
    // Two last lines, the second with the number of data lines in it.
    let text = ";010000AA00AB\n;0000010001\n;0000010001";
    assert_eq!(refusal(text), (2, 3, 26));
    // Row 2 comes before row 3; separators are no lines.
    let long = "0".repeat(600);
    assert_eq!(refusal(&format!(";0000000000\x13{long}")), (2, 2, 12));
    assert_eq!(refusal(";0000000000\r\n\0\0\0\x13\x13"), (0, 0, 0));
}

#[test]
fn longest_line() {
    // FF and address 1 come to 256, which is 100; the data is 0.
    let line = format!(";FF0001{}0100", "00".repeat(255));
    assert_eq!(line.len(), 521);
    let outcome = load_at(&format!("{line}\n;0000010001"), 0, 1024);
    assert_eq!(outcome.loaded.refusal, Refusal::default());
    assert_eq!(outcome.counts(), (1, 255, None));
    assert_eq!((outcome.marks[0], outcome.marks[1]), (0, 1));
    assert_eq!((outcome.marks[255], outcome.marks[256]), (1, 0));
    assert_eq!(refusal(&format!("{line}0\n;0000010001")), (3, 1, 0));
    // Row 3 comes before rows 4 and 5. With 521 characters row 4 does.
    assert_eq!(refusal(&"x".repeat(522)), (3, 1, 0));
    assert_eq!(refusal(&"x".repeat(521)), (4, 1, 0));
    assert_eq!(refusal(&format!(";{}", "x".repeat(520))), (5, 1, 1));
    assert_eq!(refusal(&format!(";{}", "0".repeat(520))), (6, 1, 0));
    // 520 characters do not go with any length.
    assert_eq!(refusal(&line[..520]), (6, 1, 0));
}

#[test]
fn sums_about_65536() {
    // 255 bytes of FF are 65,025, with the length 65,280: the address decides.
    // FF and 01 are 256, and make it 65,536.
    let data = "FF".repeat(255);
    for (address, sum) in [
        (0x0000, "FF00"),
        (0xFF00, "FFFF"),
        (0xFF01, "0000"),
        (0xFEFE, "00FC"),
        (0xFEFF, "00FD"),
        (0x80FF, "007F"),
    ] {
        let text = format!(";FF{address:04X}{data}{sum}\n;0000010001");
        let outcome = load_at(&text, address, 255);
        assert_eq!(outcome.loaded.refusal, Refusal::default(), "{address:04X}");
        assert_eq!(outcome.memory, [0xFF; 255]);
    }
    // Row 7 comes before row 11: FF02 + FF passes 10000 by one.
    let text = format!(";FFFF02{data}0001\n;0000010001");
    assert_eq!(refusal_at(&text, 0xFF02, 300), (11, 1, 0));
    let text = format!(";FFFF02{data}0000\n;0000010001");
    assert_eq!(refusal_at(&text, 0xFF02, 300), (7, 1, 0));
    // A sum that is not taken modulo 65,536 does not fit the field at all; one
    // that stops there is wrong.
    let text = format!(";FFFF01{data}FFFF\n;0000010001");
    assert_eq!(refusal_at(&text, 0xFF01, 255), (7, 1, 0));
    // 254 bytes of FF never wrap: FE + 64,770 + FE + FF is 65,533.
    let text = format!(";FEFEFF{}FFFD\n;0000010001", "FF".repeat(254));
    assert_eq!(refusal_at(&text, 0xFEFF, 254), (0, 0, 0));
}

#[test]
fn short_lines_and_other_first_characters() {
    for text in [
        ";",
        ";0",
        "x",
        "xx",
        "xxx",
        ":00",
        "00000000000",
        "\x14;0000000000",
    ] {
        assert_eq!(refusal(text), (4, 1, 0), "{text}");
    }
    // Three characters pass row 4; a length they are not.
    assert_eq!(refusal(";00"), (6, 1, 0));
    assert_eq!(refusal(";0x"), (5, 1, 2));
    assert_eq!(refusal(";0"), (4, 1, 0));
    assert_eq!(refusal(";010000AA00AB\n;x"), (4, 2, 14));
    // The second of two bad lines does not matter.
    assert_eq!(refusal("\r\n;x\n;;;"), (4, 1, 2));
}

#[test]
fn characters_that_are_no_digits() {
    assert_eq!(refusal(";g000000000"), (5, 1, 1));
    assert_eq!(refusal(";;000000000"), (5, 1, 1));
    assert_eq!(refusal("\n;0G00000000"), (5, 1, 3));
    assert_eq!(refusal(";000000000G"), (5, 1, 10));
    assert_eq!(refusal(";0000000000 "), (5, 1, 11));
    assert_eq!(refusal(";0000000000;"), (5, 1, 11));
    // The first of two, in the second line; row 5 comes before row 6.
    assert_eq!(refusal(";010000AA00AB\r\n;01x00xAA"), (5, 2, 18));
    // XON is no separator.
    assert_eq!(refusal(";0000000000\x11"), (5, 1, 11));
    // Small digits are digits.
    accepted(
        ";010000aa00Ab\n;0000010001",
        (1, 1),
        ";010000AA00AB\n;0000010001\n",
    );
}

#[test]
fn lengths_that_do_not_fit() {
    for text in [
        ";000000000",
        ";00000000000",
        ";000000000000",
        ";010000AA00A",
        ";010000AA00AB0",
        ";010000AAAA00AB",
        // A length that counts the address, or the check, too.
        ";030000AA00AD",
        ";020000AA00AC",
        ";050000AA00AF",
        // A wrong check does not matter yet.
        ";010000AA0000AB",
        ";020000AA00AB",
        // Data in the last line.
        ";000000AA0000",
        ";000000AA00AA",
    ] {
        assert_eq!(refusal(text), (6, 1, 0), "{text}");
    }
}

#[test]
fn checks_that_differ() {
    // 01 + 00 + 10 + AA is BB. Also: without the length, without the address,
    // by one, as the complement of an S-record, bytes exchanged.
    accepted(
        ";010010AA00BB\n;0000010001",
        (1, 1),
        ";010010AA00BB\n;0000010001\n",
    );
    for check in [
        "00BA", "00AB", "00BC", "FF44", "FF45", "BB00", "0000", "01BB",
    ] {
        let text = format!(";010010AA{check}\n;0000010001");
        assert_eq!(refusal(&text), (7, 1, 0), "{check}");
    }
    // A sum modulo 256: 02 + F0 + FF + FF is 2F0.
    assert_eq!(refusal(";0200F0FFFF00F0\n;0000010001"), (7, 1, 0));
    assert_eq!(refusal(";0200F0FFFF02F0\n;0000010001"), (0, 0, 0));
    // The last line against its own number; that number may be wrong, too.
    assert_eq!(refusal(";0000000001"), (7, 1, 0));
    assert_eq!(refusal(";0000010000"), (7, 1, 0));
    assert_eq!(refusal(";010000AA00AB\n;0000010000"), (7, 2, 14));
    assert_eq!(refusal(";010000AA00AB\n;0000000001"), (7, 2, 14));
    // Row 7 comes before rows 12 and 13.
    assert_eq!(refusal(";018000AA0000"), (7, 1, 0));
    assert_eq!(refusal(";010000AA00AB\n;010000AA0000"), (7, 2, 14));
}

#[test]
fn numbers_of_data_lines() {
    assert_eq!(refusal(";0000010001"), (10, 1, 0));
    assert_eq!(refusal(";010000AA00AB\n;0000000000"), (10, 2, 14));
    assert_eq!(refusal(";010000AA00AB\n;0000020002"), (10, 2, 14));
    // It is lines that count, not cells: 02 + AA + BB is 167.
    let two_cells = ";020000AABB0167\n";
    assert_eq!(refusal(&format!("{two_cells};0000020002")), (10, 2, 16));
    assert_eq!(refusal(&format!("{two_cells};0000010001")), (0, 0, 0));
}

/// So many data lines and this last line must be accepted in an edition.
#[track_caller]
fn accepted_lines(edition: Edition, number: usize, last: &str) {
    let text = one_cell_lines(number) + last;
    let outcome = load_in(edition, &text, 0, 1024);
    assert_eq!(outcome.loaded.refusal, Refusal::default(), "{last}");
    assert_eq!(outcome.counts(), (number, number, None));
    let bytes: Vec<u8> = (0..number).map(|address| address as u8).collect();
    assert_eq!(outcome.memory[..number], bytes);
}

/// So many data lines and this last line must be refused, by such a number in
/// each edition.
#[track_caller]
fn refused_lines(number: usize, last: &str, (repeat, sum): (u32, u32)) {
    let text = one_cell_lines(number) + last;
    let place = number * 14;
    assert_eq!(refusal_in(Repeat, &text), (repeat, number + 1, place));
    assert_eq!(refusal_in(Sum, &text), (sum, number + 1, place));
}

#[test]
fn about_256_data_lines() {
    for (number, repeat, sum) in [
        (254, ";0000FE00FE", ";0000FE00FE"),
        (255, ";0000FF00FF", ";0000FF00FF"),
        (256, ";0001000100", ";0001000001"),
        (257, ";0001010101", ";0001010002"),
        // 01 + FF is 100; 02 + 00 is 2; 02 + 58 is 5A.
        (511, ";0001FF01FF", ";0001FF0100"),
        (512, ";0002000200", ";0002000002"),
        (600, ";0002580258", ";000258005A"),
    ] {
        accepted_lines(Repeat, number, repeat);
        accepted_lines(Sum, number, sum);
        if repeat != sum {
            let place = number * 14;
            let lines = one_cell_lines(number);
            assert_eq!(
                refusal_in(Repeat, &(lines.clone() + sum)),
                (7, number + 1, place)
            );
            assert_eq!(refusal_in(Sum, &(lines + repeat)), (7, number + 1, place));
        }
    }
}

#[test]
fn wrong_last_lines_of_256() {
    // A number of one byte; the check of another number; neither check.
    refused_lines(256, ";0000000000", (10, 10));
    refused_lines(256, ";0000FF00FF", (10, 10));
    refused_lines(256, ";0000000100", (7, 7));
    refused_lines(256, ";0000000001", (7, 7));
    refused_lines(256, ";0001000101", (7, 7));
    refused_lines(256, ";0001000002", (7, 7));
    refused_lines(256, ";0001000000", (7, 7));
    // 0100 is 10 behind fewer lines or more, if its check is that of the edition.
    for number in [255, 257] {
        refused_lines(number, ";0001000100", (10, 7));
        refused_lines(number, ";0001000001", (7, 10));
    }
    // A sum modulo 256, and one carried into the first byte wrongly.
    refused_lines(511, ";0001FF0000", (7, 7));
    refused_lines(511, ";0001FF0001", (7, 7));
}

/// The last line alone, with a number that is wrong anyway: its check is tried
/// first, and by the edition.
#[test]
fn check_before_number() {
    for (last, repeat, sum) in [
        (";0000010001", 10, 10),
        (";0000FF00FF", 10, 10),
        (";0001000100", 10, 7),
        (";0001000001", 7, 10),
        (";0001FF01FF", 10, 7),
        (";0001FF0100", 7, 10),
        (";0002000200", 10, 7),
        (";0002000002", 7, 10),
        // FF + FF is 1FE.
        (";00FFFFFFFF", 10, 7),
        (";00FFFF01FE", 7, 10),
        (";00FF0000FF", 7, 10),
        (";0001000000", 7, 7),
        (";0001000010", 7, 7),
        (";0000010100", 7, 7),
    ] {
        assert_eq!(refusal_in(Repeat, last), (repeat, 1, 0), "{last}");
        assert_eq!(refusal_in(Sum, last), (sum, 1, 0), "{last}");
    }
    // In neither edition is the number of lines asked for the check.
    let line = ";010000AA00AB\n";
    for (last, repeat, sum) in [(";0001010001", 7, 7), (";0001010002", 7, 10)] {
        let text = format!("{line}{last}");
        assert_eq!(refusal_in(Repeat, &text), (repeat, 2, 14), "{last}");
        assert_eq!(refusal_in(Sum, &text), (sum, 2, 14), "{last}");
    }
}

/// Cells that touch no other, so that each is a line.
#[test]
fn last_lines_as_written() {
    for (number, repeat, sum) in [
        (255, ";0000FF00FF", ";0000FF00FF"),
        (256, ";0001000100", ";0001000001"),
        (257, ";0001010101", ";0001010002"),
        (511, ";0001FF01FF", ";0001FF0100"),
        (512, ";0002000200", ";0002000002"),
        (32_768, ";0080008000", ";0080000080"),
    ] {
        let memory = vec![0; 2 * number];
        let marks = [1, 0].repeat(number);
        for (edition, last) in [(Repeat, repeat), (Sum, sum)] {
            let tape = tape::canonical_tape(edition, 0, &memory, &marks);
            let last = format!("\r\n{last}\r\n");
            assert_eq!(tape.len(), 15 * number + 13);
            assert!(tape.ends_with(last.as_bytes()), "{number}");
        }
    }
}

#[test]
fn addresses_up_to_ffff() {
    // 01 + FF + FF + AA is 2A9; 02 + FF + FF + 11 + 22 is 233.
    let last = ";01FFFFAA02A9\n;0000010001\n";
    for (base, length) in [(0xFFFF, 1), (0xFFFF, 2), (0xFFF0, 16), (0, 0x1_0000)] {
        accepted_at(last, (base, length), (1, 1), last);
    }
    let past = ";02FFFF11220233\n;0000010001";
    for (base, length) in [(0xFFFF, 1), (0xFFFF, 2), (0, 0x2_0000), (0, 0)] {
        assert_eq!(refusal_at(past, base, length), (11, 1, 0));
    }
    accepted_at(
        ";02FFFE11220232\n;0000010001",
        (0xFFF0, 0x20),
        (1, 2),
        ";02FFFE11220232\n;0000010001\n",
    );
    // Row 11 comes before row 13, and is not about the last line: its number is
    // no address.
    let twice = ";01FFFFAA02A9\n;02FFFF11220233\n;0000020002";
    assert_eq!(refusal_at(twice, 0xFFFF, 2), (11, 2, 14));
}

#[test]
fn cells_outside_of_the_window() {
    // 01 + 01 + AA is AC.
    let text = ";010001AA00AC\n;0000010001\n";
    accepted_at(text, (1, 1), (1, 1), text);
    for (base, length) in [(0, 1), (2, 1), (0, 0), (1, 0), (0x1_0001, 1)] {
        assert_eq!(refusal_at(text, base, length), (12, 1, 0));
    }
    // The number of the last line lies outside of any window here.
    assert_eq!(refusal_at(";0000000000", 5, 0), (0, 0, 0));
    // Row 12 comes before row 13.
    let text = ";010001AA00AC\n;020001AABB0168";
    assert_eq!(refusal_at(text, 1, 1), (12, 2, 14));
}

#[test]
fn cells_that_are_addressed_twice() {
    let line = ";010000AA00AB\n";
    assert_eq!(refusal(&format!("{line}{line};0000020002")), (13, 2, 14));
    // 03 + 01 + 02 + 03 is 9, and 01 + 03 + 03 is 7. 17 + 2 + 13 + 2 characters.
    let text = ";0300010002030009\r\n;010000AA00AB\r\n;010003030007";
    assert_eq!(refusal(text), (13, 3, 34));
    // Lines in any order; the last line's number is the address of no cell.
    accepted(
        ";010001BB00BD\n;010000AA00AB\n;0000020002",
        (2, 2),
        ";020000AABB0167\n;0000010001\n",
    );
}

#[test]
fn separators_between_lines() {
    let wanted = ";020000AABB0167\n;0000010001\n";
    for end in ["\n", "\r", "\r\n", "\0", "\x13", "\0\0\0", "\x13\n\0\r"] {
        let lines = [";010000AA00AB", ";010001BB00BD", ";0000020002"];
        accepted(&lines.join(end), (2, 2), wanted);
        let text = format!("{end}{}{end}", lines.join(end));
        accepted(&text, (2, 2), wanted);
        // Each counts for its place.
        let text = format!("{end}{end};010000AA00AA");
        assert_eq!(refusal(&text), (7, 1, 2 * end.len()));
    }
}

#[test]
fn separators_inside_of_lines() {
    for separator in ['\0', '\x13', '\r', '\n'] {
        let cut = |place: usize| {
            let (before, behind) = ";010000AA00AB".split_at(place);
            format!("{before}{separator}{behind}\n;0000010001")
        };
        // `;` and `;0` are short; from three characters on the length is wrong.
        assert_eq!(refusal(&cut(1)), (4, 1, 0));
        assert_eq!(refusal(&cut(2)), (4, 1, 0));
        for place in 3..13 {
            assert_eq!(refusal(&cut(place)), (6, 1, 0), "{place}");
        }
        assert_eq!(refusal(&cut(0)), (0, 0, 0));
        assert_eq!(refusal(&cut(13)), (0, 0, 0));
        // A last line that ends early: the rest is behind it, or no line.
        let text = format!(";0000000000{separator}00");
        assert_eq!(refusal(&text), (2, 2, 12));
    }
}

#[test]
fn runs_of_cells() {
    let bytes: Vec<u8> = (0..49).collect();
    // 18 and the sum 276 of 0 to 23 are 300; 01 + 18 + 18 is 49.
    let first = "000102030405060708090A0B0C0D0E0F1011121314151617";
    assert_eq!(
        written(0, &bytes[..25], &[1; 25]),
        format!(";180000{first}012C\n;010018180031\n;0000020002\n")
    );
    assert_eq!(
        written(0, &bytes[..24], &[1; 24]),
        format!(";180000{first}012C\n;0000010001\n")
    );
    // From the start of the run, wherever it is: 5, and 5 + 24 is 1D.
    assert_eq!(
        written(5, &bytes[..25], &[1; 25]),
        format!(";180005{first}0131\n;01001D180036\n;0000020002\n")
    );
    // The same run in a larger window.
    let memory = [&[9, 9, 9], &bytes[..25], &[9]].concat();
    let marks = [&[0, 0, 0], &[1; 25][..], &[0]].concat();
    assert_eq!(
        written(2, &memory, &marks),
        format!(";180005{first}0131\n;01001D180036\n;0000020002\n")
    );
    // Three lines: 18 + 18 and 24 to 47, 852, are 900; 01 + 30 + 30 is 97.
    let second = "18191A1B1C1D1E1F202122232425262728292A2B2C2D2E2F";
    assert_eq!(
        written(0, &bytes, &[1; 49]),
        format!(";180000{first}012C\n;180018{second}0384\n;010030300061\n;0000030003\n")
    );
    // A gap starts a new run: cells 0 and 2, and one of 24 behind a gap.
    assert_eq!(
        written(0, &[1, 2, 3], &[1, 0, 1]),
        ";010000010002\n;010002030006\n;0000020002\n"
    );
    let mut marks = [1; 25];
    marks[1] = 0;
    assert_eq!(
        written(0, &bytes[..25], &marks),
        ";010000000001
;17000202030405060708090A0B0C0D0E0F1011121314151617180144
;0000020002
"
    );
}

#[test]
fn line_ends() {
    let tape = canonical_tape(0, &[0xAA], &[1]);
    assert_eq!(tape, b";010000AA00AB\r\n;0000010001\r\n");
}

#[test]
fn refusals_of_the_writer_in_order() {
    let mut out = [9; 99];
    let base = 0xFFFF;
    // From the top: each of the later rows applies as well.
    for (header, entry) in [(&[0; 300][..], None), (&[], Some(0)), (&[1], Some(7))] {
        let unfit = write_tape(0xFFFF_FFFF, &[0; 2], &[1, 2], header, entry, &mut []);
        assert_eq!(unfit, unwritten(1, 0));
        let unfit = write_tape(base, &[0; 3], &[1, 1, 2, 1], header, entry, &mut []);
        assert_eq!(unfit, unwritten(1, 0));
        let marked = write_tape(base, &[0; 4], &[1, 1, 2, 3], header, entry, &mut []);
        assert_eq!(marked, unwritten(16, 2));
        let named = write_tape(base, &[0; 3], &[1, 1, 1], header, entry, &mut []);
        assert_eq!(named, unwritten(19, 0));
    }
    let high = write_tape(base, &[0; 4], &[1, 0, 1, 1], &[], None, &mut []);
    assert_eq!(high, unwritten(11, 2));
    // 13 + 2 for the data line, 11 + 2 for the last one.
    let short = write_tape(base, &[0; 4], &[1, 0, 0, 0], &[], None, &mut out[..27]);
    assert_eq!(short, unwritten(17, 28));
    let short = write_tape(0, &[], &[], &[], None, &mut out[..12]);
    assert_eq!(short, unwritten(17, 13));
    // The same with enough room, each row alone.
    for (header, entry) in [(&[0][..], None), (&[0; 253], None), (&[], Some(0))] {
        let named = write_tape(0, &[], &[], header, entry, &mut out);
        assert_eq!(named, unwritten(19, 0));
    }
    let unfit = write_tape(0, &[0; 2], &[1], &[], None, &mut out);
    assert_eq!(unfit, unwritten(1, 0));
    let marked = write_tape(0, &[0; 3], &[1, 0, 0xFF], &[], None, &mut out);
    assert_eq!(marked, unwritten(16, 2));
    let high = write_tape(0x1_0000, &[0; 2], &[0, 1], &[], None, &mut out);
    assert_eq!(high, unwritten(11, 1));
    let high = write_tape(0xFFFF_FFFF, &[0], &[1], &[], None, &mut out);
    assert_eq!(high, unwritten(11, 0));
    assert_eq!(out, [9; 99]);
}

#[test]
fn room_for_a_tape() {
    let mut out = [9; 30];
    let written = write_tape(0xFFFF, &[0xAA, 1], &[1, 0], &[], None, &mut out[..28]);
    assert_eq!((written.refusal, written.length), (Refusal::default(), 28));
    assert_eq!(out[..28], *b";01FFFFAA02A9\r\n;0000010001\r\n");
    assert_eq!(out[28..], [9; 2]);
}
