//! Symbol blocks: what is accepted, and rows 22, 23 and 24 alone.

use super::{behind_at, pair, sheet_at};
use second::reading::Refusal;
use second::symbols::{read_block, Symbols};

/// Names and values of a block that is accepted, by both calls.
#[track_caller]
fn symbols(text: impl AsRef<[u8]>) -> Vec<(String, u32)> {
    let text = text.as_ref();
    let block = read_block(text).unwrap();
    assert_eq!(&text[block.end - 2..block.end], b"$$");
    assert_eq!(sheet_at(text, b"", 0, 3).refusal(), (0, 0, 0));
    let rest = [&text[..block.end], b"\nS9030000FC"].concat();
    assert_eq!(behind_at(&rest, 0, 3).refusal(), (0, 0, 0));
    let symbols: Symbols = block.symbols;
    let symbols = symbols.into_iter();
    let name = |name| String::from_utf8(name).unwrap();
    symbols.map(|(own, value)| (name(own), value)).collect()
}

fn owned(symbols: &[(&str, u32)]) -> Vec<(String, u32)> {
    let mut symbols: Vec<(String, u32)> = symbols
        .iter()
        .map(|(name, value)| (name.to_string(), *value))
        .collect();
    symbols.sort_unstable();
    symbols
}

/// Number, record and place, by both calls, whatever the sheet is.
#[track_caller]
fn assert_refused(text: impl AsRef<[u8]>, (number, record, place): (u32, usize, usize)) {
    let text = text.as_ref();
    let wanted = Refusal {
        number,
        record,
        place,
        want: 0,
    };
    let shown = String::from_utf8_lossy(text);
    assert_eq!(read_block(text), Err(wanted), "{shown}");
    assert_eq!(behind_at(text, 0, 3).loaded.refusal, wanted);
    for sheet in [b"".to_vec(), pair("$0", b"a"), b"x".to_vec()] {
        assert_eq!(sheet_at(text, &sheet, 0, 3).loaded.refusal, wanted);
    }
}

/// A block with this line between a first line of five characters with its end and
/// the bare one. Row 22 applies to that line.
#[track_caller]
fn assert_bad_line(line: impl AsRef<[u8]>) {
    let text = [b"$$ M\n", line.as_ref(), b"\n$$\n"].concat();
    assert_refused(text, (22, 2, 5));
}

#[track_caller]
fn assert_line(line: impl AsRef<[u8]>, wanted: &[(&str, u32)]) {
    let text = [b"$$ M\n", line.as_ref(), b"\n$$\n"].concat();
    assert_eq!(symbols(text), owned(wanted));
}

#[test]
fn lines_of_one_to_four_pairs() {
    assert_line("A $1", &[("A", 1)]);
    assert_line("A $1 B $2", &[("A", 1), ("B", 2)]);
    assert_line("A $1 B $2 C $3", &[("A", 1), ("B", 2), ("C", 3)]);
    let four = [("A", 1), ("B", 2), ("C", 3), ("D", 4)];
    assert_line("A $1 B $2 C $3 D $4", &four);
    assert_line("A $1\nB $2 C $3\nD $4", &four);
    assert_bad_line("A $1 B $2 C $3 D $4 E $5");
    assert_bad_line("A $1 B $2 C $3 D $4 E $5 F $6 G $7 H $8");
}

#[test]
fn no_symbols() {
    assert_eq!(symbols("$$ M\n$$"), []);
    assert_eq!(symbols("\r\n$$ M\r\n\r\n$$\r\n"), []);
}

#[test]
fn ends_of_lines() {
    let wanted = owned(&[("A", 1), ("B", 2)]);
    for end in ["\n", "\r", "\r\n", "\n\r", "\n\n\n", "\r\r\n\r"] {
        let lines = ["$$ M", "A $1", "B $2", "$$"];
        let text = lines.join(end);
        assert_eq!(symbols(&text), wanted);
        assert_eq!(symbols(format!("{end}{text}{end}")), wanted);
        assert_eq!(read_block(text.as_bytes()).unwrap().end, text.len());
    }
    // NUL and XOFF end lines of tapes alone, and a tab none at all.
    for end in ["\0", "\x13", "\t", "\x0B", "\x0C", "\u{85}"] {
        assert_bad_line(format!("A $1{end}B $2"));
    }
}

/// Empty lines are not counted, but their characters are.
#[test]
fn numbers_and_places_of_lines() {
    assert_refused("x", (22, 1, 0));
    assert_refused("\n\r\nx", (22, 1, 3));
    assert_refused("$$ M\r\nx\r\n$$", (22, 2, 6));
    assert_refused("\n$$ M\r\n\r\nA $1\n\n\nx\n$$", (22, 3, 16));
    assert_refused("$$ M\n\n\nA $1\r\rA $2\n$$", (23, 3, 13));
}

/// Behind the bare `$$` nothing is read.
#[test]
fn first_bare_line_ends_the_block() {
    for rest in [
        "",
        "\n",
        "\nx",
        "\n$$",
        "\n$$ M\nA $2\n$$",
        "\n A $1",
        "\nA $2",
    ] {
        let text = format!("$$ M\nA $1\n$${rest}");
        let block = read_block(text.as_bytes()).unwrap();
        assert_eq!((block.end, block.symbols.len()), (12, 1));
        assert_eq!(sheet_at(text.as_bytes(), b"", 0, 3).refusal(), (0, 0, 0));
    }
}

#[test]
fn spaces_between_parts() {
    let wanted = [("A", 1), ("B", 2)];
    assert_line("A  $1 B $2", &wanted);
    assert_line("A $1    B $2", &wanted);
    assert_line("A   $1  B           $2", &wanted);
    assert_eq!(symbols("$$    M\nA $1\n$$"), owned(&[("A", 1)]));
}

#[test]
fn spaces_elsewhere() {
    for line in [" A $1", "A $1 ", "  A $1", "A $1  ", " A $1 ", " ", "   "] {
        assert_bad_line(line);
    }
    for line in [" $$", "$$ ", "  $$", "$$  ", " $$ ", "$ $"] {
        assert_bad_line(line);
    }
    for line in [" $$ M", "$$ M ", " $$ M "] {
        assert_refused(format!("{line}\nA $1\n$$"), (22, 1, 0));
    }
    for line in ["A $ 1", "A B $1", "A $1 2", "A $1 B C $2"] {
        assert_bad_line(line);
    }
    for line in ["A\t$1", "A \t$1", "A\t $1", "A $1\t", "\tA $1", "A\u{A0}$1"] {
        assert_bad_line(line);
    }
    for line in ["$$\tM", "$$ M\t", "\t$$ M"] {
        assert_refused(format!("{line}\nA $1\n$$"), (22, 1, 0));
    }
    assert_bad_line("$$\t");
}

#[test]
fn spaces_that_are_missing() {
    for line in ["A$1", "A $1B $2", "A $1 B$2", "A$1 B$2", "A$1B$2"] {
        assert_bad_line(line);
    }
}

#[test]
fn parts_that_are_missing() {
    for line in [
        "A",
        "$1",
        "A B",
        "$1 A",
        "$1 $2",
        "A $1 B",
        "A $1 $2",
        "A $1 $2 B",
    ] {
        assert_bad_line(line);
    }
    assert_bad_line("A $1 B $2 C $3 D");
    assert_bad_line("A $1 B $2 C $3 D $4 E");
}

#[test]
fn lengths_of_names() {
    let longest = "Abcdefghijklmn12";
    assert_eq!(longest.len(), 16);
    assert_line("A $1", &[("A", 1)]);
    assert_line(format!("{longest} $1"), &[(longest, 1)]);
    assert_bad_line(format!("{longest}3 $1"));
    assert_bad_line(format!("B $2 {longest}{longest} $1"));
    assert_eq!(symbols(format!("$$ {longest}\n$$")), []);
    assert_refused(format!("$$ {longest}3\n$$"), (22, 1, 0));
}

/// Each character in a name, behind its first one.
#[test]
fn characters_of_names() {
    for c in 0..=255u8 {
        let line = [b"A", &[c][..], b"B $1"].concat();
        let first = [b"$$ A", &[c][..], b"B\n$$"].concat();
        if c.is_ascii_alphanumeric() {
            let name = format!("A{}B", c as char);
            assert_line(line, &[(&name, 1)]);
            assert_eq!(symbols(first), []);
        } else if b"\r\n".contains(&c) {
            // The first line is right without its end, but the next one is not.
            assert_bad_line(line);
            assert_refused(first, (22, 2, 5));
        } else {
            assert_bad_line(line);
            assert_refused(first, (22, 1, 0));
        }
    }
}

#[test]
fn first_characters_of_names() {
    for c in 0..=255u8 {
        let line = [&[c][..], b"B $1"].concat();
        let first = [b"$$ ", &[c][..], b"B\n$$"].concat();
        if c.is_ascii_alphabetic() {
            let name = format!("{}B", c as char);
            assert_line(line, &[(&name, 1)]);
            assert_eq!(symbols(first), []);
        } else if b"\r\n".contains(&c) {
            // Just an empty line more; but the first line lacks a name.
            let text = [b"$$ M\n", &line[..], b"\n$$"].concat();
            assert_eq!(symbols(text), owned(&[("B", 1)]));
            assert_refused(first, (22, 1, 0));
        } else if c == b' ' {
            assert_bad_line(line);
            assert_eq!(symbols(first), []);
        } else {
            assert_bad_line(line);
            assert_refused(first, (22, 1, 0));
        }
    }
}

#[test]
fn case_of_names_counts() {
    let wanted = [("Ab", 1), ("aB", 2), ("AB", 3), ("ab", 4)];
    assert_line("Ab $1 aB $2 AB $3 ab $4", &wanted);
}

#[test]
fn digits_of_values() {
    for (value, wanted) in [
        ("0", 0),
        ("F", 15),
        ("f", 15),
        ("10", 16),
        ("aBcDeF", 0xAB_CDEF),
        ("0000000", 0),
        ("00000001", 1),
        ("12345678", 0x1234_5678),
        ("80000000", 0x8000_0000),
        ("FFFFFFFF", 0xFFFF_FFFF),
        ("ffffffff", 0xFFFF_FFFF),
    ] {
        assert_line(format!("A ${value}"), &[("A", wanted)]);
    }
    for value in ["", "000000000", "000000001", "123456789", "FFFFFFFFF"] {
        assert_bad_line(format!("A ${value}"));
    }
    for value in ["1", "12345678", "$$1", "0x1", "x1", "#1", "1$", "1h", "%1"] {
        assert_bad_line(format!("A {value}"));
    }
}

/// Each character as a digit: the first, a middle one, and the last.
#[test]
fn characters_of_values() {
    for c in 0..=255u8 {
        let first = [b"A $", &[c][..], b"1"].concat();
        let middle = [b"A $1", &[c][..], b"2"].concat();
        let last = [b"A $1", &[c][..]].concat();
        if let Some(digit) = (c as char).to_digit(16) {
            assert_line(first, &[("A", 16 * digit + 1)]);
            assert_line(middle, &[("A", 0x102 + 16 * digit)]);
            assert_line(last, &[("A", 0x10 + digit)]);
        } else if b"\r\n".contains(&c) {
            assert_bad_line(first);
            // `A $1` is right, and what stands in the next line is not.
            let text = [b"$$ M\n", &middle[..], b"\n$$"].concat();
            assert_refused(text, (22, 3, 10));
            assert_line(last, &[("A", 1)]);
        } else {
            assert_bad_line(first);
            assert_bad_line(middle);
            assert_bad_line(last);
        }
    }
}

/// As the source prints them, with letters for digits: O is none.
#[test]
fn published_symbol_records() {
    assert_bad_line("APPLE $00000 LABEL1 $ODOC3");
    let wanted = [("APPLE", 0), ("LABEL1", 0xD0C3)];
    assert_line("APPLE $00000 LABEL1 $0D0C3", &wanted);
    let wanted = [("MEM", 0xFFFF), ("ZEEK", 0x1947)];
    assert_line("MEM $0FFFF ZEEK $01947", &wanted);
    assert_eq!(symbols("$$ MODNAME\n$$"), []);
    assert_refused("$$MAIN\n$$", (22, 1, 0));
}

#[test]
fn bad_first_lines() {
    for line in [
        "$$",
        "$$M",
        "$$ M N",
        "$$ M $1",
        "$$ $1",
        "$$ 1",
        "$$ 1M",
        "$$ M_1",
        "$$ M.",
        "$$ $$",
        "$ M",
        "$$$ M",
        "$ $ M",
        "M",
        "M $$",
        "A $1",
        "S9030000FC",
        "x",
        "$",
        "$$$",
    ] {
        assert_refused(format!("{line}\nA $1\n$$\n"), (22, 1, 0));
        assert_refused(line, (22, 1, 0));
    }
}

/// There is one block, with one name.
#[test]
fn second_first_line() {
    for line in ["$$ M", "$$ N", "$$  N", "$$N", "$$ M N", "$$ $1"] {
        assert_bad_line(line);
        assert_refused(format!("$$ M\nA $1\n{line}\nB $2\n$$"), (22, 3, 10));
    }
}

#[test]
fn lines_that_are_no_symbols() {
    for line in [
        "x",
        "$",
        "$$$",
        "$$x",
        "S9030000FC",
        "S1040000AA51",
        "A = $1",
        "A: $1",
    ] {
        assert_bad_line(line);
    }
}

/// Its name is no symbol: neither does it stand twice, nor is it counted.
#[test]
fn name_of_the_first_line() {
    assert_line("M $5", &[("M", 5)]);
    let text = b"$$ M\nA $1\n$$";
    assert_eq!(sheet_at(text, &pair("M", b""), 0, 3).refusal(), (26, 1, 0));
    let text = b"$$ M\nM $1\n$$";
    assert_eq!(sheet_at(text, &pair("M", b""), 0, 3).refusal(), (0, 0, 0));
}

#[test]
fn no_bare_line() {
    assert_refused("", (22, 0, 0));
    assert_refused("\n", (22, 0, 1));
    assert_refused("\r\n\r\n\n", (22, 0, 5));
    assert_refused("$$ M", (22, 1, 4));
    assert_refused("$$ M\n", (22, 1, 5));
    assert_refused("\n$$ M\r\n\r\n", (22, 1, 9));
    assert_refused("$$ M\nA $1", (22, 2, 9));
    assert_refused("$$ M\nA $1\n\nB $2 C $3\r\n", (22, 3, 22));
    // A bad line, or a name twice, comes before the end.
    assert_refused("$$ M\nA $1\nx\nB $2", (22, 3, 10));
    assert_refused("$$ M\nA $1\nA $2\nB $2", (23, 3, 10));
    // So do records, which are no lines of symbols.
    assert_refused("$$ M\nA $1\nS9030000FC\n", (22, 3, 10));
}

#[test]
fn names_twice() {
    for line in [
        "A $1 A $2",
        "A $1 A $1",
        "A $1 B $2 A $3",
        "B $1 A $2 C $3 A $4",
        "B $1 C $2 A $3 A $4",
    ] {
        assert_refused(format!("$$ M\n{line}\n$$"), (23, 2, 5));
    }
    for line in ["A $1", "A $2", "B $1 A $1", "B $1 C $2 D $3 A $4"] {
        assert_refused(format!("$$ M\nA $1\n{line}\n$$"), (23, 3, 10));
        assert_refused(format!("$$ M\nA $1\nX $1\n{line}\n$$"), (23, 4, 15));
        assert_refused(format!("$$ M\nX $1 Y $2 A $1\n{line}\n$$"), (23, 3, 20));
    }
    // Other names, and other names with the same value.
    assert_line(
        "A $1 AA $1\nB $1 a $1 A1 $1",
        &[("A", 1), ("AA", 1), ("B", 1), ("a", 1), ("A1", 1)],
    );
}

/// So many symbols, so many in a line; `$$ M` is not part of it.
pub fn crowd(number: usize, in_line: usize) -> String {
    let pairs: Vec<String> = (0..number).map(|n| format!("N{n} ${n:X}")).collect();
    let lines = pairs.chunks(in_line).map(|pairs| pairs.join(" ") + "\n");
    lines.collect()
}

#[test]
fn as_many_symbols_as_allowed() {
    for in_line in 1..=4 {
        let lines = crowd(1_024, in_line);
        let found = symbols(format!("$$ M\n{lines}$$"));
        assert_eq!(found.len(), 1_024);
        assert!(found.contains(&("N0".to_string(), 0)));
        assert!(found.contains(&("N1023".to_string(), 1_023)));
    }
}

#[test]
fn too_many_symbols() {
    for in_line in 1..=4 {
        for before in [1_020, 1_021, 1_022, 1_023, 1_024] {
            let lines = format!("$$ M\n{}", crowd(before, in_line));
            let number = lines.lines().count() + 1;
            let more = ["W $1", "X $2", "Y $3", "Z $4"];
            for pairs in 1..=4 {
                let text = format!("{lines}{}\n$$", more[..pairs].join(" "));
                if before + pairs > 1_024 {
                    assert_refused(text, (24, number, lines.len()));
                } else {
                    assert_eq!(symbols(text).len(), before + pairs);
                }
            }
        }
    }
}
