//! The values of expressions, and rows 25, 26 and 27.

use second::expressions::value;
use second::symbols::Symbols;

const TOP: u32 = u32::MAX;

/// A and B are 10 and 3, `top` is the largest number, and the longest name has 16
/// characters.
fn symbols() -> Symbols {
    let symbols = [
        ("A", 10),
        ("B", 3),
        ("b", 5),
        ("top", TOP),
        ("zero", 0),
        ("FACE", 7),
        ("abcdefghijklmn12", 77),
    ];
    let owned = symbols.map(|(name, value)| (name.as_bytes().to_vec(), value));
    Symbols::from(owned)
}

#[track_caller]
fn assert_value(text: &str, wanted: u32) {
    assert_eq!(value(text.as_bytes(), &symbols()), Ok(wanted), "{text}");
}

#[track_caller]
fn assert_row(text: impl AsRef<[u8]>, row: u32) {
    let text = text.as_ref();
    let shown = String::from_utf8_lossy(text);
    assert_eq!(value(text, &symbols()), Err(row), "{shown}");
}

#[test]
fn numbers() {
    for (text, wanted) in [
        ("$0", 0),
        ("$9", 9),
        ("$a", 10),
        ("$F", 15),
        ("$100", 256),
        ("$00000100", 256),
        ("$12345678", 0x1234_5678),
        ("$ffffFFFF", TOP),
        ("$FACE", 0xFACE),
    ] {
        assert_value(text, wanted);
    }
    for text in [
        "$",
        "$000000000",
        "$123456789",
        "$G",
        "$1G",
        "$x1",
        "$$1",
        "1",
        "12",
        "0",
    ] {
        assert_row(text, 25);
    }
    for text in [
        "1$", "$1$", "$1$2", "0x1", "1h", "#1", "$_", "$1_0", "$1.", "$+1", "$-1",
    ] {
        assert_row(text, 25);
    }
}

#[test]
fn names() {
    assert_value("A", 10);
    assert_value("B", 3);
    assert_value("b", 5);
    assert_value("top", TOP);
    // Digits of a number may all be letters: it is the `$` that counts.
    assert_value("FACE", 7);
    assert_value("abcdefghijklmn12", 77);
    for text in [
        "a",
        "Top",
        "TOP",
        "AA",
        "A1",
        "to",
        "topp",
        "abcdefghijklmn1",
        "F",
    ] {
        assert_row(text, 26);
    }
    // A word of 17 characters is no name, known or not.
    assert_row("abcdefghijklmn123", 25);
    assert_row("a".repeat(17), 25);
    assert_row("a".repeat(16), 26);
    for text in [
        "1A", "A_", "_A", "A.B", "A$", "A$1", "$A$", "A:", "\u{C4}", "A\u{E4}",
    ] {
        assert_row(text, 25);
    }
}

#[test]
fn from_the_left() {
    assert_value("A+B", 13);
    assert_value("A-B", 7);
    assert_value("A-B+B", 10);
    assert_value("A-B-B", 4);
    assert_value("A-B-B-B", 1);
    assert_value("$64-$A-$14+$1-$5", 66);
    assert_value("B+A-b", 8);
    // From the right, 5 - (3 + 10) would leave the range.
    assert_value("b-B+A", 12);
}

#[test]
fn brackets() {
    assert_value("(A)", 10);
    assert_value("((A))", 10);
    assert_value("A-(B+b)", 2);
    assert_value("A-(b-B)", 8);
    assert_value("A-(b-(B-$1))", 7);
    assert_value("(A-B)-(b-B)", 5);
    assert_value("(A+B)-(A)", 3);
    assert_value("((A)-(B))+((b))", 12);
    assert_value("A-($2)-($3)", 5);
}

#[test]
fn results_at_the_ends_of_the_range() {
    assert_value("top", TOP);
    assert_value("top+zero", TOP);
    assert_value("zero+top", TOP);
    assert_value("top-top", 0);
    assert_value("zero-zero", 0);
    assert_value("$FFFFFFFE+$1", TOP);
    assert_value("$80000000+$7FFFFFFF", TOP);
    assert_value("(top)", TOP);
    assert_value("top-$1+$1", TOP);
    for text in [
        "top+$1",
        "$1+top",
        "top+top",
        "$80000000+$80000000",
        "$FFFFFFFF+$1",
    ] {
        assert_row(text, 27);
    }
    for text in [
        "zero-$1",
        "$0-$1",
        "B-A",
        "$1-$2",
        "zero-top",
        "$7FFFFFFF-$80000000",
    ] {
        assert_row(text, 27);
    }
}

/// Where the last result is in range, but not one on the way.
#[test]
fn results_on_the_way() {
    for text in [
        "B-A+A",
        "$0-$1+$2",
        "top+$1-$1",
        "top+A-A",
        "A+(B-b)",
        "A-(B-b)",
        "A-(top+$1)",
        "(B-A)+A",
        "(top+$1)-$1",
        "A+(zero-$1+$1)",
        "A-(b+(B-A)+A)",
        "zero-A+(A)",
    ] {
        assert_row(text, 27);
    }
    // The same terms in another order stay inside.
    assert_value("A-A+B", 3);
    assert_value("$2-$1+$0", 1);
    assert_value("top-$1+$1", TOP);
    assert_value("A+B-b", 8);
}

#[test]
fn bad_forms() {
    for text in [
        "", "+", "-", "(", ")", "()", "+A", "-A", "+$1", "-$1", "A+", "A-", "A++B", "A--B", "A+-B",
        "A-+B", "(A", "A)", "((A)", "(A))", ")A(", "A(", "A()", "()A", "A(B)", "(A)B", "(A)(B)",
        "A+()", "()+A", "(+A)", "(A+)", "(-A)", "A+(", "A+)", "(A+B", "A+B)", "$1(A)", "(A)$1",
        "A$1", "A+(B))", "((A)+B", "(A)+(B", "A-(-B)", "--A",
    ] {
        assert_row(text, 25);
    }
    for text in [
        "[A]", "{A}", "<A>", "A*B", "A/B", "A,B", "A&B", "A|B", "A^B", "~A", "!A", "A%B",
    ] {
        assert_row(text, 25);
    }
}

#[test]
fn no_spaces() {
    for text in [
        " ", " A", "A ", "A +B", "A+ B", "A + B", "( A)", "(A )", "$ 1", "$1 ", "A B", "\tA",
        "A\n", "A\r", "A\0", "\0",
    ] {
        assert_row(text, 25);
    }
}

/// Each character behind a name, a number, a sign and a bracket.
#[test]
fn every_character() {
    for c in 0..=255u8 {
        let known = b"AB".contains(&c).then_some(());
        for before in ["A+", "(", "A-(A+B)+("] {
            let text = [before.as_bytes(), &[c]].concat();
            let closed = [&text[..], b")"].concat();
            let found = value(&text, &symbols());
            match before {
                "A+" => match known {
                    Some(()) => assert!(found.is_ok()),
                    None if c == b'b' => assert_eq!(found, Ok(15)),
                    None if c.is_ascii_alphabetic() => assert_eq!(found, Err(26)),
                    None => assert_eq!(found, Err(25)),
                },
                _ => {
                    assert_eq!(found, Err(25));
                    let is_letter = c.is_ascii_alphabetic();
                    assert_eq!(value(&closed, &symbols()) != Err(25), is_letter);
                }
            }
        }
        let behind_name = [b"A", &[c][..]].concat();
        let row = if c.is_ascii_alphanumeric() { 26 } else { 25 };
        assert_row(behind_name, row);
        let behind_number = [b"$1", &[c][..]].concat();
        match (c as char).to_digit(16) {
            Some(digit) => assert_eq!(value(&behind_number, &symbols()), Ok(16 + digit)),
            None => assert_row(behind_number, 25),
        }
    }
}

/// So many brackets around a text.
fn nested(depth: usize, text: &str) -> String {
    format!("{}{text}{}", "(".repeat(depth), ")".repeat(depth))
}

#[test]
fn deep_brackets() {
    for depth in 0..=32 {
        assert_value(&nested(depth, "A"), 10);
        assert_value(&nested(depth, "A-B"), 7);
    }
    for depth in [33, 34, 64, 65, 1_000, 30_000] {
        assert_row(nested(depth, "A"), 25);
    }
    // Just those that are open at once are counted.
    let side = nested(32, "$1");
    assert_value(&format!("{side}+{side}-{side}"), 1);
    assert_value(&vec!["($1)"; 1_000].join("+"), 1_000);
    let inner = nested(31, "$1");
    assert_value(&format!("({inner}+{inner})"), 2);
    let inner = nested(32, "$1");
    assert_row(format!("({inner})"), 25);
    assert_row(format!("A+(A+{inner})"), 25);
    // From the outside in: 1+(1+(1+...)).
    let steps = |depth| format!("{}$1{}", "$1+(".repeat(depth), ")".repeat(depth));
    assert_value(&steps(32), 33);
    assert_row(steps(33), 25);
    // Brackets that are not closed are bad whatever their number is.
    assert_row("(".repeat(32), 25);
    assert_row("(".repeat(65_535), 25);
}

#[test]
fn long_texts() {
    let ones = vec!["$1"; 20_000].join("+");
    assert_value(&ones, 20_000);
    let back = vec!["A"; 5_000].join("-B+");
    // Each step takes 3 away and adds 10.
    assert_value(&back, 10 + 7 * 4_999);
    assert_row(format!("{ones}+"), 25);
}

/// The form comes before the names, and those before the sums.
#[test]
fn rows_in_order() {
    for text in ["x+", "+x", "x)", "(x", "x+ A", "x*A", "x+1", "x+$", "x()"] {
        assert_row(text, 25);
    }
    for text in [
        "zero-$1+",
        "B-A)",
        "top+top+ A",
        "zero-$1-$123456789",
        "(zero-$1",
    ] {
        assert_row(text, 25);
    }
    for text in [
        "x",
        "zero-$1+x",
        "x+top+top",
        "B-A+x",
        "x-A",
        "(B-A)-(x)",
        "top+top-(A-(x))",
    ] {
        assert_row(text, 26);
    }
    assert_row("zero-$1+x+", 25);
    assert_row(format!("zero-$1+x+{}", nested(33, "A")), 25);
    assert_row(format!("zero-$1+{}", nested(32, "x")), 26);
    assert_row(format!("zero-$1+{}", nested(32, "A")), 27);
}

/// Pieces of texts, so that short lists of them reach all forms.
const PIECES: [&str; 8] = ["A", "x", "$4", "$", "+", "-", "(", ")"];

/// The same by the words of the request, in another way: a sum is a term, or a sum, a
/// sign and a term; a term is a number, a name, or a sum in brackets. All splits are
/// tried. None is a bad form, and what is found is a value or a row.
fn by_splits(text: &[&str], deep: usize) -> Option<Result<u32, u32>> {
    if let Some(found) = term(text, deep) {
        return Some(found);
    }
    (1..text.len()).find_map(|at| {
        let (left, right) = (by_splits(&text[..at], deep), term(&text[at + 1..], deep));
        let step = match text[at] {
            "+" => u32::checked_add,
            "-" => u32::checked_sub,
            _ => return None,
        };
        Some(match (left?, right?) {
            (Err(26), _) | (_, Err(26)) => Err(26),
            (Ok(left), Ok(right)) => step(left, right).ok_or(27),
            _ => Err(27),
        })
    })
}

fn term(text: &[&str], deep: usize) -> Option<Result<u32, u32>> {
    match text {
        ["A"] => Some(Ok(10)),
        ["$4"] => Some(Ok(4)),
        ["x"] => Some(Err(26)),
        ["(", inner @ .., ")"] if deep > 0 => by_splits(inner, deep - 1),
        _ => None,
    }
}

#[test]
fn all_short_texts() {
    let mut counts = [0; 4];
    for length in 0..=7u32 {
        for number in 0..8usize.pow(length) {
            let piece = |at: u32| PIECES[number / 8usize.pow(at) % 8];
            let text: Vec<&str> = (0..length).map(piece).collect();
            // Words that touch make another word, which the splits do not see.
            let is_word = |piece: &&str| !["+", "-", "(", ")"].contains(piece);
            if text.windows(2).any(|two| two.iter().all(is_word)) {
                continue;
            }
            let wanted = by_splits(&text, 32).unwrap_or(Err(25));
            let found = value(text.concat().as_bytes(), &symbols());
            assert_eq!(found, wanted, "{text:?}");
            counts[match found {
                Ok(_) => 0,
                Err(row) => row as usize - 24,
            }] += 1;
        }
    }
    println!("accepted, 25, 26, 27: {counts:?}");
    assert!(counts.iter().all(|&count| count > 30));
}
