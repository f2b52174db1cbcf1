//! The cases of crates/deals, by the second reading: `rt ci deals` holds the
//! proved library to the same file.

use second::deals::{parse, Case};
use std::fs;
use std::path::Path;

fn file(name: &str) -> Vec<u8> {
    let folder = Path::new(env!("CARGO_MANIFEST_DIR")).join("../../crates/deals");
    fs::read(folder.join(name)).unwrap()
}

#[test]
fn answers_are_those_worked_out_by_hand() {
    let cases = parse(&file("stdin")).unwrap();
    let answers: Vec<u8> = cases.iter().flat_map(Case::answer).collect();
    let (answers, wanted) = (answers.escape_ascii(), file("stdout"));
    assert_eq!(answers.to_string(), wanted.escape_ascii().to_string());
}

#[test]
fn script_is_parsed_whole() {
    let script = file("stdin");
    let cases = parse(&script).unwrap();
    assert!(cases.len() >= 170, "{}", cases.len());
    assert_eq!(
        cases.iter().flat_map(Case::script).collect::<Vec<u8>>(),
        script
    );
}

#[test]
fn headings_are_told_apart() {
    for heading in ["@00000000 \n", "@ABCDEF01 a b: c;%\n"] {
        let cases = parse(heading.as_bytes()).unwrap();
        assert_eq!(cases[0].script(), heading.as_bytes());
        assert_eq!(cases[0].answer(), heading.as_bytes());
    }
    for heading in [
        "@0 a\n",
        "@00000000\n",
        "@00000000%a\n",
        "@0000000a a\n",
        "@0000000000000000 a\n",
        "@00000000 a",
        "x@",
    ] {
        assert_eq!(parse(heading.as_bytes()), None, "{heading}");
    }
}

/// A letter that is none, half a number, or more bytes than there is room for.
#[test]
fn commands_are_told_apart() {
    let of = |lines: &str| parse(format!("@00000000 name\n{lines}\n").as_bytes());
    let letters = ["m", "k", "p", "q", "r", "s", "P", "Q", "R", "S"];
    let each_of = |length: usize| letters.map(|letter| letter.to_string() + &"00".repeat(length));
    let all = "m10\nk01\npA0\nqB0\nrC0\nsD0\nP01\nQFF\nR02\nS00\nd00000002\nc00000004\n\
        m\nk\np\nq\nr\ns\nP\nQ\nR\nS\nd00000000\ncFFFFFFFF";
    assert!(of(all).is_some());
    for lines in each_of(200) {
        assert!(of(&lines).is_some(), "{lines}");
    }
    let bad = [
        "",
        "x",
        "m1",
        "mab",
        "m 10",
        "M10",
        "K01",
        "t00",
        "T00",
        "d",
        "d2",
        "d0000000a",
        "d0000000200000002",
        "c",
        "c00000002 ",
        "C00000002",
        "D00000002",
    ];
    let bad = bad.map(str::to_string).into_iter().chain(each_of(201));
    for lines in bad {
        assert_eq!(of(&lines), None, "{lines}");
    }
}

/// Each letter sets its own buffer, and all of them are empty at a heading.
#[test]
fn letters_and_printed_lines() {
    let script = "@00000000 one\nm10\nk11\npA0\nP50\nqB0\nQ60\nrC0\nR70\nsD0\nS80\n\
        d00000009\nc00000009\n@00000004 two\nd00000004\nc00000004\n";
    let wanted = "@00000000 one\n\
        deal 21 record 0 at 0 want 00\n\
        chip 0 memory A0\nchip 0 marks 50\nchip 1 memory B0\nchip 1 marks 60\n\
        chip 2 memory C0\nchip 2 marks 70\nchip 3 memory D0\nchip 3 marks 80\n\
        collect 21 record 0 at 0 want 00 entry none header 0:\n\
        memory 10\nmarks 11\n\
        @00000004 two\n\
        deal 0 record 0 at 0 want 00\n\
        chip 0 memory \nchip 0 marks \nchip 1 memory \nchip 1 marks \n\
        chip 2 memory \nchip 2 marks \nchip 3 memory \nchip 3 marks \n\
        collect 0 record 0 at 0 want 00 entry none header 0:\n\
        memory \nmarks \n";
    let cases = parse(script.as_bytes()).unwrap();
    let answers: Vec<u8> = cases.iter().flat_map(Case::answer).collect();
    assert_eq!(String::from_utf8(answers).unwrap(), wanted);
}
