//! The cases of crates/patches, by the second reading: `rt ci patches` holds
//! the proved library to the same file.

use second::form::Form;
use second::patches::{parse, Case};
use std::fs;
use std::path::Path;

fn file(name: &str) -> Vec<u8> {
    let folder = Path::new(env!("CARGO_MANIFEST_DIR")).join("../../crates/patches");
    fs::read(folder.join(name)).unwrap()
}

#[test]
fn answers_are_those_worked_out_by_hand() {
    let cases = parse(&file("stdin")).unwrap();
    let answers: Vec<u8> = cases.iter().flat_map(Case::answer).collect();
    let (answers, wanted) = (answers.escape_ascii(), file("stdout"));
    assert_eq!(answers.to_string(), wanted.escape_ascii().to_string());
}

#[test]
fn script_is_parsed_whole() {
    let script = file("stdin");
    let cases = parse(&script).unwrap();
    for (form, least) in [(Form::Bytes, 80), (Form::Packed, 46)] {
        let cases = cases.iter().filter(|case| case.form == form);
        assert!(cases.count() >= least, "{form:?}");
    }
    assert_eq!(
        cases.iter().flat_map(Case::script).collect::<Vec<u8>>(),
        script
    );
}

#[test]
fn headings_are_told_apart() {
    for heading in [
        "@00000000 \n",
        "@ABCDEF01 a b: c;%\n",
        "@00000000%\n",
        "@ABCDEF01% a%\n",
    ] {
        let cases = parse(heading.as_bytes()).unwrap();
        assert_eq!(cases[0].script(), heading.as_bytes());
        assert_eq!(cases[0].answer(), heading.as_bytes());
    }
    for heading in [
        "@0 a\n",
        "@00000000\n",
        "@0%a\n",
        "@0000000a a\n",
        "@00000000 a",
        "x@",
    ] {
        assert_eq!(parse(heading.as_bytes()), None, "{heading}");
    }
}

/// A letter that is none, half a number, or more bytes than there is room for.
#[test]
fn commands_are_told_apart() {
    let of = |lines: &str| parse(format!("@00000000 name\n{lines}\n").as_bytes());
    let longest = format!("m{}\nH{}", "00".repeat(64), "00".repeat(300));
    let all = "m10\nk01\nh\ne\nMA0\nKFF\nH41\nE00000100\na\na0000010000000101\nl\n\
        w00000000\nr00000200\nsFFFFFFFF";
    for lines in [all, &longest] {
        assert!(of(lines).is_some(), "{lines}");
    }
    let too_long = ["m", "k", "M", "K"].map(|letter| letter.to_string() + &"00".repeat(65));
    let too_long_header = format!("h{}", "00".repeat(301));
    let bad = [
        "",
        "x",
        "m1",
        "mab",
        "m 10",
        "e0",
        "e0000000100000002",
        "a0",
        "l00",
        "A00000000",
        "L",
        "w",
        "w0",
        "r0000000000000000",
        "s0000000a",
        "W00000000",
        "R00000000",
        "S00000000",
    ];
    let bad = bad.into_iter().chain(too_long.iter().map(String::as_str));
    for lines in bad.chain([&too_long_header[..]]) {
        assert_eq!(of(lines), None, "{lines}");
    }
}

/// Both images, both windows' marks and all that is printed go by the form; an
/// output has at most 512 bytes.
#[test]
fn form_and_writes() {
    let script = "@00000000%nine cells\nm000000000000000000\nk0001\ne00000000\n\
        w00000031\ns00000001\n";
    let answer = |script: &str| {
        let cases = parse(script.as_bytes()).unwrap();
        let answers: Vec<u8> = cases.iter().flat_map(Case::answer).collect();
        String::from_utf8(answers).unwrap()
    };
    let text = "S0030000FC\nS104000800F3\nS5030001FB\nS9030000FC\n";
    let digits: String = text.bytes().map(|c| format!("{c:02X}")).collect();
    let wanted = format!(
        "@00000000%nine cells\n\
        write 0 record 0 at 0 want 00 length 46\noutput {digits}EEEEEE\n\
        write 19 record 0 at 0 want 00 length 0\noutput EE\n"
    );
    assert_eq!(answer(script), wanted);
    for room in ["00000200", "00000201", "FFFFFFFF"] {
        let script = format!("@00000000 no cells\nr{room}\n");
        let wanted = format!(
            "@00000000 no cells\nwrite 0 record 0 at 0 want 00 length 13\n\
            output 3B303030303030303030300D0A{}\n",
            "EE".repeat(512 - 13)
        );
        assert_eq!(answer(&script), wanted);
    }
}
