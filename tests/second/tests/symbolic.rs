//! The cases of crates/symbolic, by the second reading: `rt ci symbolic` holds the
//! proved library to the same file.

use second::symbolic::{parse, Case};
use std::fs;
use std::path::Path;

fn file(name: &str) -> Vec<u8> {
    let folder = Path::new(env!("CARGO_MANIFEST_DIR")).join("../../crates/symbolic");
    fs::read(folder.join(name)).unwrap()
}

#[test]
fn answers_are_those_worked_out_by_hand() {
    let cases = parse(&file("stdin")).unwrap();
    assert!(cases.len() >= 100, "{}", cases.len());
    let answers: Vec<u8> = cases.iter().flat_map(Case::answer).collect();
    let (answers, wanted) = (answers.escape_ascii(), file("stdout"));
    assert_eq!(answers.to_string(), wanted.escape_ascii().to_string());
}

/// Spaces and line ends between the bytes of a sheet are not written again.
#[test]
fn scripts_are_parsed_again() {
    let cases = parse(&file("stdin")).unwrap();
    let script: Vec<u8> = cases.iter().flat_map(Case::script).collect();
    assert_eq!(parse(&script), Some(cases));
}

#[test]
fn headings_are_told_apart() {
    for script in [
        "@00000000:00000000:00000000 \n",
        "@ABCDEF01:00000400:00000400 a b: c\n$$ M\n$$\n",
        "@00000000:00000000:00000001 no bytes\n~\n",
        "@00000000:00000000:00000001 bytes\n$$~01FF\n",
    ] {
        let cases = parse(script.as_bytes()).unwrap();
        assert_eq!(cases[0].script(), script.as_bytes());
    }
    for script in [
        "@00000000:00000000 a\n",
        "@00000000:00000000:0 a\n",
        "@00000000:00000000:00000000\n",
        "@00000000:00000000:0000000a a\n",
        "@00000000:00000401:00000000 a\n",
        "@00000000:00000000:00000401 a\n",
        "@00000000:00000000:00000000 a",
        "x@00000000:00000000:00000000 a\n",
    ] {
        assert_eq!(parse(script.as_bytes()), None, "{script}");
    }
}

/// What stands behind a `~`, even nothing, is a sheet.
#[test]
fn sheets_are_told_apart() {
    let sheet = |text: &str| {
        let cases = parse(format!("@00000000:00000000:00000000 name\n{text}").as_bytes());
        cases.map(|cases| cases[0].sheet.clone())
    };
    assert_eq!(sheet("$$ M\n"), Some(None));
    assert_eq!(sheet("~"), Some(Some(Vec::new())));
    assert_eq!(
        sheet("~\n01 0203\n\nFF \n"),
        Some(Some(vec![1, 2, 3, 0xFF]))
    );
    for text in ["~0\n", "~0 1\n", "~ab\n", "~01\r\n", "~01~02\n"] {
        assert_eq!(sheet(text), None, "{text}");
    }
}
