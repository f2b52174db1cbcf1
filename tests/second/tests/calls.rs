//! The cases of crates/calls, by the second reading: `rt ci calls` holds the
//! proved library to the same file.

use second::calls::{parse, Case};
use second::form::Form;
use std::fs;
use std::path::Path;

fn file(name: &str) -> Vec<u8> {
    let folder = Path::new(env!("CARGO_MANIFEST_DIR")).join("../../crates/calls");
    fs::read(folder.join(name)).unwrap()
}

#[test]
fn answers_are_those_worked_out_by_hand() {
    let cases = parse(&file("stdin")).unwrap();
    let answers: Vec<u8> = cases.iter().flat_map(Case::answer).collect();
    let (answers, wanted) = (answers.escape_ascii(), file("stdout"));
    assert_eq!(answers.to_string(), wanted.escape_ascii().to_string());
}

#[test]
fn script_is_parsed_whole() {
    let script = file("stdin");
    let cases = parse(&script).unwrap();
    for (form, least) in [(Form::Bytes, 110), (Form::Packed, 44)] {
        let cases = cases.iter().filter(|case| case.form == form);
        assert!(cases.count() >= least, "{form:?}");
    }
    assert_eq!(
        cases.iter().flat_map(Case::script).collect::<Vec<u8>>(),
        script
    );
}

/// A word that is none, or a number that is missing.
#[test]
fn words_are_told_apart() {
    let of = |words: &str| parse(format!("@0:4 name\n{words}\ntext").as_bytes());
    assert!(of("b f1 r2 e p k u m3:4 l5:6 a7 S8 T9 P1 H2 N3 R4 C5 L6 X7").is_some());
    for words in ["g", "e1", "f", "fx", "m1", "l1", "T", "m1024:1", "l1025:1"] {
        assert_eq!(of(words), None, "{words}");
    }
}

/// A `%` in place of the space before the name packs the marks: there are fewer
/// mark bytes then, and `b` begins again in the same form.
#[test]
fn headings_name_the_form() {
    let script = b"@00000000:00000009%a %\np m1:3 b p l8:2 f0 p\n\
        @00000000:00000001 %\np\n";
    let cases = parse(script).unwrap();
    let found: Vec<(Form, &str)> = cases.iter().map(|c| (c.form, &c.name[..])).collect();
    assert_eq!(found, [(Form::Packed, "a %"), (Form::Bytes, "%")]);
    let scripts: Vec<u8> = cases.iter().flat_map(Case::script).collect();
    assert_eq!(scripts, script);
    let begun = "total 0 place 0 held 0 number 0 records 0 cells 0 head 0 entry none";
    let answers: Vec<u8> = cases.iter().flat_map(Case::answer).collect();
    let nine = format!("state size 9 {begun}\nmemory E0E1E2E3E4E5E6E7E8\nmarks 0000\n");
    let wanted = format!(
        "@00000000:00000009%a %\n{nine}{nine}\
        state refused 1 record 0 at 0 want 00\nmemory E0E1E2E3E4E5E6E7\nmarks 0000\n\
        @00000000:00000001 %\nstate size 1 {begun}\nmemory E0\nmarks 00\n"
    );
    assert_eq!(String::from_utf8(answers).unwrap(), wanted);
}
