//! The cases of crates/vectors, by the second reading: `rt ci vectors` holds
//! the proved library to the same file.

use second::form::Form;
use second::script::{parse, Case, Format};
use second::tape::Edition;
use std::fs;
use std::path::Path;

fn file(name: &str) -> Vec<u8> {
    let folder = Path::new(env!("CARGO_MANIFEST_DIR")).join("../../crates/vectors");
    fs::read(folder.join(name)).unwrap()
}

#[test]
fn answers_are_those_worked_out_by_hand() {
    let cases = parse(&file("stdin")).unwrap();
    let answers: Vec<u8> = cases.iter().flat_map(Case::answer).collect();
    let (answers, wanted) = (answers.escape_ascii(), file("stdout"));
    assert_eq!(answers.to_string(), wanted.escape_ascii().to_string());
}

#[test]
fn script_is_parsed_whole() {
    let script = file("stdin");
    let cases = parse(&script).unwrap();
    for (format, form, least) in [
        (Format::Srec, Form::Bytes, 75),
        (REPEAT, Form::Bytes, 64),
        (SUM, Form::Bytes, 19),
        (Format::Srec, Form::Packed, 29),
        (REPEAT, Form::Packed, 7),
        (SUM, Form::Packed, 4),
    ] {
        let cases = cases
            .iter()
            .filter(|c| (c.format, c.form) == (format, form));
        assert!(cases.count() >= least, "{format:?} {form:?}");
    }
    assert_eq!(
        cases.iter().flat_map(Case::script).collect::<Vec<u8>>(),
        script
    );
}

const REPEAT: Format = Format::Tape(Edition::Repeat);
const SUM: Format = Format::Tape(Edition::Sum);

/// A space, `;` or `+` behind the number of cells, and nothing in the name or
/// the text, says which calls a case is for.
#[test]
fn headings_name_the_format() {
    let script = b"@00000000:00000010 ;tape; a\n;0000000000\n\
        @00000000:00000010; b: c\n;010001bb00bd\0;0000010001@00000000:00000010;\nS9030000FC\n\
        @00000000:00000010;+\n;0001000100@00000000:00000010+;\n;0001000100";
    let cases = parse(script).unwrap();
    let found: Vec<(Format, &str)> = cases.iter().map(|c| (c.format, &c.name[..])).collect();
    let wanted = [
        (Format::Srec, ";tape; a"),
        (REPEAT, " b: c"),
        (REPEAT, ""),
        (REPEAT, "+"),
        (SUM, ";"),
    ];
    assert_eq!(found, wanted);
    let scripts: Vec<u8> = cases.iter().flat_map(Case::script).collect();
    assert_eq!(scripts, script);
    let refused = "record 1 at 0 want 00 records 0 cells 0 entry none header 0:\n";
    let answers: Vec<u8> = cases.iter().flat_map(Case::answer).collect();
    assert_eq!(
        String::from_utf8(answers).unwrap(),
        format!(
            "@00000000:00000010 ;tape; a\n4 {refused}\
            @00000000:00000010; b: c\n\
            0 record 0 at 0 want 00 records 1 cells 1 entry none header 0:\n\
            ;010001BB00BD\r\n;0000010001\r\n\
            @00000000:00000010;\n4 {refused}\
            @00000000:00000010;+\n10 {refused}\
            @00000000:00000010+;\n7 {refused}"
        )
    );
    for heading in ["@0:10\n", "@0:10,a\n", "@0 10;a\n", "@0:10"] {
        assert_eq!(parse(heading.as_bytes()), None, "{heading}");
    }
}

/// A `%` right behind the sign, and nowhere else, says that marks are packed. They
/// are printed before the canonical text.
#[test]
fn headings_name_the_form() {
    let script = b"@00000000:00000009 %a %\nS1040008AA49\nS9030000FC\n\
        @00000000:00000009 a %\nS9030000FC\n\
        @00000000:00000000;%\n;0000000000\n\
        @00000000:00000001+%;\nS9030000FC\n";
    let cases = parse(script).unwrap();
    let found: Vec<(Form, &str)> = cases.iter().map(|c| (c.form, &c.name[..])).collect();
    let packed = Form::Packed;
    let wanted = [
        (packed, "a %"),
        (Form::Bytes, "a %"),
        (packed, ""),
        (packed, ";"),
    ];
    assert_eq!(found, wanted);
    let scripts: Vec<u8> = cases.iter().flat_map(Case::script).collect();
    assert_eq!(scripts, script);
    let answers: Vec<u8> = cases.iter().flat_map(Case::answer).collect();
    let wanted = "@00000000:00000009 %a %\n\
        0 record 0 at 0 want 00 records 1 cells 1 entry 00000000 header 0:\n\
        marks 0001\n\
        S0030000FC\nS1040008AA49\nS5030001FB\nS9030000FC\n\
        @00000000:00000009 a %\n\
        0 record 0 at 0 want 00 records 0 cells 0 entry 00000000 header 0:\n\
        S0030000FC\nS5030000FC\nS9030000FC\n\
        @00000000:00000000;%\n\
        0 record 0 at 0 want 00 records 0 cells 0 entry none header 0:\n\
        marks \n;0000000000\r\n\
        @00000000:00000001+%;\n\
        4 record 1 at 0 want 00 records 0 cells 0 entry none header 0:\n";
    assert_eq!(String::from_utf8(answers).unwrap(), wanted);
}
