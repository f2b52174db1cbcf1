//! Writes with whole answers, and how much room they need.

use super::{entry_words, hold, same, Face};
use crate::guarded::Guarded;
use crate::settings::Settings;
use crate::tally::Tally;
use crate::whole::{self, Source, Written};
use second::cases::WriteCase;
use second::random::Random;
use second::spans::room;

/// What must come up.
const WAYS: [&str; 6] = [
    "no header",
    "a header",
    "an entry",
    "no entry",
    "just enough room",
    "no room",
];

pub fn drawn(face: &Face, settings: &Settings) -> Result<String, String> {
    let mut rows = Tally::of(face.write_numbers);
    let asked = face.write_numbers.into_iter().filter(|row| *row != 17);
    let mut rooms = Tally::of(asked);
    let mut ways = Tally::of(WAYS);
    let wanted = face.format.wanted;
    let mut cases = 0;
    for (seed, limits, percent) in [
        (settings.seed, wanted.small, 75),
        (!settings.seed, wanted.full, 25),
    ] {
        for index in 0..settings.share(percent) {
            let case = wanted.write_case(seed, index, limits);
            let random = &mut Random::new(seed, !index);
            let (written, room) = compare(face, &case, random)
                .map_err(|error| format!("seed {seed}, index {index}: {error}\n{case:02X?}"))?;
            rows.add(written.reason);
            rooms.add(room.reason);
            count(&case, &written, &room, &mut ways);
            cases += 1;
        }
    }
    let told = [
        rows.told("rows")?,
        rooms.told("rows of rooms")?,
        ways.told("ways")?,
    ];
    Ok(format!("{cases} cases; {}", told.join("; ")))
}

/// About as many lines as can be counted, and more.
pub fn large(face: &Face, settings: &Settings) -> Result<String, String> {
    let mut rows = Tally::of(face.format.large_write_numbers.iter().copied());
    for (index, case) in (face.format.large_writes)(settings.seed).iter().enumerate() {
        let random = &mut Random::new(settings.seed, index as u64);
        let (written, _) =
            compare(face, case, random).map_err(|error| format!("index {index}: {error}"))?;
        rows.add(written.reason);
    }
    rows.told("rows")
}

/// Both answers, and the output; and what must hold of the two.
fn compare(
    face: &Face,
    case: &WriteCase,
    random: &mut Random,
) -> Result<(Written, Written), String> {
    let memory = Guarded::new(random, &case.memory);
    let marks = Guarded::new(random, &case.marks);
    let header = Guarded::new(random, &case.header);
    let source = Source {
        base: case.base,
        memory: memory.bytes(),
        marks: marks.bytes(),
        header: header.bytes(),
        entry: entry_words(random, case.entry),
    };
    let written = compare_write(face, case, source, case.room, random)?;
    let found = whole::room(face.number(random), source);
    let write = face.format.wanted.write;
    let (base, entry) = (case.base, case.entry);
    let wanted = room(write, base, &case.memory, &case.marks, &case.header, entry);
    same("room", found, wanted.into())?;
    hold_room(face, source, &written, &found, random)?;
    if found.reason == 0 {
        compare_write(face, case, source, found.length, random)?;
    }
    memory.expect("memory", &case.memory)?;
    marks.expect("marks", &case.marks)?;
    header.expect("header", &case.header)?;
    Ok((written, found))
}

/// A write into an output of so many bytes, by both.
fn compare_write(
    face: &Face,
    case: &WriteCase,
    source: Source,
    room: usize,
    random: &mut Random,
) -> Result<Written, String> {
    let mut out = Guarded::unset(random, room);
    let mut left = out.bytes().to_vec();
    let written = whole::write(face.number(random), source, out.bytes_mut());
    let wanted = (face.format.wanted.write)(
        case.base,
        &case.memory,
        &case.marks,
        &case.header,
        case.entry,
        &mut left,
    );
    same("write", written, wanted.into())?;
    out.expect("output", &left)?;
    Ok(written)
}

/// So much room is enough, and a byte less is not. Without room the rows are the same.
fn hold_room(
    face: &Face,
    source: Source,
    written: &Written,
    room: &Written,
    random: &mut Random,
) -> Result<(), String> {
    let number = face.number(random);
    let write = |length| whole::write(number, source, &mut vec![0; length]);
    let wanted = |reason, place, length| Written {
        reason,
        place,
        length,
    };
    if room.reason != 0 {
        same("write that has no room", *written, *room)?;
        return same("write into nothing", write(0), *room);
    }
    let length = room.length;
    hold(length > 0, || "no room for a text".to_string())?;
    same("write that fits", write(length), *room)?;
    let short = wanted(17, length, 0);
    same("write with a byte less", write(length - 1), short)?;
    match written.reason {
        0 => same("room of a write", *written, *room),
        _ => same("room of row 17", *written, short),
    }
}

fn count(case: &WriteCase, written: &Written, room: &Written, ways: &mut Tally<&str>) {
    ways.add(match case.header[..] {
        [] => "no header",
        _ => "a header",
    });
    ways.add(match case.entry {
        None => "no entry",
        Some(_) => "an entry",
    });
    if written.reason == 0 && room.length == case.room {
        ways.add("just enough room");
    }
    if written.reason == 17 && case.room == 0 {
        ways.add("no room");
    }
}
