//! Merges, deals and collects with whole answers.

use super::{entry_words, same};
use crate::guarded::Guarded;
use crate::settings::Settings;
use crate::tally::Tally;
use crate::whole::{self, Lent, Loaded};
use second::cases::chips::{chips_case, ways as chip_ways, Call, CALLS, CHIP_NUMBERS};
use second::cases::overlays::{overlay_case, MERGE_NUMBERS};
use second::chips::{self, Buffers, CHIPS};
use second::deals;
use second::form::Form;
use second::overlay::{self, Image};
use second::patches::{Bench, Command, Held};
use second::random::Random;

/// Which header and which entry a merge gives.
const TITLES: [&str; 6] = [
    "the patch's header",
    "the base's header",
    "no header",
    "the patch's entry",
    "the base's entry",
    "no entry",
];

/// Merges of the cases of `overlay` that have a byte for each mark.
pub fn merges(settings: &Settings) -> Result<String, String> {
    let mut rows = Tally::of(MERGE_NUMBERS);
    let mut titles = Tally::of(TITLES);
    let mut merges = 0;
    for index in 0..settings.cases {
        let case = overlay_case(settings.seed, index);
        if case.form != Form::Bytes {
            continue;
        }
        let random = &mut Random::new(settings.seed, !index);
        let mut bench = Bench::new(case.form, case.start);
        for command in &case.commands {
            if *command == Command::Merge {
                let answer = merge(case.start, &bench.base, &bench.patch, random)
                    .map_err(|error| format!("{}: {error}\n{bench:02X?}", case.name))?;
                rows.add(answer.reason);
                count_title(&bench, &answer, &mut titles);
                merges += 1;
            }
            bench.run(command);
        }
    }
    let (rows, titles) = (rows.told("rows")?, titles.told("titles")?);
    Ok(format!("{merges} merges; {rows}; {titles}"))
}

fn merge(start: u32, base: &Held, patch: &Held, random: &mut Random) -> Result<Loaded, String> {
    let mut memory = Guarded::new(random, &base.memory);
    let mut marks = Guarded::new(random, &base.marks);
    let header = Guarded::new(random, &base.title.header);
    let patch_memory = Guarded::new(random, &patch.memory);
    let patch_marks = Guarded::new(random, &patch.marks);
    let patch_header = Guarded::new(random, &patch.title.header);
    let answer = whole::merge(
        start,
        (memory.bytes_mut(), marks.bytes_mut()),
        (header.bytes(), entry_words(random, base.title.entry)),
        Image {
            memory: patch_memory.bytes(),
            marks: patch_marks.bytes(),
        },
        (patch_header.bytes(), entry_words(random, patch.title.entry)),
    );
    let mut left = base.clone();
    let (cells, bits) = (&mut left.memory, &mut left.marks);
    let (title, own) = (&base.title, &patch.title);
    let merged = overlay::merge(start, cells, bits, title, patch.image(), own);
    same("merge", answer, Loaded::from(&merged))?;
    memory.expect("memory", &left.memory)?;
    marks.expect("marks", &left.marks)?;
    header.expect("header", &base.title.header)?;
    patch_memory.expect("patch's memory", &patch.memory)?;
    patch_marks.expect("patch's marks", &patch.marks)?;
    patch_header.expect("patch's header", &patch.title.header)?;
    Ok(answer)
}

fn count_title(bench: &Bench, answer: &Loaded, titles: &mut Tally<&str>) {
    if answer.reason != 0 {
        return;
    }
    let (base, patch) = (&bench.base.title, &bench.patch.title);
    titles.add(match (&patch.header[..], &base.header[..]) {
        ([], []) => "no header",
        ([], _) => "the base's header",
        _ => "the patch's header",
    });
    titles.add(match (patch.entry, base.entry) {
        (None, None) => "no entry",
        (None, _) => "the base's entry",
        _ => "the patch's entry",
    });
}

/// Memory and marks between guards.
struct Pair {
    memory: Guarded,
    marks: Guarded,
}

impl Pair {
    fn new(random: &mut Random, buffers: &Buffers) -> Pair {
        Pair {
            memory: Guarded::new(random, &buffers.memory),
            marks: Guarded::new(random, &buffers.marks),
        }
    }

    fn lent(&mut self) -> Lent<'_> {
        (self.memory.bytes_mut(), self.marks.bytes_mut())
    }

    fn image(&self) -> Image<'_> {
        Image {
            memory: self.memory.bytes(),
            marks: self.marks.bytes(),
        }
    }

    fn expect(&self, name: &str, wanted: &Buffers) -> Result<(), String> {
        self.memory
            .expect(&format!("memory of {name}"), &wanted.memory)?;
        self.marks
            .expect(&format!("marks of {name}"), &wanted.marks)
    }
}

/// Deals and collects of the cases of `chips`.
pub fn boards(settings: &Settings) -> Result<String, String> {
    let mut counts = CALLS.map(|call| (call, Tally::of(CHIP_NUMBERS), Tally::of(call.wanted())));
    let mut high = Tally::of(["a number of chips above 32 bits"]);
    for index in 0..settings.cases {
        let case = chips_case(settings.seed, index);
        let random = &mut Random::new(settings.seed, !index);
        let mut bench = deals::Bench::new(case.base);
        for command in &case.commands {
            if let Some((call, k)) = call_of(command) {
                // Only the second reading takes a number of 32 bits.
                let past = random.chance(1, 16);
                let k = if past {
                    1 << 32 | k as usize
                } else {
                    k as usize
                };
                let answer = board(call, k, &bench, random)
                    .map_err(|error| format!("{}: {error}\n{bench:02X?}", case.name))?;
                let own = counts.iter_mut().filter(|(own, _, _)| *own == call);
                own.for_each(|(_, rows, _)| rows.add(answer.reason));
                past.then(|| high.add("a number of chips above 32 bits"));
            }
            bench.run(command);
        }
        for (call, way) in chip_ways(&case) {
            let own = counts.iter_mut().filter(|(own, _, _)| *own == call);
            own.for_each(|(_, _, ways)| ways.add(way.clone()));
        }
    }
    let mut told = vec![format!("{} cases; {}", settings.cases, high.complete()?)];
    for (call, rows, ways) in &counts {
        told.push(rows.told(&format!("rows of {call:?}"))?);
        told.push(ways.told(&format!("ways of {call:?}"))?);
    }
    Ok(told.join("; "))
}

fn call_of(command: &deals::Command) -> Option<(Call, u32)> {
    match command {
        deals::Command::Deal(k) => Some((Call::Deal, *k)),
        deals::Command::Collect(k) => Some((Call::Collect, *k)),
        _ => None,
    }
}

/// One call, by both, and all buffers.
fn board(
    call: Call,
    k: usize,
    bench: &deals::Bench,
    random: &mut Random,
) -> Result<Loaded, String> {
    let mut whole_pair = Pair::new(random, &bench.whole);
    let mut pairs = bench.chips.each_ref().map(|chip| Pair::new(random, chip));
    let (mut whole, mut chips) = (bench.whole.clone(), bench.chips.clone());
    let base = bench.base;
    // No number above 32 bits is two or four, and 0 is not either.
    let number = u32::try_from(k).unwrap_or(0);
    let (answer, wanted) = match call {
        Call::Deal => {
            let lent: [Lent; CHIPS] = pairs.each_mut().map(Pair::lent);
            let answer = whole::deal(k, base, whole_pair.image(), lent);
            let refusal = chips::deal(number, base, &whole, &mut chips);
            (answer, Loaded::from(refusal))
        }
        Call::Collect => {
            let sending = pairs.each_ref().map(Pair::image);
            let answer = whole::collect(k, base, whole_pair.lent(), sending);
            let collected = chips::collect(number, base, &mut whole, &chips);
            (answer, Loaded::from(&collected))
        }
    };
    same(&format!("{call:?} over {k}"), answer, wanted)?;
    whole_pair.expect("the whole", &whole)?;
    for (number, (pair, chip)) in pairs.iter().zip(&chips).enumerate() {
        pair.expect(&format!("chip {number}"), chip)?;
    }
    Ok(answer)
}
