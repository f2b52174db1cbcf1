//! What must hold of the merges of a group, by what they leave alone.

use super::First;
use crate::walks::Merge;
use second::cases::overlays::Group;
use second::patches::Held;

/// What is held to merges. Each must come up.
pub const KINDS: [&str; 14] = [
    "groupings agree",
    "refused at A+B and at B+C",
    "refused at A+B and at A+(B+C)",
    "refused at (A+B)+C and at B+C",
    "empty patch",
    "empty base",
    "into itself",
    "into itself with other unmarked bytes",
    "places changed",
    "places changed with equal parts in both",
    "order matters by a shared cell alone",
    "order matters by two headers alone",
    "order matters by two entries alone",
    "order matters with more in the way",
];

/// Holds all of it. The last merge is A+(B+C), and is missing if B+C was refused.
pub fn hold(
    group: &Group,
    first: &First,
    last: Option<&Merge>,
) -> Result<Vec<&'static str>, String> {
    if group.is_right() && first.iter().chain(last).any(refused) {
        return Err("a merge is refused for no reason".to_string());
    }
    let [ab, abc, bc, ac, acb, with_empty, over_empty, itself] = first;
    let mut kinds = vec![groupings(group, [ab, abc], bc, last)?];
    kinds.extend(unchanged(group, with_empty, over_empty, itself)?);
    kinds.extend(order(&group.patches, [ab, abc], [ac, acb])?);
    Ok(kinds)
}

fn refused(merge: &Merge) -> bool {
    merge.number != 0
}

/// The same cells with their bytes, header and entry. Unmarked bytes may differ.
fn agree(one: &Held, other: &Held) -> bool {
    differ(one, other) == [false; 3]
}

/// Whether the cells, the headers and the entries differ.
fn differ(one: &Held, other: &Held) -> [bool; 3] {
    [
        one.image().cells() != other.image().cells(),
        one.title.header != other.title.header,
        one.title.entry != other.title.entry,
    ]
}

/// Both groupings agree. One is refused exactly if the other one is, and if
/// something is wrong with an image.
fn groupings(
    group: &Group,
    left: [&Merge; 2],
    bc: &Merge,
    last: Option<&Merge>,
) -> Result<&'static str, String> {
    let first_refused = |merges: &[&Merge]| merges.iter().position(|merge| refused(merge));
    let right: Vec<&Merge> = [bc].into_iter().chain(last).collect();
    let refusals = (first_refused(&left), first_refused(&right));
    if (refusals == (None, None)) != group.is_right() {
        return Err("a wrong image is merged in some grouping".to_string());
    }
    match refusals {
        (None, None) if agree(&left[1].left, &right[1].left) => Ok("groupings agree"),
        (None, None) => Err("(A+B)+C and A+(B+C) do not agree".to_string()),
        (Some(0), Some(0)) => Ok("refused at A+B and at B+C"),
        (Some(0), Some(1)) => Ok("refused at A+B and at A+(B+C)"),
        (Some(1), Some(0)) => Ok("refused at (A+B)+C and at B+C"),
        _ => Err(format!("the groupings are refused at {refusals:?}")),
    }
}

/// An empty image changes nothing on either side, nor does a copy.
fn unchanged(
    group: &Group,
    with_empty: &Merge,
    over_empty: &Merge,
    itself: &Merge,
) -> Result<Vec<&'static str>, String> {
    let Group { base, copy, .. } = group;
    let mut kinds = Vec::new();
    if !refused(with_empty) {
        if with_empty.left != *base {
            return Err("an empty patch changes A".to_string());
        }
        kinds.push("empty patch");
    }
    if !refused(over_empty) {
        if !agree(&over_empty.left, base) {
            return Err("A changes by an empty base image".to_string());
        }
        kinds.push("empty base");
    }
    if !refused(itself) {
        if itself.left != *base {
            return Err("A changes by a copy".to_string());
        }
        kinds.push("into itself");
        let other_bytes = copy.memory != base.memory;
        kinds.extend(other_bytes.then_some("into itself with other unmarked bytes"));
    }
    Ok(kinds)
}

/// What two patches both have, of cells, headers and entries, and whether it differs.
fn in_the_way([one, other]: &[Held; 2]) -> [Option<bool>; 3] {
    let (cells, other_cells) = (one.image().cells(), other.image().cells());
    let both = cells.iter().zip(&other_cells);
    let shared = both.filter(|(one, other)| one.is_some() && other.is_some());
    let differing = shared.map(|(one, other)| one != other);
    let (one, other) = (&one.title, &other.title);
    let headers = !one.header.is_empty() && !other.header.is_empty();
    let entries = one.entry.is_some() && other.entry.is_some();
    [
        differing.reduce(|any, differs| any || differs),
        headers.then_some(one.header != other.header),
        entries.then_some(one.entry != other.entry),
    ]
}

/// The order matters just for what differs in both patches. Without a shared cell,
/// two headers or two entries it does not.
fn order(
    patches: &[Held; 2],
    bc: [&Merge; 2],
    cb: [&Merge; 2],
) -> Result<Option<&'static str>, String> {
    let some_refused = |merges: [&Merge; 2]| merges.into_iter().any(refused);
    if some_refused(bc) != some_refused(cb) {
        return Err("one order alone is refused".to_string());
    }
    if some_refused(bc) {
        return Ok(None);
    }
    let ways = in_the_way(patches);
    let seen = differ(&bc[1].left, &cb[1].left);
    if seen != ways.map(|way| way == Some(true)) {
        return Err(format!(
            "cells, headers, entries: the order matters in {seen:?}, and in the way are {ways:?}"
        ));
    }
    Ok(Some(match ways {
        [None, None, None] => "places changed",
        _ if seen == [false; 3] => "places changed with equal parts in both",
        [Some(_), None, None] => "order matters by a shared cell alone",
        [None, Some(_), None] => "order matters by two headers alone",
        [None, None, Some(_)] => "order matters by two entries alone",
        _ => "order matters with more in the way",
    }))
}
