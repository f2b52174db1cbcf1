//! Texts of few addresses and many lines: cells that are addressed twice, lines
//! without data, wrong lines and lines that end the text, all of them anywhere.

use super::Face;
use crate::texts::{data_line, data_record, last_line, record, width_of};
use second::cases::LoadCase;
use second::random::Random;
use second::tape::Edition;

/// How far the addresses lie apart.
const NEAR: u64 = 12;

pub fn case(face: &Face, edition: Edition, random: &mut Random) -> LoadCase {
    let start = any_start(face, random);
    let mut text = Vec::new();
    let mut data = 0;
    for _ in 0..random.size(0, 9) {
        let line = match face.format.has_entry {
            true => any_record(random, start, &mut data),
            false => any_line(edition, random, start, &mut data),
        };
        text.extend(spoiled(random, line));
        text.extend(any_end(face, random));
    }
    if random.chance(1, 3) {
        text.pop();
    }
    let base = start.saturating_sub(random.below(4));
    let length = random.between(0, 2 * NEAR).min((1 << 32) - base) as usize;
    LoadCase {
        text,
        base: base as u32,
        memory: random.bytes(length),
        marks: random.bytes(length),
    }
}

/// Often an edge: 0, or just below the top of a width.
fn any_start(face: &Face, random: &mut Random) -> u64 {
    let top = face.top() + 1;
    let width = random.pick(&[1 << 16, 1 << 24, 1 << 32]).min(top);
    match random.below(6) {
        0 => 0,
        1 => random.below(300),
        2..=4 => width - random.between(1, NEAR),
        _ => random.below(top - NEAR),
    }
}

/// An address and data, which may go on past the top.
fn any_data(random: &mut Random, start: u64, top: u64) -> (u64, Vec<u8>) {
    let address = (start + random.below(NEAR)).min(top);
    let most = (top - address + 1).min(4) as usize;
    let most = if random.chance(1, 12) { 4 } else { most };
    let length = random.size(0, most);
    let data = if random.chance(1, 6) {
        vec![0; length]
    } else {
        random.bytes(length)
    };
    (address, data)
}

fn any_record(random: &mut Random, start: u64, data: &mut u64) -> Vec<u8> {
    match random.below(20) {
        0 => record(b'5', 2, *data, &[]),
        1 => record(b'5', 2, random.below(4), &[]),
        2 => record(b'0', 2, start & 0xFFFF, &[0xAB, 0xCD]),
        3 => {
            let width = random.size(width_of(start), 4);
            record(b'0' + 11 - width as u8, width, start, &[])
        }
        4 => b"S6030000FC".to_vec(),
        _ => {
            let (address, bytes) = any_data(random, start, 0xFFFF_FFFF);
            let width = random.size(width_of(address), 4);
            *data += 1;
            data_record(width, address, &bytes)
        }
    }
}

fn any_line(edition: Edition, random: &mut Random, start: u64, data: &mut u64) -> Vec<u8> {
    match random.below(20) {
        0 => last_line(edition, *data as u16),
        1 => last_line(edition, random.below(4) as u16),
        2 => b";0000000001".to_vec(),
        _ => {
            let (address, mut bytes) = any_data(random, start, 0xFFFF);
            if bytes.is_empty() {
                bytes.push(random.byte());
            }
            *data += 1;
            data_line(address as u16, &bytes)
        }
    }
}

/// One line of sixteen has a wrong or a missing character, or one too many.
fn spoiled(random: &mut Random, mut line: Vec<u8>) -> Vec<u8> {
    if random.chance(15, 16) {
        return line;
    }
    let place = random.size(0, line.len() - 1);
    match random.below(4) {
        0 => line[place] = random.pick(b"0F;Sg \x7F"),
        1 => drop(line.remove(place)),
        2 => line.insert(place, random.pick(b"0Fx")),
        _ => line.truncate(place),
    }
    line
}

/// One character that separates lines, or several.
fn any_end(face: &Face, random: &mut Random) -> Vec<u8> {
    let number = random.pick(&[1, 1, 1, 2, 4]);
    (0..number).map(|_| random.pick(face.separators)).collect()
}
