//! Small scripts that each break somewhere.

use crate::generate::{generate, Kind};
use crate::rng::Rng;
use crate::script::decode;
use std::fs;

/// Writes `count` broken scripts into a folder.
pub fn write_files(seed: u64, count: u64, folder: &str) -> Result<u8, String> {
    fs::create_dir_all(folder).map_err(|error| error.to_string())?;
    for index in 0..count {
        let name = format!("{folder}/malformed-{index:05}.bin");
        fs::write(name, broken_script(seed, index)).map_err(|error| error.to_string())?;
    }
    Ok(0)
}

/// The broken script of a seed and an index. The first ones go through all
/// tags, lengths and cuts in order; later ones repeat them after longer runs.
pub fn broken_script(seed: u64, index: u64) -> Vec<u8> {
    let mut rng = Rng::new(seed.wrapping_mul(0x2545_F491_4F6C_DD1D) ^ index);
    let good_records = if rng.percent(30) { 0 } else { rng.within(1, 12) };
    let kind = if rng.percent(50) { Kind::Wild } else { Kind::Modes };
    let mut script = match good_records {
        0 => Vec::new(),
        records => generate(rng.next(), records, kind),
    };
    let turn = index / 8;
    match index % 8 {
        0 => cut_record(&mut script, turn, &mut rng),
        1 => unknown_tag(&mut script, turn, &mut rng),
        2 => wrong_length(&mut script, turn, &mut rng),
        3 => high_length_byte(&mut script, turn, &mut rng),
        4 => short_unknown_header(&mut script, turn, &mut rng),
        5 => wrong_length_and_short(&mut script, turn, &mut rng),
        6 => random_bytes(&mut script, &mut rng),
        _ => odd_cases(&mut script, turn, &mut rng),
    }
    script
}

fn known_tag(turn: u64) -> u8 {
    1 + (turn % 10) as u8
}

/// The body length that belongs to a known tag.
pub fn needed(tag: u8) -> usize {
    match tag {
        0x02 | 0x05 | 0x0A => 2,
        0x03 => 6,
        0x08 => 1,
        0x09 => 13,
        _ => 0,
    }
}

pub fn whole_record(tag: u8, rng: &mut Rng) -> Vec<u8> {
    let mut record = vec![tag, needed(tag) as u8, 0];
    record.extend((0..needed(tag)).map(|_| rng.word() as u8));
    record
}

/// A record cut at every length from 1 on; all tags have their turn.
fn cut_record(script: &mut Vec<u8>, turn: u64, rng: &mut Rng) {
    let tag = known_tag(turn);
    let record = whole_record(tag, rng);
    let cut = 1 + (turn / 10) as usize % (record.len() - 1).max(1);
    script.extend_from_slice(&record[..cut]);
}

fn unknown_tag(script: &mut Vec<u8>, turn: u64, rng: &mut Rng) {
    let tags: Vec<u8> = std::iter::once(0).chain(0x0B..=0xFF).collect();
    let tag = tags[turn as usize % tags.len()];
    let length = rng.pick(&[0u8, 1, 2, 6, 13, 255]);
    script.extend_from_slice(&[tag, length, rng.pick(&[0, 0, 1, 0xFF])]);
    append_random(script, rng, length as u64);
}

/// The length one less, one more, or any other.
fn wrong_length(script: &mut Vec<u8>, turn: u64, rng: &mut Rng) {
    let tag = known_tag(turn);
    let right = needed(tag) as u8;
    let other = rng.word() as u8;
    let length = [right.wrapping_sub(1), right + 1, right + 2, other][(turn / 10) as usize % 4];
    let length = if length == right { 200 } else { length };
    script.extend_from_slice(&[tag, length, 0]);
    append_random(script, rng, 260);
}

fn high_length_byte(script: &mut Vec<u8>, turn: u64, rng: &mut Rng) {
    let tag = known_tag(turn);
    let high = rng.pick(&[1u8, 2, 0x80, 0xFF]);
    script.extend_from_slice(&[tag, needed(tag) as u8, high]);
    append_random(script, rng, if turn % 2 == 0 { 20 } else { 700 });
}

/// One or two bytes of a header whose tag is unknown.
fn short_unknown_header(script: &mut Vec<u8>, turn: u64, rng: &mut Rng) {
    script.push(rng.pick(&[0u8, 0x0B, 0x0C, 0x7F, 0x80, 0x81, 0xFF]));
    if turn % 2 == 0 {
        script.push(rng.word() as u8);
    }
}

fn wrong_length_and_short(script: &mut Vec<u8>, turn: u64, rng: &mut Rng) {
    let tag = known_tag(turn);
    let length = needed(tag) as u8 + rng.within(1, 100) as u8;
    script.extend_from_slice(&[tag, length, rng.pick(&[0, 0, 0xFF])]);
    let short = rng.below(length as u64);
    append_random(script, rng, short);
}

fn random_bytes(script: &mut Vec<u8>, rng: &mut Rng) {
    let count = rng.within(1, 80);
    append_random(script, rng, count);
    // By chance every byte may have been read: then one more makes it break.
    let mut place = 0;
    while place < script.len() {
        match decode(&script[place..]) {
            Ok((_, length)) => place += length,
            Err(_) => return,
        }
    }
    script.push(0xEE);
}

fn odd_cases(script: &mut Vec<u8>, turn: u64, rng: &mut Rng) {
    match turn % 6 {
        0 => script.clear(),
        1 => *script = b"reset\nread 0x000\n".to_vec(),
        2 => *script = b"01 00 00\n".to_vec(),
        3 => script.extend_from_slice(&[0x03, 0xFF, 0xFF]),
        4 => script.extend_from_slice(&[0x81, 0x06, 0x00, 0, 0, 0, 0, 0, 0]),
        _ => {
            script.extend_from_slice(&[0x09, 0xFF, 0xFF]);
            append_random(script, rng, 70_000);
        }
    }
}

pub fn append_random(script: &mut Vec<u8>, rng: &mut Rng, count: u64) {
    script.extend((0..count).map(|_| rng.word() as u8));
}
