//! Small lessons that open well or otherwise.

use crate::malformed::{needed, whole_record};
use crate::rng::Rng;
use crate::writer::RESET_RECORD;
use std::fs;

/// Writes every opening into a folder.
pub fn write_files(folder: &str) -> Result<u8, String> {
    fs::create_dir_all(folder).map_err(|error| error.to_string())?;
    for (index, lesson) in openings().iter().enumerate() {
        let name = format!("{folder}/opening-{index:03}.bin");
        fs::write(name, lesson).map_err(|error| error.to_string())?;
    }
    Ok(0)
}

/// Lessons with every kind of opening, with and without records behind it.
pub fn openings() -> Vec<Vec<u8>> {
    let mut lessons = prefixes();
    lessons.extend(wrong_bytes());
    lessons.extend(other_records());
    lessons.extend(other_texts());
    lessons.extend(good_openings());
    lessons
}

/// Two reads and a reset, so that a reader that goes on has something to answer.
const RECORDS: [u8; 13] = [0x02, 0x02, 0x00, 0x00, 0x00, 0x02, 0x02, 0x00, 0x1C, 0x00, 0x01, 0x00, 0x00];

fn with_records(opening: &[u8]) -> Vec<u8> {
    [opening, &RECORDS].concat()
}

/// Under three bytes, right and wrong.
fn prefixes() -> Vec<Vec<u8>> {
    let none_or_one: [&[u8]; 5] = [&[], &[0x01], &[0x00], &[0x02], &[0xFF]];
    let two = [[0x01, 0x00], [0x00, 0x00], [0x01, 0x01], [0x02, 0x02], [0x81, 0x06]];
    none_or_one.into_iter().map(Vec::from).chain(two.map(Vec::from)).collect()
}

/// One of the three bytes is wrong, then two or all.
fn wrong_bytes() -> Vec<Vec<u8>> {
    let mut lessons = Vec::new();
    for place in 0..RESET_RECORD.len() {
        for byte in [0x00, 0x01, 0x02, 0x0B, 0x10, 0x80, 0x81, 0xFF] {
            let mut opening = RESET_RECORD;
            opening[place] = byte;
            if opening != RESET_RECORD {
                lessons.extend([opening.to_vec(), with_records(&opening)]);
            }
        }
    }
    for opening in [[0x01, 0x01, 0x01], [0x00, 0x00, 0x01], [0x00, 0x01, 0x00], [0xFF, 0xFF, 0xFF]] {
        lessons.push(with_records(&opening));
    }
    lessons
}

/// A record of every other tag, then the reset.
fn other_records() -> Vec<Vec<u8>> {
    let mut rng = Rng::new(1);
    let records = (0x02..=0x0A).map(|tag| whole_record(tag, &mut rng));
    records.map(|record| [&record, &RESET_RECORD[..], &RECORDS].concat()).collect()
}

/// What a hand might make of an opening.
fn other_texts() -> Vec<Vec<u8>> {
    let texts: [&[u8]; 8] = [
        b"01 00 00\n",
        b"reset\n",
        b"\n\x01\x00\x00",
        b"\x00\x01\x00\x00",
        b"\x01\x01\x00\x00",
        b"\x01\x00\x01\x00",
        b"\xEF\xBB\xBF\x01\x00\x00",
        b"\x81\x06\x00\x00\x00\x00\x00\x00\x00",
    ];
    texts.map(|lesson| lesson.to_vec()).to_vec()
}

/// The right opening: alone, before good records of every tag, and before
/// records that can't be read.
fn good_openings() -> Vec<Vec<u8>> {
    let mut rng = Rng::new(2);
    let mut rests = vec![Vec::new(), RECORDS.to_vec(), RESET_RECORD.to_vec()];
    let broken: [&[u8]; 9] = [
        &[0x01],
        &[0x01, 0x00],
        &[0xFF],
        &[0x0B, 0x00, 0x00],
        &[0x00, 0x00, 0x00],
        &[0x01, 0x01, 0x00, 0x00],
        &[0x01, 0x00, 0x01],
        &[0x02, 0x02, 0x01, 0x00, 0x00],
        &[0x03, 0x06, 0x00, 0x00, 0x00],
    ];
    rests.extend(broken.map(|rest| rest.to_vec()));
    rests.extend(broken.map(|rest| [&RECORDS, rest].concat()));
    for tag in 0x01..=0x0A {
        let record = whole_record(tag, &mut rng);
        rests.push([&record, &RECORDS[..]].concat());
        if needed(tag) > 0 {
            rests.push(record[..record.len() - 1].to_vec());
        }
    }
    rests.iter().map(|rest| [&RESET_RECORD, &rest[..]].concat()).collect()
}
