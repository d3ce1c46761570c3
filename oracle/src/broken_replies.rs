//! Files of replies, most of which break somewhere.

use crate::malformed::append_random;
use crate::rng::Rng;
use crate::script::{REPLY_BODY, REPLY_LENGTH, REPLY_TAG};
use std::fs;

/// Writes `count` files of replies into a folder.
pub fn write_files(seed: u64, count: u64, folder: &str) -> Result<u8, String> {
    fs::create_dir_all(folder).map_err(|error| error.to_string())?;
    for index in 0..count {
        let name = format!("{folder}/replies-{index:05}.bin");
        fs::write(name, broken_replies(seed, index)).map_err(|error| error.to_string())?;
    }
    Ok(0)
}

/// The replies of a seed and an index. The first ones go through all cuts,
/// tags and lengths in order.
pub fn broken_replies(seed: u64, index: u64) -> Vec<u8> {
    let mut rng = Rng::new(seed.wrapping_mul(0x9FB2_1C65_1E98_DF25) ^ index);
    let turn = index / 8;
    match index % 8 {
        0 => cut_reply(turn, &mut rng),
        1 => wrong_tag(turn, &mut rng),
        2 => wrong_length(turn, &mut rng),
        3 => short_with_wrong_tag(turn, &mut rng),
        4 => wrong_tag_and_length(turn, &mut rng),
        5 => wrong_length_and_short(turn, &mut rng),
        6 => whole_replies(turn, &mut rng),
        _ => odd_cases(turn, &mut rng),
    }
}

/// The tags next to the right one, those of records, then all others.
fn tag_of(turn: u64) -> u8 {
    let near = [0x80, 0x82, 0x00, 0x7F, 0xFF, 0x18].into_iter();
    let tags: Vec<u8> = near.chain(0x01..=0x0B).chain(0x83..=0xFE).chain(0x0C..=0x7E).collect();
    tags[turn as usize % tags.len()]
}

/// The lengths next to the right one, with their bytes exchanged, with a high
/// byte, then others.
fn length_of(turn: u64) -> u16 {
    let near = [5, 7, 0, 0x0106, 0x0600, 0xFF06, 0x0105, 0x0700, 0xFFFF, 9].into_iter();
    let lengths: Vec<u16> = near.chain(1..=4).chain(8..=255).collect();
    lengths[turn as usize % lengths.len()]
}

fn append_whole(replies: &mut Vec<u8>, count: u64, rng: &mut Rng) {
    for _ in 0..count {
        replies.extend_from_slice(&[REPLY_TAG, REPLY_BODY, 0]);
        append_random(replies, rng, REPLY_BODY as u64);
    }
}

fn some_whole(rng: &mut Rng) -> Vec<u8> {
    let mut replies = Vec::new();
    let count = rng.below(3);
    append_whole(&mut replies, count, rng);
    replies
}

/// Cut at every length, behind none, one and two whole replies, then more.
fn cut_reply(turn: u64, rng: &mut Rng) -> Vec<u8> {
    let cuts = REPLY_LENGTH as u64 - 1;
    let mut replies = Vec::new();
    append_whole(&mut replies, turn / cuts + 1, rng);
    replies.truncate((turn / cuts) as usize * REPLY_LENGTH + 1 + (turn % cuts) as usize);
    replies
}

fn wrong_tag(turn: u64, rng: &mut Rng) -> Vec<u8> {
    let mut replies = some_whole(rng);
    replies.extend_from_slice(&[tag_of(turn), REPLY_BODY, 0]);
    let body = rng.below(3 * REPLY_BODY as u64);
    append_random(&mut replies, rng, body);
    replies
}

fn wrong_length(turn: u64, rng: &mut Rng) -> Vec<u8> {
    let mut replies = some_whole(rng);
    replies.push(REPLY_TAG);
    replies.extend_from_slice(&length_of(turn).to_le_bytes());
    append_random(&mut replies, rng, 300);
    replies
}

/// One or two bytes of a header whose tag is wrong.
fn short_with_wrong_tag(turn: u64, rng: &mut Rng) -> Vec<u8> {
    let mut replies = some_whole(rng);
    replies.push(tag_of(turn / 2));
    append_random(&mut replies, rng, turn % 2);
    replies
}

fn wrong_tag_and_length(turn: u64, rng: &mut Rng) -> Vec<u8> {
    let mut replies = some_whole(rng);
    replies.push(tag_of(turn));
    replies.extend_from_slice(&length_of(rng.below(20)).to_le_bytes());
    let body = rng.below(12);
    append_random(&mut replies, rng, body);
    replies
}

fn wrong_length_and_short(turn: u64, rng: &mut Rng) -> Vec<u8> {
    let mut replies = some_whole(rng);
    replies.push(REPLY_TAG);
    let length = length_of(turn).max(1);
    replies.extend_from_slice(&length.to_le_bytes());
    let body = rng.below(length.min(20) as u64);
    append_random(&mut replies, rng, body);
    replies
}

/// Nothing wrong. The first two go through all codes and lines.
fn whole_replies(turn: u64, rng: &mut Rng) -> Vec<u8> {
    let mut replies = Vec::new();
    match turn {
        0 | 1 => {
            append_whole(&mut replies, 256, rng);
            for (value, reply) in (0..=255).zip(replies.chunks_exact_mut(REPLY_LENGTH)) {
                reply[3] = value;
                reply[4] = if turn == 0 { value } else { 255 - value };
            }
        }
        _ => {
            let count = rng.within(1, 40);
            append_whole(&mut replies, count, rng);
        }
    }
    replies
}

fn odd_cases(turn: u64, rng: &mut Rng) -> Vec<u8> {
    let mut replies = match turn % 6 {
        0 => return Vec::new(),
        1 => return b"81 06 00 00 00 00 00 00 00\n".to_vec(),
        2 => vec![0x01, 0x00, 0x00, 0x02, 0x02, 0x00],
        3 => vec![REPLY_TAG; 12],
        4 => vec![0; 12],
        _ => Vec::new(),
    };
    let count = rng.within(1, 40);
    append_random(&mut replies, rng, count);
    replies
}
