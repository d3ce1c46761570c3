//! Requests to write a record, as bytes, and their answers.

use crate::rng::Rng;
use crate::script::number_32;
use crate::writer::{write_record, WideStep};

/// Six numbers of four bytes, low byte first: space, tag and four of the body.
pub const REQUEST_LENGTH: usize = 24;
/// The code, the number of bytes written, and the buffer.
pub const ANSWER_LENGTH: usize = 2 + BUFFER_LENGTH;
const BUFFER_LENGTH: usize = 20;
const UNTOUCHED: u8 = 0xEE;

/// Writes the record that is asked for. What can't be asked is told in words.
pub fn answer(request: &[u8]) -> Result<[u8; ANSWER_LENGTH], String> {
    if request.len() != REQUEST_LENGTH {
        return Err(format!("cut short: {} bytes of {REQUEST_LENGTH}", request.len()));
    }
    let number = |place: usize| number_32(&request[4 * place..]);
    let (space, tag) = (number(0), number(1));
    let step = step_of(tag, [number(2), number(3), number(4), number(5)]);
    let step = step.ok_or(format!("tag {tag} is unknown; the tags are 1 to 10"))?;
    if space > BUFFER_LENGTH as u32 {
        return Err(format!("space {space} is more than {BUFFER_LENGTH}"));
    }
    let mut answer = [UNTOUCHED; ANSWER_LENGTH];
    let written = write_record(step, &mut answer[2..][..space as usize]);
    answer[0] = written.code;
    answer[1] = written.bytes as u8;
    Ok(answer)
}

/// Numbers that the tag doesn't need are ignored.
fn step_of(tag: u32, [a, b, c, d]: [u32; 4]) -> Option<WideStep> {
    Some(match tag {
        0x01 => WideStep::Reset,
        0x02 => WideStep::Read(a),
        0x03 => WideStep::Write(a, b),
        0x04 => WideStep::Idle,
        0x05 => WideStep::BitTimes(a),
        0x06 => WideStep::Activity,
        0x07 => WideStep::Start,
        0x08 => WideStep::OwnEnd(a),
        0x09 => WideStep::Frame { identifier: a, length: b, data: [c, d] },
        0x0A => WideStep::ReceiveError { code: a, step: b },
        _ => return None,
    })
}

/// Values around the limits of the fields and of the controller's rules.
const NARROW: [u32; 18] =
    [0, 1, 2, 7, 8, 9, 15, 16, 254, 255, 256, 257, 65_534, 65_535, 65_536, 65_537, 0x0100_0000, u32::MAX];
const WORDS: [u32; 3] = [0, 0x0102_0304, u32::MAX];
const UNNEEDED: u32 = u32::MAX;

/// Every tag with every space and each of its numbers at all values above;
/// then random requests, until there are `count`.
pub fn requests(seed: u64, count: u64) -> Vec<u8> {
    let mut requests = Vec::new();
    for tag in 0x01..=0x0A {
        for numbers in all_numbers(tag) {
            (0..=BUFFER_LENGTH as u32).for_each(|space| append(&mut requests, space, tag, numbers));
        }
    }
    let mut rng = Rng::new(seed ^ 0x6C62_272E_07BB_0142);
    while ((requests.len() / REQUEST_LENGTH) as u64) < count {
        let tag = rng.within(0x01, 0x0A) as u32;
        let space = rng.below(BUFFER_LENGTH as u64 + 1) as u32;
        let numbers = [(); 4].map(|()| random_number(&mut rng));
        append(&mut requests, space, tag, numbers);
    }
    requests
}

fn append(requests: &mut Vec<u8>, space: u32, tag: u32, [a, b, c, d]: [u32; 4]) {
    for number in [space, tag, a, b, c, d] {
        requests.extend_from_slice(&number.to_le_bytes());
    }
}

fn all_numbers(tag: u32) -> Vec<[u32; 4]> {
    let one = |first: u32| [first, UNNEEDED, UNNEEDED, UNNEEDED];
    let two = |first: u32, second: u32| [first, second, UNNEEDED, UNNEEDED];
    let frame = |word: u32, length: u32| [word, length, !word, word.wrapping_add(0x1020_3040)];
    match tag {
        0x02 | 0x05 | 0x08 => NARROW.map(one).to_vec(),
        0x03 => pairs(&NARROW, &WORDS, two),
        0x09 => pairs(&WORDS, &NARROW, frame),
        0x0A => pairs(&NARROW, &NARROW, two),
        _ => vec![one(UNNEEDED)],
    }
}

fn pairs(first: &[u32], second: &[u32], numbers: impl Fn(u32, u32) -> [u32; 4]) -> Vec<[u32; 4]> {
    first.iter().flat_map(|&a| second.iter().map(move |&b| (a, b))).map(|(a, b)| numbers(a, b)).collect()
}

/// Of any size; mostly one that a narrow field may hold.
fn random_number(rng: &mut Rng) -> u32 {
    match rng.below(8) {
        0..=2 => rng.below(256) as u32,
        3 => rng.below(512) as u32,
        4..=5 => rng.below(65_536) as u32,
        6 => rng.below(131_072) as u32,
        _ => rng.word(),
    }
}
