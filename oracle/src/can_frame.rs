//! A frame as can-utils writes it: one word.

use crate::fifo::Frame;
use crate::here;
use crate::probe::{made, Mistake};
use crate::registers::identifier;
use crate::words::{hex_digits, pairs, LineFault, Word};

const STANDARD_DIGITS: usize = 3;
const EXTENDED_DIGITS: usize = 8;
const STANDARD_LIMIT: u32 = 0x7FF;
const EXTENDED_LIMIT: u32 = 0x1FFF_FFFF;
/// Eight bytes.
const MOST_DATA_DIGITS: usize = 16;

const IDENTIFIER_ALLOWED: &str = "an identifier of three hex digits up to 7FF, or of eight up to 1FFFFFFF";
const MARK_ALLOWED: &str = "# behind the identifier";
const DATA_ALLOWED: &str = "up to eight pairs of hex digits, or R and a length of 0 to 8";
const CODE_ALLOWED: &str = "a length code of 9 to F";
const END_ALLOWED: &str = "the end of the frame";

/// Reads a frame. A fault is named at the first byte where the frame goes wrong.
pub fn read(word: Word) -> Result<Frame, LineFault> {
    let digits = hex_digits(word.bytes);
    let identifier = read_identifier(word, digits)?;
    if word.bytes.get(digits) != Some(&b'#') {
        here!();
        return Err(word.refuse_at(digits, MARK_ALLOWED));
    }
    let place = digits + 1;
    match word.bytes.get(place) {
        Some(b'#') if !made(Mistake::FdFrameTaken) => {
            here!();
            Err(word.refuse_at(place, &format!("{DATA_ALLOWED}; ## (CAN FD) is not")))
        }
        Some(b'#') => read_data(word, place + 2, identifier),
        Some(b'R') => read_remote(word, place + 1, identifier | identifier::RTR),
        Some(b'r') if made(Mistake::SmallRTaken) => read_remote(word, place + 1, identifier | identifier::RTR),
        _ => read_data(word, place, identifier),
    }
}

/// The identifier word, as it is in a FIFO.
fn read_identifier(word: Word, digits: usize) -> Result<u32, LineFault> {
    let refused = || {
        here!();
        Err(word.refuse(IDENTIFIER_ALLOWED))
    };
    let number = pairs_number(&word.bytes[..digits]);
    let short = digits == STANDARD_DIGITS;
    if !short && digits != EXTENDED_DIGITS && !(made(Mistake::IdentifierOfAnyLength) && (1..8).contains(&digits)) {
        return refused();
    }
    let standard = short || made(Mistake::SmallIdentifierIsStandard) && number <= STANDARD_LIMIT;
    let limit = match standard {
        true if made(Mistake::StandardIdentifierNotLimited) => u32::MAX,
        true => STANDARD_LIMIT,
        false if made(Mistake::ExtendedIdentifierNotLimited) => u32::MAX,
        false => EXTENDED_LIMIT,
    };
    if number > limit {
        return refused();
    }
    Ok(if standard { number << 21 } else { number << identifier::LOW_PLACE | identifier::IDE })
}

/// Up to eight hex digits as a number.
fn pairs_number(digits: &[u8]) -> u32 {
    let digit = |byte: u8| (byte as char).to_digit(16).unwrap_or(0);
    digits.iter().fold(0, |number, &byte| number << 4 | digit(byte))
}

/// What stands behind R: nothing, or the length, and behind 8 a length code.
fn read_remote(word: Word, place: usize, identifier: u32) -> Result<Frame, LineFault> {
    let most = if made(Mistake::RemoteLengthOfAnyDigit) { b'9' } else { b'8' };
    let frame = |length: u8| Frame { identifier, length, data: 0 };
    match word.bytes.get(place) {
        None => {
            here!();
            Ok(frame(if made(Mistake::RemoteWithoutLengthIs8) { 8 } else { 0 }))
        }
        Some(&digit) if (b'0'..=most).contains(&digit) => {
            here!();
            let length = digit - b'0';
            let code = read_code(word, place + 1, length == 8)?;
            Ok(frame(if made(Mistake::RemoteLengthIgnored) { 0 } else { code.unwrap_or(length) }))
        }
        Some(_) => {
            here!();
            Err(word.refuse_at(place, "the end of the frame, or a length of 0 to 8"))
        }
    }
}

/// Pairs of hex digits, and behind eight a length code.
fn read_data(word: Word, place: usize, identifier: u32) -> Result<Frame, LineFault> {
    let rest = word.bytes.get(place..).unwrap_or_default();
    let digits = hex_digits(rest);
    let odd = digits % 2 != 0 && !made(Mistake::OddDataTaken);
    let long = digits > MOST_DATA_DIGITS && !made(Mistake::LongDataCut);
    if odd || long {
        here!();
        return Err(word.refuse_at(place, DATA_ALLOWED));
    }
    if digits < rest.len() && digits < MOST_DATA_DIGITS && rest[digits] != b'_' {
        here!();
        return Err(word.refuse_at(place + digits, DATA_ALLOWED));
    }
    let mut data = pairs(&rest[..digits]);
    data.truncate(8);
    let whole = digits >= MOST_DATA_DIGITS || made(Mistake::CodeBehindAnyData);
    let code = read_code(word, place + digits, whole)?;
    let length = code.unwrap_or(data.len() as u8);
    if made(Mistake::DataHighByteFirst) {
        data.reverse();
    }
    let number = data.iter().rev().fold(0, |number, &byte| number << 8 | byte as u64);
    Ok(Frame { identifier, length, data: number })
}

/// `_` and a code of 9 to F, where one is allowed; then the word ends.
fn read_code(word: Word, place: usize, allowed: bool) -> Result<Option<u8>, LineFault> {
    match word.bytes.get(place) {
        None => return Ok(None),
        Some(b'_') if allowed => {}
        Some(_) => {
            here!();
            return Err(word
                .refuse_at(place, if allowed { "the end of the frame, or _ and a length code" } else { END_ALLOWED }));
        }
    }
    let least = if made(Mistake::Code8Taken) { 8 } else { 9 };
    let code = word.bytes.get(place + 1).and_then(|&byte| (byte as char).to_digit(16)).filter(|&code| code >= least);
    match (code, word.bytes.get(place + 2)) {
        (None, _) => {
            here!();
            Err(word.refuse_at(place + 1, CODE_ALLOWED))
        }
        (Some(_), Some(_)) => {
            here!();
            Err(word.refuse_at(place + 2, END_ALLOWED))
        }
        (Some(code), None) => {
            here!();
            Ok(Some(code as u8))
        }
    }
}

/// The word of a frame; none where no word gives the frame back as it is.
pub fn write(frame: Frame) -> Option<String> {
    let word = frame.identifier;
    let stray = word & identifier::IDE == 0 && word & identifier::LOW != 0;
    let refused = stray && !made(Mistake::TextStrayBitsDropped)
        || word & identifier::TXRQ != 0 && !made(Mistake::TextBit0Dropped)
        || frame.length > 15 && !made(Mistake::TextLengthCut);
    if refused {
        here!();
        return None;
    }
    let name = match word & identifier::IDE {
        0 => format!("{:03X}", word >> 21),
        _ => format!("{:08X}", word >> identifier::LOW_PLACE),
    };
    let content = if frame.is_remote() { remote_content(frame) } else { data_content(frame) };
    Some(format!("{name}#{}", content?))
}

fn remote_content(frame: Frame) -> Option<String> {
    if frame.data != 0 && !made(Mistake::TextRemoteDataDropped) {
        here!();
        return None;
    }
    here!();
    Some(match frame.length & 15 {
        0 => "R".into(),
        length @ 1..=8 => format!("R{length}"),
        code => format!("R8{}", code_content(code)),
    })
}

fn data_content(frame: Frame) -> Option<String> {
    let length = frame.length & 15;
    let bytes = frame.data.to_le_bytes();
    let (inside, past) = bytes.split_at(length.min(8) as usize);
    if past.iter().any(|&byte| byte != 0) && !made(Mistake::TextDataPastLengthDropped) {
        here!();
        return None;
    }
    here!();
    let data: String = inside.iter().map(|byte| format!("{byte:02X}")).collect();
    Some(if length > 8 { data + &code_content(length) } else { data })
}

fn code_content(code: u8) -> String {
    if made(Mistake::TextLengthCodeDropped) {
        return String::new();
    }
    format!("_{code:X}")
}
