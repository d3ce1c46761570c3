//! The bytes of a script to a lesson's text (docs/LESSONS.md).

use crate::can_frame;
use crate::commands::hex;
use crate::fields::{fields, Field};
use crate::here;
use crate::probe::{made, Mistake};
use crate::registers::{identifier, Register};
use crate::script::{decode, Step};
use crate::text_reader::RESULTS;

const BYTES_TO_A_LINE: usize = 16;

/// A line for each record; from one on that can't be read the bytes as they are.
pub fn write(script: &[u8]) -> Vec<String> {
    let mut lines = Vec::new();
    let mut place = 0;
    while place < script.len() {
        match decode(&script[place..]) {
            Ok((step, length)) => {
                lines.push(record_line(step, &script[place..place + length]));
                place += length;
            }
            Err(_) => {
                here!();
                let end = if made(Mistake::TextRestDropped) { place } else { script.len() };
                lines.extend(script[place..end].chunks(BYTES_TO_A_LINE).map(bytes_line));
                place = script.len();
            }
        }
    }
    lines
}

fn bytes_line(bytes: &[u8]) -> String {
    format!("bytes {}", hex(bytes))
}

/// The step in the words of the grammar, or else its bytes with a comment.
fn record_line(step: Step, record: &[u8]) -> String {
    match step {
        Step::Reset => "reset".into(),
        Step::Read(offset) => format!("read {}", register(offset)),
        Step::Write(offset, word) => format!("write {} {}", register(offset), value(offset, word)),
        Step::Idle => "idle".into(),
        Step::BitTimes(count) => format!("bits {count}"),
        Step::Activity => "activity".into(),
        Step::Start => "start".into(),
        Step::OwnEnd(result) => format!("end {}", result_named(result)),
        Step::Frame(frame) => match can_frame::write(frame) {
            Some(word) => format!("frame {word}"),
            None => format!("{} # {}", bytes_line(record), step.in_words()),
        },
        Step::ReceiveError { code, step } => format!("error {code} {step}"),
    }
}

fn register(offset: u16) -> String {
    match Register::at(offset) {
        Some(register) => register.name(),
        None if made(Mistake::TextOffsetRoundedDown) => format!("0x{:04X}", offset & !3),
        None => format!("0x{offset:04X}"),
    }
}

fn result_named(result: u8) -> String {
    match RESULTS.get(result as usize) {
        Some(_) if result == 8 && made(Mistake::TextAloneAsNumber) => result.to_string(),
        Some(_) if result == 8 && made(Mistake::TextAloneAsAck) => "ack".into(),
        None if made(Mistake::TextAbove8Alone) => "alone".into(),
        Some(name) => (*name).into(),
        None => result.to_string(),
    }
}

/// By fields where they say all of the word, else as a number.
fn value(offset: u16, word: u32) -> String {
    let shown = Register::at(offset).map(|register| shown_fields(register, word)).unwrap_or_default();
    let covered = shown.iter().fold(0, |covered, field| covered | field.mask() & word);
    let all_said = covered == word || made(Mistake::TextUncoveredBitsDropped);
    if shown.is_empty() || !all_said {
        here!();
        return format!("0x{word:08X}");
    }
    here!();
    let words: Vec<String> = shown.iter().map(|field| field_in_words(field, field.of(word))).collect();
    words.join(" ")
}

/// Those that aren't 0; of an identifier STID or EXID, as IDE says.
fn shown_fields(register: Register, word: u32) -> Vec<Field> {
    let extended = word & identifier::IDE != 0 && !made(Mistake::TextStidOfExtended);
    let shown = |field: &Field| match field.name.as_str() {
        "STID" => !extended,
        "EXID" => extended,
        _ => true,
    };
    let all = fields(register).into_iter();
    all.filter(|field| field.of(word) != 0 && shown(field)).collect()
}

fn field_in_words(field: &Field, number: u32) -> String {
    let name = &field.name;
    match name.as_str() {
        _ if field.is_flag() => name.clone(),
        "STID" => format!("STID 0x{number:03X}"),
        "EXID" => format!("EXID 0x{number:08X}"),
        _ if name.starts_with("DATA") => format!("{name} 0x{number:02X}"),
        _ if made(Mistake::TextFieldNumbersInBareHex) => format!("{name} {number:X}"),
        _ => format!("{name} {number}"),
    }
}
