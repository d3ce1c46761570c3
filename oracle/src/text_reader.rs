//! A lesson's text to the bytes of its script (docs/LESSONS.md).

use crate::can_frame;
use crate::fields::{field_named, fields, offset_named, Field};
use crate::here;
use crate::probe::{made, Mistake};
use crate::registers::{btr, fmr, mcr, Register};
use crate::replies::NAMES_OF_LINES;
use crate::script::Step;
use crate::words::{hex_digits, number, pairs, LineFault, Word, Words};

/// The results of an own end in the order of their numbers.
pub const RESULTS: [&str; 9] = ["good", "stuff", "form", "ack", "bit1", "bit0", "crc", "lost", "alone"];

const LINES_ALLOWED: &str = "TX, FIFO0, FIFO1 or SCE, each once";
const VERBS: &str = "reset, read, write, idle, bits, activity, start, end, frame, error, bytes, expect, repeat or done";

/// What a step must answer; what isn't said may be anything.
#[derive(Clone, Copy, PartialEq, Eq, Debug)]
pub struct Expectation {
    /// The code and the word.
    pub answer: Option<(u8, u32)>,
    pub lines: Option<u8>,
}

/// What one line says.
#[derive(Clone, PartialEq, Eq, Debug)]
pub enum Line {
    Nothing,
    Step(Step),
    /// Bytes of a script as they are.
    Bytes(Vec<u8>),
    Expect(Expectation),
    Repeat(u32),
    Done,
}

pub fn read_line(line: &[u8]) -> Result<Line, LineFault> {
    let mut words = Words::of(line)?;
    let verb = match words.next() {
        Some(verb) => verb,
        None => return Ok(Line::Nothing),
    };
    let read = match verb.bytes {
        b"bytes" => Line::Bytes(read_bytes(&mut words)?),
        b"expect" => Line::Expect(read_expectation(&mut words)?),
        b"repeat" => Line::Repeat(needed_number(&mut words, "a number of 0 to 4294967295", u32::MAX)?),
        b"done" => Line::Done,
        _ => Line::Step(read_step(verb, &mut words)?),
    };
    words.end("the end of the line")?;
    Ok(read)
}

fn read_step(verb: Word, words: &mut Words) -> Result<Step, LineFault> {
    let byte = "a number of 0 to 255";
    Ok(match verb.bytes {
        b"reset" => Step::Reset,
        b"read" => Step::Read(read_register(words)?),
        b"write" => {
            let offset = read_register(words)?;
            Step::Write(offset, read_value(offset, words)?)
        }
        b"idle" => Step::Idle,
        b"bits" => Step::BitTimes(needed_number(words, "a number of 0 to 65535", 65_535)? as u16),
        b"activity" => Step::Activity,
        b"start" => Step::Start,
        b"end" => Step::OwnEnd(read_result(words)?),
        b"frame" => Step::Frame(can_frame::read(words.needed("a frame")?)?),
        b"error" => {
            let code = needed_number(words, byte, 255)? as u8;
            let step = needed_number(words, byte, 255)? as u8;
            let exchanged = made(Mistake::CodeAndStepOfLineExchanged);
            if exchanged {
                Step::ReceiveError { code: step, step: code }
            } else {
                Step::ReceiveError { code, step }
            }
        }
        _ => {
            here!();
            return Err(verb.refuse(VERBS));
        }
    })
}

fn needed_number(words: &mut Words, allowed: &str, limit: u32) -> Result<u32, LineFault> {
    let word = words.needed(allowed)?;
    number_within(word, allowed, 0, limit)
}

fn number_within(word: Word, allowed: &str, least: u32, limit: u32) -> Result<u32, LineFault> {
    let unlimited = limit == 65_535 && made(Mistake::NumbersOf16BitsCut);
    match number(word.bytes) {
        Some(number) if unlimited => Ok(number & limit),
        Some(number) if number >= least && number <= limit => Ok(number),
        _ => {
            here!();
            Err(word.refuse(allowed))
        }
    }
}

/// The offset of a register by name or as it is.
fn read_register(words: &mut Words) -> Result<u16, LineFault> {
    let allowed = "a register's name, or an offset of 0 to 65535";
    let word = words.needed(allowed)?;
    if let Some(offset) = offset_named(word.bytes) {
        here!();
        return Ok(offset);
    }
    let offset = number_within(word, allowed, 0, 65_535)? as u16;
    if made(Mistake::OffsetOfNoRegisterRefused) && Register::at(offset).is_none() {
        return Err(word.refuse(allowed));
    }
    Ok(offset)
}

/// A number, or fields, or a number with fields behind it.
fn read_value(offset: u16, words: &mut Words) -> Result<u32, LineFault> {
    let register = Register::at(offset);
    match words.peek() {
        None => {
            here!();
            words.needed(&format!("a number{}", allowed_fields(register))).map(|_| 0)
        }
        Some(word) if word.is_number() => {
            words.next();
            let number = number_within(word, "a number up to 4294967295", 0, u32::MAX)?;
            read_fields(register, Some(number), words)
        }
        Some(_) => read_fields(register, None, words),
    }
}

/// Fields up to the line's end. Behind a number each must have its value there.
fn read_fields(register: Option<Register>, whole: Option<u32>, words: &mut Words) -> Result<u32, LineFault> {
    let (mut word, mut given) = (whole.unwrap_or_else(|| unnamed_bits(register)), 0);
    while let Some(name) = words.next() {
        let first = whole.is_none() && given == 0;
        let field = register.and_then(|register| field_named(register, name.bytes));
        let field = field.ok_or_else(|| {
            here!();
            let else_allowed = if first { "a number" } else { "the end of the line" };
            name.refuse(&format!("{else_allowed}{}", allowed_fields(register)))
        })?;
        if given & field.mask() != 0 && !overlap_taken(given, &field) {
            here!();
            return Err(name.refuse("each bit once"));
        }
        given |= field.mask();
        let number = read_field(&field, words)?;
        let kept = made(Mistake::FieldsBehindNumberNotCompared) || made(Mistake::FieldsBehindNumberAreSet);
        match whole {
            Some(whole) if field.of(whole) != number && !kept => {
                here!();
                return Err(name.refuse(&format!("{} {}, as in the number before it", field.name, field.of(whole))));
            }
            Some(_) if !made(Mistake::FieldsBehindNumberAreSet) => {}
            _ => word = set_field(&field, word, number),
        }
    }
    Ok(word)
}

fn overlap_taken(given: u32, field: &Field) -> bool {
    let same = given & field.mask() == field.mask();
    let part = !same || field.name == "STID";
    made(Mistake::OverlappingFieldsTaken) && part || made(Mistake::FieldGivenTwiceTaken) && !part
}

fn allowed_fields(register: Option<Register>) -> String {
    let names: Vec<String> = register.map(fields).unwrap_or_default().into_iter().map(|field| field.name).collect();
    if names.is_empty() {
        return String::new();
    }
    format!(", or a field: {}", names.join(" "))
}

/// What no field names is 0.
fn unnamed_bits(register: Option<Register>) -> u32 {
    match register {
        Some(Register::Mcr) if made(Mistake::UnnamedBitsFromReset) => mcr::AT_RESET,
        Some(Register::Btr) if made(Mistake::UnnamedBitsFromReset) => btr::AT_RESET,
        Some(Register::Fmr) if made(Mistake::UnnamedBitsFromReset) => fmr::FIXED,
        _ => 0,
    }
}

fn set_field(field: &Field, word: u32, number: u32) -> u32 {
    let mut place = field.place;
    if made(Mistake::StidBelowItsPlace) && field.name == "STID" {
        place = 18;
    }
    let extended = made(Mistake::ExidSetsIde) && field.name == "EXID";
    word & !field.mask() | number << place | if extended { 4 } else { 0 }
}

/// The number behind a field's name; of one bit it is 1 where none follows.
fn read_field(field: &Field, words: &mut Words) -> Result<u32, LineFault> {
    let allowed = format!("a number of 0 to {}", field.limit());
    let word = match words.peek().filter(Word::is_number) {
        Some(word) => word,
        None if field.is_flag() || made(Mistake::MissingFieldNumberIs1) => return Ok(1),
        None => {
            here!();
            let word = words.needed(&allowed)?;
            return Err(word.refuse(&allowed));
        }
    };
    words.next();
    if made(Mistake::FieldNumberCut) {
        return number_within(word, &allowed, 0, u32::MAX).map(|number| number & field.limit());
    }
    let number = number_within(word, &allowed, 0, field.limit())?;
    Ok(match field.name.as_str() {
        _ if made(Mistake::FlagNumberIgnored) && field.is_flag() => 1,
        "BRP" | "TS1" | "TS2" | "SJW" if made(Mistake::TimingOneLess) => number.saturating_sub(1),
        _ => number,
    })
}

fn read_result(words: &mut Words) -> Result<u8, LineFault> {
    let allowed = "good, lost, stuff, form, ack, bit1, bit0, crc, alone, or a number of 0 to 255";
    let word = words.needed(allowed)?;
    match names_of_results().iter().position(|name| word.is(name)) {
        Some(_) if word.is("alone") && made(Mistake::AloneIsAck) => Ok(3),
        Some(result) => {
            here!();
            Ok(result as u8)
        }
        None => {
            let limit = match () {
                () if made(Mistake::ResultsUpTo7) => 7,
                () if made(Mistake::ResultsUpTo8) => 8,
                () => 255,
            };
            number_within(word, allowed, 0, limit).map(|result| result as u8)
        }
    }
}

fn names_of_results() -> Vec<&'static str> {
    let listed = |text: &'static str| text.split(' ').collect();
    match () {
        () if made(Mistake::BitResultsExchanged) => listed("good stuff form ack bit0 bit1 crc lost alone"),
        () if made(Mistake::LostIsResult1) => listed("good lost stuff form ack bit1 bit0 crc alone"),
        () if made(Mistake::AloneUnknown) => RESULTS[..8].to_vec(),
        () if made(Mistake::AloneIsResult9) => listed("good stuff form ack bit1 bit0 crc lost . alone"),
        () if made(Mistake::AloneBeforeLost) => listed("good stuff form ack bit1 bit0 crc alone lost"),
        () => RESULTS.to_vec(),
    }
}

/// At least one word; each is pairs of hex digits.
fn read_bytes(words: &mut Words) -> Result<Vec<u8>, LineFault> {
    let allowed = "pairs of hex digits";
    let mut bytes = Vec::new();
    if words.peek().is_none() && !made(Mistake::NoBytesTaken) {
        here!();
        words.needed(allowed)?;
    }
    while let Some(word) = words.next() {
        let odd = word.bytes.len() % 2 != 0 && !made(Mistake::SingleDigitIsAByte);
        let longer = word.bytes.len() > 2 && made(Mistake::OnePairToAWord);
        if hex_digits(word.bytes) != word.bytes.len() || odd || longer {
            here!();
            return Err(word.refuse(allowed));
        }
        bytes.extend(pairs(word.bytes));
    }
    Ok(bytes)
}

fn read_expectation(words: &mut Words) -> Result<Expectation, LineFault> {
    let first = words.needed("a word, refused or lines")?;
    let answer = match first {
        word if word.is("lines") => None,
        word if word.is("refused") => {
            let allowed = "a code of 1 to 255";
            let least = if made(Mistake::Refused0Taken) { 0 } else { 1 };
            let code = number_within(words.needed(allowed)?, allowed, least, 255)?;
            Some((code as u8, 0))
        }
        word => Some((0, number_within(word, "a word, refused or lines", 0, u32::MAX)?)),
    };
    let lines = match answer {
        None => Some(read_names_of_lines(words)?),
        Some(_) => match words.next() {
            None => None,
            Some(word) if word.is("lines") => Some(read_names_of_lines(words)?),
            Some(word) => {
                here!();
                return Err(word.refuse("lines, or the end of the line"));
            }
        },
    };
    Ok(Expectation { answer, lines })
}

/// Names of lines, or `none` alone.
fn read_names_of_lines(words: &mut Words) -> Result<u8, LineFault> {
    let allowed = format!("none, or {LINES_ALLOWED}");
    if made(Mistake::NoNameOfLinesTaken) && words.peek().is_none() {
        return Ok(0);
    }
    let first = words.needed(&allowed)?;
    if first.is("none") {
        here!();
        return Ok(0);
    }
    let mut lines = line_named(first, &allowed)?;
    while let Some(word) = words.next() {
        if made(Mistake::NoneBehindLinesTaken) && word.is("none") {
            continue;
        }
        let line = line_named(word, LINES_ALLOWED)?;
        if lines & line != 0 && !made(Mistake::LineGivenTwiceTaken) {
            here!();
            return Err(word.refuse(LINES_ALLOWED));
        }
        lines |= line;
    }
    Ok(lines)
}

fn line_named(word: Word, allowed: &str) -> Result<u8, LineFault> {
    match NAMES_OF_LINES.iter().position(|name| word.is(name)) {
        Some(bit) => {
            here!();
            Ok(1 << bit)
        }
        None => {
            here!();
            Err(word.refuse(allowed))
        }
    }
}
