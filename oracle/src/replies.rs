//! Reading replies back, and listing them.

use crate::controller::Answer;
use crate::here;
use crate::probe::{made, Mistake};
use crate::script::{Unreadable, HEADER_LENGTH, REPLY_BODY, REPLY_TAG};

pub const NAMES_OF_LINES: [&str; 4] = ["TX", "FIFO0", "FIFO1", "SCE"];

/// Reads the reply at `place`; gives the place behind it too. What stands
/// there is the next reply.
pub fn read_reply(replies: &[u8], place: usize) -> Result<(Answer, usize), Unreadable> {
    let rest = replies.get(place..).unwrap_or_default();
    if made(Mistake::NoReplyIsTheEnd) && rest.is_empty() {
        return Ok((Answer::default(), place));
    }
    let body = body_of(rest)?;
    here!();
    read_body(body).map(|answer| (answer, place + HEADER_LENGTH + body.len()))
}

/// The body of the first reply of a rest; the tests have the order of a record's.
fn body_of(rest: &[u8]) -> Result<&[u8], Unreadable> {
    match *rest {
        [tag, ..] if made(Mistake::ReplyTagBeforeShortHeader) => check_tag(tag)?,
        _ => {}
    }
    let (tag, length, behind) = match *rest {
        [tag, low, _, ref behind @ ..] if made(Mistake::ReplyLowLengthByteOnly) => (tag, low as u16, behind),
        [tag, low, high, ref behind @ ..] => (tag, u16::from_le_bytes([low, high]), behind),
        _ => {
            here!();
            return Err(Unreadable::ShortHeader);
        }
    };
    if made(Mistake::ReplyLengthBeforeTag) {
        check_length(tag, length, behind)?;
    }
    check_tag(tag)?;
    check_length(tag, length, behind)?;
    match behind.get(..length as usize) {
        Some(body) => Ok(body),
        None => {
            here!();
            Err(Unreadable::ShortBody)
        }
    }
}

fn check_tag(tag: u8) -> Result<(), Unreadable> {
    if tag != REPLY_TAG && !made(Mistake::ReplyTagNotChecked) {
        here!();
        return Err(Unreadable::UnknownTag(tag));
    }
    Ok(())
}

fn check_length(tag: u8, length: u16, behind: &[u8]) -> Result<(), Unreadable> {
    if made(Mistake::ReplyShortBodyBeforeLength) && behind.len() < length as usize {
        return Err(Unreadable::ShortBody);
    }
    let seven_taken = made(Mistake::ReplyOfLength7Taken) && length == 7;
    let rest_refused = made(Mistake::BytesBehindReplyRefused) && behind.len() > REPLY_BODY as usize;
    if length != REPLY_BODY as u16 && !seven_taken || rest_refused {
        here!();
        return Err(Unreadable::WrongLength(tag, length));
    }
    Ok(())
}

fn read_body(body: &[u8]) -> Result<Answer, Unreadable> {
    let exchanged = made(Mistake::ReplyCodeAndLinesExchanged);
    let [code, lines] = if exchanged { [body[1], body[0]] } else { [body[0], body[1]] };
    if made(Mistake::ReplyCodeAbove9Refused) && code > 9 || made(Mistake::ReplyLinesAbove15Refused) && lines > 15 {
        return Err(Unreadable::UnknownTag(code));
    }
    let word = [body[2], body[3], body[4], body[5]];
    let high_first = made(Mistake::ReplyWordHighFirst);
    let word = if high_first { u32::from_be_bytes(word) } else { u32::from_le_bytes(word) };
    Ok(Answer { code, lines, word })
}

/// The line above a list of replies.
pub fn heading() -> String {
    format!("{:>10}  {:>4}  {:<18}  {}\n", "reply", "code", "lines", "word")
}

/// `number` is from 1.
pub fn line(number: u64, answer: Answer) -> String {
    let lines = lines_in_words(answer.lines);
    format!("{number:>10}  {:>4}  {lines:<18}  0x{:08X}\n", answer.code, answer.word)
}

/// The names of the lines that are set; a byte that no controller gives as it is.
pub fn lines_in_words(lines: u8) -> String {
    if lines > 15 {
        return format!("0x{lines:02X}");
    }
    if lines == 0 {
        return "-".into();
    }
    let set = NAMES_OF_LINES.iter().enumerate().filter(|(bit, _)| lines >> bit & 1 == 1);
    let names: Vec<&str> = set.map(|(_, name)| *name).collect();
    names.join(" ")
}
