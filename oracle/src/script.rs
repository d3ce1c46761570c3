//! The bench script: records in, replies out.

use crate::controller::{Answer, Controller};
use crate::fifo::Frame;
use crate::here;
use crate::probe::{made, Mistake};
use crate::registers::Register;
use crate::writer::{write_record, LONGEST_RECORD};

pub const HEADER_LENGTH: usize = 3;
pub const REPLY_LENGTH: usize = 9;
pub const REPLY_TAG: u8 = 0x81;
/// How many bytes a reply's body has.
pub const REPLY_BODY: u8 = 6;

/// One record of a script, read.
#[derive(Clone, Copy, PartialEq, Eq, Debug)]
pub enum Step {
    Reset,
    Read(u16),
    Write(u16, u32),
    Idle,
    BitTimes(u16),
    Activity,
    Start,
    OwnEnd(u8),
    Frame(Frame),
    ReceiveError { code: u8, step: u8 },
}

/// Why a record can't be read.
#[derive(Clone, Copy, PartialEq, Eq, Debug)]
pub enum Unreadable {
    ShortHeader,
    UnknownTag(u8),
    WrongLength(u8, u16),
    ShortBody,
}

impl Unreadable {
    pub fn code(self) -> u8 {
        match self {
            Unreadable::ShortHeader | Unreadable::ShortBody => CODE_SHORT,
            Unreadable::UnknownTag(_) => 7,
            Unreadable::WrongLength(..) => 8,
        }
    }

    pub fn in_words(self) -> String {
        match self {
            Unreadable::ShortHeader => "the header is short".into(),
            Unreadable::UnknownTag(tag) => format!("tag {tag:02X} is unknown"),
            Unreadable::WrongLength(tag, length) => format!("length {length} is wrong for tag {tag:02X}"),
            Unreadable::ShortBody => "the body is short".into(),
        }
    }
}

/// The lowest code that ends a replay: a record that is cut short.
pub const CODE_SHORT: u8 = 6;
pub const CODE_NO_REPLY_SPACE: u8 = 9;

/// What one call of `step` gives back, beside the reply it writes.
#[derive(Clone, Copy, PartialEq, Eq, Debug)]
pub struct Progress {
    pub answer: Answer,
    /// Where the next record starts; for codes 6 to 9 the place as it was.
    pub place: usize,
    /// No record was left.
    pub at_end: bool,
}

/// Does the record at `place` of the script and writes its reply to the
/// start of `reply`. An empty rest is the end: no reply, nothing changed.
#[inline(always)]
pub fn step(controller: &mut Controller, script: &[u8], place: usize, reply: &mut [u8]) -> Progress {
    let unchanged = |controller: &Controller, code: u8| Answer { code, lines: controller.lines(), word: 0 };
    if place >= script.len() {
        here!();
        return Progress { answer: unchanged(controller, 0), place: script.len(), at_end: true };
    }
    if reply.len() < REPLY_LENGTH {
        here!();
        return Progress { answer: unchanged(controller, CODE_NO_REPLY_SPACE), place, at_end: false };
    }
    let (answer, next) = match decode(&script[place..]) {
        Ok((step, length)) => (step.apply(controller), place + length),
        Err(unreadable) => (unchanged(controller, unreadable.code()), place),
    };
    write_reply(&mut reply[..REPLY_LENGTH], answer);
    Progress { answer, place: next, at_end: false }
}

pub fn write_reply(reply: &mut [u8], answer: Answer) {
    let lines = if made(Mistake::RefusalLinesZero) && answer.code >= 6 { 0 } else { answer.lines };
    let [w0, w1, w2, w3] = answer.word.to_le_bytes();
    reply.copy_from_slice(&[REPLY_TAG, REPLY_BODY, 0, answer.code, lines, w0, w1, w2, w3]);
}

/// Reads the first record of a rest that isn't empty; gives its length too.
#[inline(always)]
pub fn decode(rest: &[u8]) -> Result<(Step, usize), Unreadable> {
    if made(Mistake::UnknownTagBeforeShortHeader) && !(0x01..=0x0A).contains(&rest[0]) {
        return Err(Unreadable::UnknownTag(rest[0]));
    }
    let record = match *rest {
        [tag, low, _, ref rest @ ..] if made(Mistake::LowLengthByteOnly) => Record { tag, length: low as u16, rest },
        [tag, low, high, ref rest @ ..] => Record { tag, length: u16::from_le_bytes([low, high]), rest },
        _ => {
            here!();
            return Err(Unreadable::ShortHeader);
        }
    };
    let step = match record.tag {
        0x01 => record.body::<0>().map(|_| Step::Reset)?,
        0x02 => record.body::<2>().map(|body| Step::Read(number_16(body)))?,
        0x03 => record.body::<6>().map(|body| Step::Write(number_16(body), written_word(&body[2..])))?,
        0x04 => record.body::<0>().map(|_| Step::Idle)?,
        0x05 => record.body::<2>().map(|body| Step::BitTimes(number_16(body)))?,
        0x06 => record.body::<0>().map(|_| Step::Activity)?,
        0x07 => record.body::<0>().map(|_| Step::Start)?,
        0x08 => record.body::<1>().map(|body| Step::OwnEnd(body[0]))?,
        0x09 => record.body::<13>().map(|body| Step::Frame(received_frame(body)))?,
        0x0A => record.body::<2>().map(receive_error)?,
        0x00 if made(Mistake::TagZeroIsReset) => record.body::<0>().map(|_| Step::Reset)?,
        tag => {
            here!();
            return Err(Unreadable::UnknownTag(tag));
        }
    };
    Ok((step, HEADER_LENGTH + record.length as usize))
}

/// A record whose header is read. Its body is the start of `rest`.
struct Record<'a> {
    tag: u8,
    length: u16,
    rest: &'a [u8],
}

impl<'a> Record<'a> {
    /// The body of a tag whose bodies have `N` bytes.
    #[inline]
    fn body<const N: usize>(&self) -> Result<&'a [u8; N], Unreadable> {
        let length = self.length as usize;
        if made(Mistake::ShortBodyBeforeLength) && self.rest.len() < length {
            return Err(Unreadable::ShortBody);
        }
        let long = length > N && made(Mistake::LongerLengthAccepted);
        if length != N && !long {
            here!();
            return Err(Unreadable::WrongLength(self.tag, self.length));
        }
        match self.rest.get(..length).and_then(|body| body[..N].try_into().ok()) {
            Some(body) => Ok(body),
            None => {
                here!();
                Err(Unreadable::ShortBody)
            }
        }
    }
}

fn number_16(body: &[u8]) -> u16 {
    u16::from_le_bytes([body[0], body[1]])
}

pub fn number_32(body: &[u8]) -> u32 {
    u32::from_le_bytes([body[0], body[1], body[2], body[3]])
}

fn written_word(body: &[u8]) -> u32 {
    if made(Mistake::SwappedWordBytes) {
        return number_32(body).swap_bytes();
    }
    number_32(body)
}

fn received_frame(body: &[u8; 13]) -> Frame {
    Frame {
        identifier: number_32(body),
        length: body[4],
        data: number_32(&body[5..]) as u64 | (number_32(&body[9..]) as u64) << 32,
    }
}

fn receive_error(&[first, second]: &[u8; 2]) -> Step {
    if made(Mistake::ReceiveErrorFieldsSwapped) {
        return Step::ReceiveError { code: second, step: first };
    }
    Step::ReceiveError { code: first, step: second }
}

impl Step {
    #[inline(always)]
    pub fn apply(self, controller: &mut Controller) -> Answer {
        match self {
            Step::Reset => controller.hardware_reset(),
            Step::Read(offset) => controller.read(offset),
            Step::Write(offset, word) => controller.write(offset, word),
            Step::Idle => controller.idle(),
            Step::BitTimes(count) => controller.bit_times(count),
            Step::Activity => controller.activity(),
            Step::Start => controller.start(),
            Step::OwnEnd(result) => controller.own_end(result),
            Step::Frame(frame) => controller.frame(frame),
            Step::ReceiveError { code, step } => controller.receive_error(code, step),
        }
    }

    /// Appends the record of this step to a script.
    pub fn encode(self, script: &mut Vec<u8>) {
        let mut space = [0; LONGEST_RECORD];
        let written = write_record(self.into(), &mut space);
        script.extend_from_slice(&space[..written.bytes]);
    }

    pub fn in_words(self) -> String {
        let register = |offset: u16| match Register::at(offset) {
            Some(register) => register.name(),
            None => format!("offset 0x{offset:03X}, not in the map"),
        };
        match self {
            Step::Reset => "hardware reset".into(),
            Step::Read(offset) => format!("read {}", register(offset)),
            Step::Write(offset, word) => format!("write {} 0x{word:08X}", register(offset)),
            Step::Idle => "idle".into(),
            Step::BitTimes(count) => format!("{count} bit times"),
            Step::Activity => "activity".into(),
            Step::Start => "start".into(),
            Step::OwnEnd(0) => "own end, good".into(),
            Step::OwnEnd(7) => "own end, arbitration lost".into(),
            Step::OwnEnd(8) => "own end, no acknowledgment, alone and error passive".into(),
            Step::OwnEnd(result) => format!("own end, result {result}"),
            Step::Frame(frame) => frame_in_words(frame),
            Step::ReceiveError { code, step } => format!("receive error {code}, step {step}"),
        }
    }
}

fn frame_in_words(frame: Frame) -> String {
    let word = frame.identifier;
    let kind = if frame.is_remote() { "remote" } else { "data" };
    let identifier = match word & 4 {
        0 => format!("standard 0x{:03X}", word >> 21),
        _ => format!("extended 0x{:08X}", word >> 3),
    };
    let data = frame.data.to_le_bytes();
    format!("frame {identifier} {kind} (word 0x{word:08X}), length {}, data {data:02X?}", frame.length)
}
