//! Writing scripts: a step to its record.

use crate::here;
use crate::probe::{made, Mistake};
use crate::script::{Step, HEADER_LENGTH};

/// The record of a hardware reset. Every lesson opens with these bytes.
pub const RESET_RECORD: [u8; HEADER_LENGTH] = [0x01, 0x00, 0x00];
/// The longest record is that of a frame.
pub const LONGEST_RECORD: usize = 16;
const CODE_TOO_WIDE: u8 = 5;
const CODE_NO_SPACE: u8 = 9;

/// A step as a caller has it, with numbers wider than the record's fields. A
/// frame's data words are its bytes 0 to 3 and 4 to 7.
#[derive(Clone, Copy, PartialEq, Eq, Debug)]
pub enum WideStep {
    Reset,
    Read(u32),
    Write(u32, u32),
    Idle,
    BitTimes(u32),
    Activity,
    Start,
    OwnEnd(u32),
    Frame { identifier: u32, length: u32, data: [u32; 2] },
    ReceiveError { code: u32, step: u32 },
}

/// What `write_record` gives back.
#[derive(Clone, Copy, PartialEq, Eq, Debug)]
pub struct Written {
    pub code: u8,
    pub bytes: usize,
}

/// Writes the record of a step to the start of `space`. A refusal writes
/// nothing: 9 where the record is longer than the space, then 5 where a number
/// is wider than its field. What only the controller would refuse is written.
pub fn write_record(step: WideStep, space: &mut [u8]) -> Written {
    let (tag, fields) = step.layout();
    let length = HEADER_LENGTH + fields.iter().map(|field| field.width()).sum::<usize>();
    let too_wide = fields.iter().any(|field| !field.fits()) || refused_by_mistake(step);
    if made(Mistake::TooWideBeforeSpace) && too_wide {
        return refuse(CODE_TOO_WIDE, tag, length, space);
    }
    if lacks_space(length, space.len()) {
        here!();
        return refuse(CODE_NO_SPACE, tag, length, space);
    }
    if too_wide {
        here!();
        return refuse(CODE_TOO_WIDE, tag, length, space);
    }
    if step == WideStep::Reset {
        here!();
        space[..length].copy_from_slice(&RESET_RECORD);
    } else {
        here!();
        fill(&mut space[..length], tag, &fields);
    }
    if made(Mistake::SpaceBehindRecordCleared) {
        space[length..].fill(0);
    }
    Written { code: 0, bytes: length }
}

fn lacks_space(length: usize, space: usize) -> bool {
    if made(Mistake::LongestRecordNeedsSpace) {
        return space < LONGEST_RECORD;
    }
    space < length || made(Mistake::SpaceMustBeLonger) && space == length
}

fn refuse(code: u8, tag: u8, length: usize, space: &mut [u8]) -> Written {
    if made(Mistake::RefusedRecordLeavesTag) && !space.is_empty() {
        space[0] = tag;
    }
    let bytes = if made(Mistake::RefusedRecordIsCounted) { length } else { 0 };
    Written { code, bytes }
}

/// Header and body into a place that has the record's length.
fn fill(record: &mut [u8], tag: u8, fields: &[Field]) {
    let length = (record.len() - HEADER_LENGTH) as u8;
    let [low, high] = if made(Mistake::LengthWrittenHighFirst) { [0, length] } else { [length, 0] };
    record[..HEADER_LENGTH].copy_from_slice(&[tag, low, high]);
    let mut place = HEADER_LENGTH;
    for field in fields {
        let end = place + field.width();
        field.fill(&mut record[place..end]);
        place = end;
    }
}

/// A number of a record's body.
#[derive(Clone, Copy)]
struct Field {
    kind: FieldKind,
    number: u32,
}

#[derive(Clone, Copy)]
enum FieldKind {
    Offset,
    BitTimes,
    Result,
    Length,
    ErrorCode,
    ErrorStep,
    Word,
}

impl Field {
    /// How many bytes it has in the record.
    fn width(&self) -> usize {
        match self.kind {
            FieldKind::Offset | FieldKind::BitTimes => 2,
            FieldKind::Result | FieldKind::Length | FieldKind::ErrorCode | FieldKind::ErrorStep => 1,
            FieldKind::Word => 4,
        }
    }

    /// The greatest number that it holds.
    fn limit(&self) -> u32 {
        u32::MAX >> (32 - 8 * self.width())
    }

    fn fits(&self) -> bool {
        match self.kind.limit_mistakes() {
            Some([low, _, _]) if made(low) => self.number < self.limit(),
            Some([_, high, _]) if made(high) => self.number <= self.limit() + 1,
            Some([_, _, missing]) if made(missing) => true,
            _ => self.number <= self.limit(),
        }
    }

    fn fill(&self, bytes: &mut [u8]) {
        bytes.copy_from_slice(&self.number.to_le_bytes()[..self.width()]);
        let reversed = match self.width() {
            2 => made(Mistake::NumbersWrittenHighFirst),
            4 => made(Mistake::WordsWrittenHighFirst),
            _ => false,
        };
        if reversed {
            bytes.reverse();
        }
    }
}

impl FieldKind {
    fn with(self, number: u32) -> Field {
        Field { kind: self, number }
    }

    /// A limit one too low, one too high, and none at all.
    fn limit_mistakes(self) -> Option<[Mistake; 3]> {
        use Mistake::*;
        match self {
            FieldKind::Offset => Some([OffsetLimitLow, OffsetLimitHigh, OffsetNotLimited]),
            FieldKind::BitTimes => Some([BitTimesLimitLow, BitTimesLimitHigh, BitTimesNotLimited]),
            FieldKind::Result => Some([ResultLimitLow, ResultLimitHigh, ResultNotLimited]),
            FieldKind::Length => Some([LengthLimitLow, LengthLimitHigh, LengthNotLimited]),
            FieldKind::ErrorCode => Some([ErrorCodeLimitLow, ErrorCodeLimitHigh, ErrorCodeNotLimited]),
            FieldKind::ErrorStep => Some([ErrorStepLimitLow, ErrorStepLimitHigh, ErrorStepNotLimited]),
            FieldKind::Word => None,
        }
    }
}

impl WideStep {
    /// The tag, and the body's numbers in their order.
    fn layout(self) -> (u8, Vec<Field>) {
        use FieldKind::*;
        match self {
            WideStep::Reset => (RESET_RECORD[0], vec![]),
            WideStep::Read(offset) => (0x02, vec![Offset.with(offset)]),
            WideStep::Write(offset, word) => (0x03, vec![Offset.with(offset), Word.with(word)]),
            WideStep::Idle => (0x04, vec![]),
            WideStep::BitTimes(count) => (0x05, vec![BitTimes.with(count)]),
            WideStep::Activity => (0x06, vec![]),
            WideStep::Start => (0x07, vec![]),
            WideStep::OwnEnd(result) => (0x08, vec![Result.with(result)]),
            WideStep::Frame { identifier, length, data } => (0x09, frame_layout(identifier, length, data)),
            WideStep::ReceiveError { code, step } => {
                let [code, step] = [ErrorCode.with(code), ErrorStep.with(step)];
                let exchanged = made(Mistake::WrittenCodeAndStepExchanged);
                (0x0A, if exchanged { vec![step, code] } else { vec![code, step] })
            }
        }
    }
}

fn frame_layout(identifier: u32, length: u32, data: [u32; 2]) -> Vec<Field> {
    let [low, high] = data.map(|word| FieldKind::Word.with(word));
    let [first, second] = if made(Mistake::DataWordsExchanged) { [high, low] } else { [low, high] };
    vec![FieldKind::Word.with(identifier), FieldKind::Length.with(length), first, second]
}

/// What the controller would refuse, though the record holds it.
fn refused_by_mistake(step: WideStep) -> bool {
    match step {
        WideStep::Read(offset) | WideStep::Write(offset, _) => {
            made(Mistake::UnalignedOffsetNotWritten) && offset % 4 != 0
        }
        WideStep::BitTimes(count) => made(Mistake::ZeroBitTimesNotWritten) && count == 0,
        WideStep::OwnEnd(result) => {
            made(Mistake::ResultAbove7NotWritten) && result > 7 || made(Mistake::ResultAbove8NotWritten) && result > 8
        }
        WideStep::Frame { identifier, length, .. } => {
            made(Mistake::IdentifierBit0NotWritten) && identifier % 2 != 0
                || made(Mistake::LengthAbove15NotWritten) && length > 15
        }
        WideStep::ReceiveError { code, step } => {
            made(Mistake::ErrorCodeOutOfRangeNotWritten) && !(1..=6).contains(&code)
                || made(Mistake::ErrorStepOutOfRangeNotWritten) && step != 1 && step != 8
        }
        _ => false,
    }
}

impl From<Step> for WideStep {
    fn from(step: Step) -> WideStep {
        match step {
            Step::Reset => WideStep::Reset,
            Step::Read(offset) => WideStep::Read(offset.into()),
            Step::Write(offset, word) => WideStep::Write(offset.into(), word),
            Step::Idle => WideStep::Idle,
            Step::BitTimes(count) => WideStep::BitTimes(count.into()),
            Step::Activity => WideStep::Activity,
            Step::Start => WideStep::Start,
            Step::OwnEnd(result) => WideStep::OwnEnd(result.into()),
            Step::Frame(frame) => WideStep::Frame {
                identifier: frame.identifier,
                length: frame.length.into(),
                data: [frame.data as u32, (frame.data >> 32) as u32],
            },
            Step::ReceiveError { code, step } => WideStep::ReceiveError { code: code.into(), step: step.into() },
        }
    }
}
