//! The calls of a C program (Q-2 of document 02) on a block that it lends.

use crate::block::{load, save, BLOCK_LENGTH};
use crate::controller::{Answer, Controller, Refusal};
use crate::fifo::Frame;
use crate::here;
use crate::probe::{made, Mistake};
use crate::script::Step;
use crate::writer::WideStep;

/// The code of a block that is refused.
pub const CODE_BLOCK: u8 = 10;
/// The STM32F334.
pub const BOARD: u32 = 0;

/// How many bytes a board's block has; 0 for a board that doesn't exist.
pub fn block_size(board: u32) -> usize {
    if board == BOARD || made(Mistake::BlockSizeOfAnyBoard) {
        return BLOCK_LENGTH;
    }
    0
}

/// A call, with numbers of 32 bits. The answer has the code in bits 7 to 0, the
/// lines in 15 to 8 and the word in 63 to 32.
pub fn call(board: u32, block: &mut [u8], step: WideStep) -> u64 {
    if !exists(board) || !has_length(block.len(), step) {
        here!();
        return refuse_length(board, block, step);
    }
    if step == WideStep::Reset {
        return reset(block);
    }
    let mut controller = match load(block) {
        Ok(controller) => controller,
        Err(_) => {
            here!();
            return refuse_block(block, step);
        }
    };
    let answer = match narrow(step) {
        Ok(step) => step.apply(&mut controller),
        Err(refusal) => {
            here!();
            Answer { code: refusal as u8, lines: controller.lines(), word: 0 }
        }
    };
    if answer.code == 0 {
        here!();
        block[..BLOCK_LENGTH].copy_from_slice(&save(&controller));
    } else {
        here!();
        change_wrongly(controller, block, step);
    }
    packed(answer)
}

fn exists(board: u32) -> bool {
    match () {
        () if made(Mistake::OtherBoardTaken) => true,
        () if made(Mistake::BoardCutTo8Bits) => board & 0xFF == BOARD,
        () => board == BOARD,
    }
}

fn has_length(length: usize, step: WideStep) -> bool {
    let reset = step == WideStep::Reset;
    let longer = made(Mistake::LongerBlockTaken) && !reset || made(Mistake::ResetOfLongerBlock) && reset;
    length == BLOCK_LENGTH || longer && length > BLOCK_LENGTH
}

/// Whatever the block holds.
fn reset(block: &mut [u8]) -> u64 {
    if made(Mistake::ResetNeedsGoodBlock) && load(block).is_err() {
        return packed_refusal();
    }
    here!();
    let mut controller = Controller::at_reset();
    let answer = controller.hardware_reset();
    block[..BLOCK_LENGTH].copy_from_slice(&save(&controller));
    packed(answer)
}

/// No block has this length on this board.
fn refuse_length(board: u32, block: &mut [u8], step: WideStep) -> u64 {
    let reset = step == WideStep::Reset;
    let written = made(Mistake::OtherBoardReset) && board != BOARD && block.len() == BLOCK_LENGTH
        || made(Mistake::ResetOfShorterBlock) && block.len() < BLOCK_LENGTH;
    if reset && written {
        let length = block.len();
        block.copy_from_slice(&save(&Controller::at_reset())[..length]);
    }
    if made(Mistake::LengthAfterRange) && code_at_reset(step) == Refusal::OutOfRange as u8 {
        return Refusal::OutOfRange as u64;
    }
    packed_refusal()
}

/// No state within the ranges is saved as these bytes.
fn refuse_block(block: &mut [u8], step: WideStep) -> u64 {
    if cfg!(wrong) {
        let code = code_at_reset(step);
        if made(Mistake::RangeBeforeBlock) && code == Refusal::OutOfRange as u8
            || made(Mistake::MapBeforeBlock) && code == Refusal::NotInMap as u8
        {
            return code as u64;
        }
        if made(Mistake::RefusedBlockReset) && block.len() == BLOCK_LENGTH {
            block.copy_from_slice(&save(&Controller::at_reset()));
        }
        if made(Mistake::RefusedBlockTagged) {
            block[0] = save(&Controller::at_reset())[0];
        }
        if made(Mistake::RefusedBlockHasLines) {
            return packed(Answer { code: CODE_BLOCK, lines: 8, word: 0 });
        }
    }
    packed_refusal()
}

/// The code that a step would have at a reset.
fn code_at_reset(step: WideStep) -> u8 {
    match narrow(step) {
        Ok(step) => step.apply(&mut Controller::at_reset()).code,
        Err(refusal) => refusal as u8,
    }
}

/// What a mistake changes though the step is refused.
fn change_wrongly(mut controller: Controller, block: &mut [u8], step: WideStep) {
    if let WideStep::BitTimes(count) = step {
        if made(Mistake::RefusedBitTimesCounted) {
            controller.bit_times(count as u16);
            block.copy_from_slice(&save(&controller));
        }
    }
}

fn packed_refusal() -> u64 {
    CODE_BLOCK as u64
}

fn packed(answer: Answer) -> u64 {
    let Answer { code, lines, word } = answer;
    let [code, mut lines, mut word] = [code as u64, lines as u64, word as u64];
    if made(Mistake::WordOfRefusal) && code != 0 {
        word = code;
    }
    if made(Mistake::RefusalWithoutLines) && code != 0 {
        lines = 0;
    }
    match () {
        () if made(Mistake::LinesInThirdByte) => code | lines << 16 | word << 32,
        () if made(Mistake::WordBelowLines) => code | lines << 8 | word << 16,
        () => code | lines << 8 | word << 32,
    }
}

/// The step of the controller. A number that its field can't hold is out of
/// the map, or out of range.
fn narrow(step: WideStep) -> Result<Step, Refusal> {
    Ok(match step {
        WideStep::Reset => Step::Reset,
        WideStep::Read(at) => Step::Read(offset(at)?),
        WideStep::Write(at, word) => Step::Write(offset(at)?, word),
        WideStep::Idle => Step::Idle,
        WideStep::BitTimes(count) => Step::BitTimes(bit_times(count)?),
        WideStep::Activity => Step::Activity,
        WideStep::Start => Step::Start,
        WideStep::OwnEnd(result) if made(Mistake::CallResultIs4) && result > 255 => return Err(Refusal::WrongState),
        WideStep::OwnEnd(result) => Step::OwnEnd(byte(result, Mistake::CallResultCut)?),
        WideStep::Frame { identifier, length, data } => {
            let wanted = if made(Mistake::CallLengthCutTo4Bits) { length & 15 } else { length };
            let length = byte(wanted, Mistake::CallLengthCut)?;
            Step::Frame(Frame { identifier, length, data: data_bytes(data) })
        }
        WideStep::ReceiveError { code, step } => {
            let [code, step] = if made(Mistake::CallCodeAndStepExchanged) { [step, code] } else { [code, step] };
            let code = byte(code, Mistake::CallErrorCodeCut)?;
            Step::ReceiveError { code, step: byte(step, Mistake::CallErrorStepCut)? }
        }
    })
}

fn offset(number: u32) -> Result<u16, Refusal> {
    let refusal = if made(Mistake::CallOffsetIs5) { Refusal::OutOfRange } else { Refusal::NotInMap };
    if made(Mistake::CallOffsetCut) {
        return Ok(number as u16);
    }
    u16::try_from(number).map_err(|_| refusal)
}

fn bit_times(number: u32) -> Result<u16, Refusal> {
    if made(Mistake::CallBitTimesCut) {
        return Ok(number as u16);
    }
    u16::try_from(number).map_err(|_| Refusal::OutOfRange)
}

fn byte(number: u32, cut: Mistake) -> Result<u8, Refusal> {
    if made(cut) {
        return Ok(number as u8);
    }
    u8::try_from(number).map_err(|_| Refusal::OutOfRange)
}

/// Byte 0 is the lowest of the low word.
fn data_bytes([low, high]: [u32; 2]) -> u64 {
    let [low, high] = match () {
        () if made(Mistake::CallDataWordsExchanged) => [high, low],
        () if made(Mistake::CallDataHighByteFirst) => [low.swap_bytes(), high.swap_bytes()],
        () => [low, high],
    };
    low as u64 | (high as u64) << 32
}
