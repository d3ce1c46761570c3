//! The C library under test, linked with `-l static=capi`.

use crate::random_calls::Library;
use crate::writer::WideStep;

extern "C" {
    fn bxcan_block_size(board: u32) -> usize;
    fn bxcan_reset(board: u32, block: *mut u8, len: usize) -> u64;
    fn bxcan_read(board: u32, block: *mut u8, len: usize, offset: u32) -> u64;
    fn bxcan_write(board: u32, block: *mut u8, len: usize, offset: u32, word: u32) -> u64;
    fn bxcan_idle(board: u32, block: *mut u8, len: usize) -> u64;
    fn bxcan_bit_times(board: u32, block: *mut u8, len: usize, n: u32) -> u64;
    fn bxcan_activity(board: u32, block: *mut u8, len: usize) -> u64;
    fn bxcan_start(board: u32, block: *mut u8, len: usize) -> u64;
    fn bxcan_own_end(board: u32, block: *mut u8, len: usize, result: u32) -> u64;
    fn bxcan_frame(board: u32, block: *mut u8, len: usize, id: u32, length: u32, low: u32, high: u32) -> u64;
    fn bxcan_receive_error(board: u32, block: *mut u8, len: usize, code: u32, step: u32) -> u64;
}

pub struct Linked;

impl Library for Linked {
    fn block_size(&mut self, board: u32) -> usize {
        unsafe { bxcan_block_size(board) }
    }

    /// A block of no bytes is a null pointer.
    fn call(&mut self, board: u32, block: &mut [u8], step: WideStep) -> u64 {
        let len = block.len();
        let block = if len == 0 { std::ptr::null_mut() } else { block.as_mut_ptr() };
        // The library is given bytes that are ours, and their number.
        unsafe {
            match step {
                WideStep::Reset => bxcan_reset(board, block, len),
                WideStep::Read(offset) => bxcan_read(board, block, len, offset),
                WideStep::Write(offset, word) => bxcan_write(board, block, len, offset, word),
                WideStep::Idle => bxcan_idle(board, block, len),
                WideStep::BitTimes(n) => bxcan_bit_times(board, block, len, n),
                WideStep::Activity => bxcan_activity(board, block, len),
                WideStep::Start => bxcan_start(board, block, len),
                WideStep::OwnEnd(result) => bxcan_own_end(board, block, len, result),
                WideStep::Frame { identifier, length, data: [low, high] } => {
                    bxcan_frame(board, block, len, identifier, length, low, high)
                }
                WideStep::ReceiveError { code, step } => bxcan_receive_error(board, block, len, code, step),
            }
        }
    }
}
