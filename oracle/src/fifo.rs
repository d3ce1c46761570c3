//! A receive FIFO of three frames and its output mailbox.

use crate::block::{bit, FifoFields};
use crate::here;
use crate::probe::{made, recall, remember, Mistake, Slot};
use crate::registers::{identifier, length_time, rfr, FIFO_DEPTH};

/// A frame as it is on the bus: an identifier word with bit 0 clear, the
/// length code as sent, and eight bytes, byte 0 lowest.
#[derive(Clone, Copy, PartialEq, Eq, Debug)]
pub struct Frame {
    pub identifier: u32,
    pub length: u8,
    pub data: u64,
}

impl Frame {
    pub fn is_remote(&self) -> bool {
        self.identifier & identifier::RTR != 0
    }

    /// The bytes that arrive: none of a remote frame, at most eight.
    fn arriving_data(&self) -> u64 {
        if self.is_remote() && !made(Mistake::RemoteDataKept) {
            here!();
            return 0;
        }
        if self.length >= 8 || made(Mistake::BytesPastLengthKept) {
            here!();
            return self.data;
        }
        here!();
        self.data & ((1u64 << (8 * self.length)) - 1)
    }

    fn stored_length(&self) -> u8 {
        if made(Mistake::DlcClippedTo8) {
            return self.length.min(8);
        }
        if made(Mistake::RemoteDlcStoredAs0) && self.is_remote() {
            return 0;
        }
        self.length
    }

    /// The frame as the four words of an output mailbox.
    pub fn as_stored(&self, filter_number: u8, time: u16) -> Stored {
        let data = self.arriving_data();
        Stored {
            identifier: self.identifier,
            length_time: (time as u32) << length_time::TIME_PLACE
                | (filter_number as u32) << length_time::FMI_PLACE
                | self.stored_length() as u32,
            data_low: data as u32,
            data_high: (data >> 32) as u32,
        }
    }
}

/// RI, RDT, RDL and RDH of one stored frame.
#[derive(Clone, Copy, PartialEq, Eq, Debug, Default)]
pub struct Stored {
    pub identifier: u32,
    pub length_time: u32,
    pub data_low: u32,
    pub data_high: u32,
}

#[derive(Clone, Copy, PartialEq, Eq, Debug, Default)]
pub struct Fifo {
    frames: [Stored; FIFO_DEPTH],
    pending: usize,
    /// FULL and FOVR as in RFxR.
    flags: u32,
}

impl Fifo {
    pub fn pending(&self) -> usize {
        self.pending
    }

    /// The oldest frame; an empty output reads 0.
    pub fn output(&self) -> Stored {
        if self.pending == 0 && !made(Mistake::EmptyOutputShowsLastFrame) {
            here!();
            return Stored::default();
        }
        self.frames[0]
    }

    pub fn store(&mut self, frame: Stored, locked: bool) {
        if self.pending < FIFO_DEPTH {
            here!();
            self.frames[self.pending] = frame;
            self.pending += 1;
            if self.pending == FIFO_DEPTH || self.pending == 2 && made(Mistake::FullAtTwo) {
                self.flags |= rfr::FULL;
            }
            remember(Slot::LockedWhenFilled, locked);
            return;
        }
        if !(locked && made(Mistake::NoOverrunWhenLocked)) {
            self.flags |= rfr::FOVR;
        }
        if made(Mistake::FourthFrameSetsFull) {
            self.flags |= rfr::FULL;
        }
        let locked = if made(Mistake::LockTakenWhenFilled) { recall(Slot::LockedWhenFilled) } else { locked };
        if locked != made(Mistake::LockReversed) {
            here!();
            return;
        }
        here!();
        if made(Mistake::OverrunDropsOldest) {
            self.frames.rotate_left(1);
        }
        self.frames[FIFO_DEPTH - 1] = frame;
    }

    /// A write to RFxR: the flags first, then the release.
    pub fn write_status(&mut self, word: u32) {
        if word & rfr::FULL != 0 {
            here!();
            self.flags &= if made(Mistake::FullClearsOverrunToo) { 0 } else { !rfr::FULL };
        }
        if word & rfr::FOVR != 0 {
            here!();
            self.flags &= if made(Mistake::OverrunClearsFullToo) { 0 } else { !rfr::FOVR };
        }
        if word & rfr::RFOM != 0 && self.pending > 0 {
            here!();
            self.release();
        }
    }

    fn release(&mut self) {
        if made(Mistake::FullClearedOnRelease) {
            self.flags &= !rfr::FULL;
        }
        if made(Mistake::OverrunClearedOnRelease) {
            self.flags &= !rfr::FOVR;
        }
        if made(Mistake::ReleaseDropsNewest) {
            self.pending -= 1;
            return;
        }
        if self.pending > 1 || !made(Mistake::EmptyOutputShowsLastFrame) {
            self.frames.rotate_left(1);
        }
        self.pending -= 1;
    }

    /// RFxR. RFOM reads 0: a release is done at once.
    pub fn status(&self) -> u32 {
        self.pending as u32 | self.flags
    }

    /// FMP not 0, FULL and FOVR in the order of FMPIE, FFIE and FOVIE.
    pub fn interrupt_sources(&self) -> u32 {
        (self.pending != 0) as u32 | self.flags >> 2
    }

    pub fn empty(&mut self) {
        let before = *self;
        *self = Fifo::default();
        if made(Mistake::MasterResetKeepsFifoFlags) {
            self.flags = before.flags;
        }
        if made(Mistake::MasterResetKeepsFifos) {
            *self = before;
        }
    }
}

/// The state block.
impl Fifo {
    /// Places past the number of frames are zeros.
    pub fn fields(&self) -> FifoFields {
        let mut places = self.frames;
        if !made(Mistake::StaleFramesSaved) {
            places[self.pending..].fill(Stored::default());
        }
        FifoFields {
            places,
            pending: self.pending as u32,
            full: (self.flags & rfr::FULL != 0) as u32,
            overrun: (self.flags & rfr::FOVR != 0) as u32,
        }
    }

    pub fn with_fields(fields: FifoFields) -> Fifo {
        Fifo {
            frames: fields.places,
            pending: FIFO_DEPTH.min(fields.pending as usize),
            flags: bit(fields.full, rfr::FULL) | bit(fields.overrun, rfr::FOVR),
        }
    }
}
