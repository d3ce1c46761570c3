//! The request book of document 01 and the two halves of demand 3 stated on
//! it. It sees steps, codes and a start's word; never the controller's state.

use crate::controller::Answer;
use crate::probe::{made, Mistake};
use crate::registers::{mcr, tsr, MailboxWord, Register, MAILBOXES};
use crate::script::Step;

/// Of the requests of other mailboxes, so many may end on the wire first.
const OTHERS_FIRST: u32 = 2;
/// After so many own frames that ended well a request has ended.
const GOOD_FRAMES: u32 = 3;

/// An outstanding request, followed from its acceptance.
#[derive(Clone, Copy, Debug)]
struct Request {
    record: u64,
    /// TXFP was set at every start since.
    request_order: bool,
    others_ended_on_wire: u32,
    frames_ended_well: u32,
}

#[derive(Default, Debug)]
pub struct Requests {
    outstanding: [Option<Request>; MAILBOXES],
    abort_mark: [bool; MAILBOXES],
    on_wire: Option<usize>,
    nart: bool,
    txfp: bool,
    pub accepted: u64,
    pub ended: u64,
}

impl Requests {
    /// The book of a history from a loaded block: its requests count as
    /// accepted at loading.
    #[cfg(test)]
    pub fn loaded(fields: &crate::block::Fields) -> Requests {
        let on_wire = fields.requests.on_wire as usize;
        let mut book = Requests {
            abort_mark: fields.requests.aborts.map(|flag| flag != 0),
            on_wire: (on_wire < MAILBOXES).then_some(on_wire),
            nart: fields.control.mcr & mcr::NART != 0,
            txfp: fields.control.mcr & mcr::TXFP != 0,
            ..Requests::default()
        };
        for x in (0..MAILBOXES).filter(|&x| fields.requests.names(x)) {
            book.accepted += 1;
            book.outstanding[x] = Some(Request::accepted_at(0));
        }
        book
    }

    /// Feeds one step. An error is a violation of demand 3, in words.
    pub fn feed(&mut self, record: u64, step: Step, answer: Answer) -> Result<(), String> {
        if answer.code != 0 {
            return Ok(());
        }
        match step {
            Step::Reset => self.begin_anew(),
            Step::Write(offset, word) => self.feed_write(record, offset, word),
            Step::Start => self.feed_start(answer.word as usize)?,
            Step::OwnEnd(result) => return self.feed_own_end(result),
            _ => {}
        }
        Ok(())
    }

    /// Outstanding requests are dropped, not ended.
    fn begin_anew(&mut self) {
        *self = Requests { accepted: self.accepted, ended: self.ended, ..Requests::default() };
    }

    fn feed_write(&mut self, record: u64, offset: u16, word: u32) {
        match Register::at(offset) {
            Some(Register::Mcr) if word & mcr::RESET != 0 => self.begin_anew(),
            Some(Register::Mcr) => {
                self.nart = word & mcr::NART != 0;
                self.txfp = word & mcr::TXFP != 0;
            }
            Some(Register::Mailbox(x, MailboxWord::Identifier)) if word & 1 != 0 => {
                self.accepted += 1;
                self.outstanding[x] = Some(Request::accepted_at(record));
            }
            Some(Register::Tsr) => self.feed_aborts(word),
            _ => {}
        }
    }

    fn feed_aborts(&mut self, word: u32) {
        for x in 0..MAILBOXES {
            if word >> (tsr::BITS_PER_MAILBOX * x) & tsr::ABRQ == 0 {
                continue;
            }
            if self.on_wire == Some(x) {
                self.abort_mark[x] = true;
            } else if self.outstanding[x].is_some() {
                self.end(x);
            }
        }
    }

    fn feed_start(&mut self, x: usize) -> Result<(), String> {
        if x >= MAILBOXES || self.outstanding[x].is_none() {
            return Err(format!("a start of mailbox {x}, which has no request"));
        }
        self.on_wire = Some(x);
        for request in self.outstanding.iter_mut().flatten() {
            request.request_order &= self.txfp;
        }
        Ok(())
    }

    fn feed_own_end(&mut self, result: u8) -> Result<(), String> {
        let x = match self.on_wire.take() {
            Some(x) => x,
            None => return Err("an own end with nothing on the wire".into()),
        };
        let alone = result == 8;
        if made(Mistake::ObserverLeaves8OnWire) && alone {
            self.on_wire = Some(x);
            return Ok(());
        }
        let good = result == 0 || made(Mistake::ObserverTakes8AsGood) && alone;
        let ends = (self.nart || self.abort_mark[x]) && !(made(Mistake::ObserverNeverEndsBy8) && alone);
        if !good && !ends {
            return Ok(());
        }
        self.end(x);
        for (other, request) in self.outstanding.iter_mut().enumerate() {
            let request = match request {
                Some(request) => request,
                None => continue,
            };
            request.others_ended_on_wire += 1;
            request.frames_ended_well += good as u32;
            request.check(other)?;
        }
        Ok(())
    }

    fn end(&mut self, x: usize) {
        self.outstanding[x] = None;
        self.abort_mark[x] = false;
        self.ended += 1;
    }

    /// The TME bits of a TSR word against the book.
    pub fn check_tme(&self, tsr_word: u32) -> Result<(), String> {
        for x in 0..MAILBOXES {
            let reads_empty = tsr_word >> (tsr::TME_PLACE + x) & 1 != 0;
            let outstanding = self.outstanding[x].is_some();
            if reads_empty == outstanding {
                let reading = if reads_empty { "empty" } else { "not empty" };
                let kept = if outstanding { "outstanding" } else { "none outstanding" };
                return Err(format!("mailbox {x} reads {reading}, in the book its request is {kept}"));
            }
        }
        Ok(())
    }
}

impl Request {
    fn accepted_at(record: u64) -> Request {
        Request { record, request_order: true, others_ended_on_wire: 0, frames_ended_well: 0 }
    }

    fn check(&self, x: usize) -> Result<(), String> {
        if !self.request_order {
            return Ok(());
        }
        let who = format!("the request of mailbox {x} accepted at record {}", self.record);
        if self.others_ended_on_wire > OTHERS_FIRST {
            let count = self.others_ended_on_wire;
            return Err(format!("{who} still waits though {count} requests of others ended on the wire"));
        }
        if self.frames_ended_well >= GOOD_FRAMES {
            let count = self.frames_ended_well;
            return Err(format!("{who} still waits though {count} own frames ended well"));
        }
        Ok(())
    }
}
