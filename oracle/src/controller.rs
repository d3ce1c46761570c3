//! The bench controller of document 01: one bxCAN, changed in place by
//! register accesses and bus events.

use crate::block::{self, ControlFields, ErrorFields, Fields};
use crate::fifo::{Fifo, Frame, Stored};
use crate::filter::Filters;
use crate::here;
use crate::mailbox::Transmitter;
use crate::probe::{made, recall, remember, Mistake, Slot};
use crate::registers::*;

/// Why a step is refused; the number is its code.
#[derive(Clone, Copy, PartialEq, Eq, Debug)]
#[repr(u8)]
pub enum Refusal {
    NotInMap = 1,
    Protected = 2,
    ReadOnly = 3,
    WrongState = 4,
    OutOfRange = 5,
}

/// What every step gives back.
#[derive(Clone, Copy, PartialEq, Eq, Debug, Default)]
pub struct Answer {
    pub code: u8,
    pub lines: u8,
    pub word: u32,
}

#[derive(Clone, Copy, PartialEq, Eq, Debug)]
pub enum Mode {
    Normal,
    Initialization,
    Sleep,
}

/// What an accepted step leaves: its word.
type Outcome = Result<u32, Refusal>;

const DONE: Outcome = Ok(0);
const RECOVERY_IDLES: u8 = 128;
const TEC_LIMIT: u16 = 255;
const REC_MOST: u16 = 255;
const LEC_BY_SOFTWARE: u8 = 7;
const ACKNOWLEDGMENT_ERROR: u8 = 3;
/// Results of an own end behind 0 and the error codes.
const LOST: u8 = 7;
const ALONE: u8 = 8;

#[derive(Clone, PartialEq, Eq, Debug)]
pub struct Controller {
    mcr: u32,
    mode: Mode,
    /// SLAKI, WKUI and ERRI as in MSR.
    flags: u32,
    ier: u32,
    btr: u32,
    /// Nine bits and a little: up to 255 + 8.
    tec: u16,
    rec: u16,
    lec: u8,
    timer: u16,
    /// Idle events counted towards the end of bus-off.
    recovery_count: u8,
    initialized_since_bus_off: bool,
    transmitter: Transmitter,
    fifos: [Fifo; FIFOS],
    filters: Filters,
}

impl Default for Controller {
    fn default() -> Controller {
        Controller::at_reset()
    }
}

/// The calls of the bench: each is one step.
impl Controller {
    /// The state after a hardware reset.
    pub fn at_reset() -> Controller {
        Controller {
            mcr: mcr::AT_RESET,
            mode: Mode::Sleep,
            flags: 0,
            ier: 0,
            btr: btr::AT_RESET,
            tec: 0,
            rec: 0,
            lec: 0,
            timer: 0,
            recovery_count: 0,
            initialized_since_bus_off: false,
            transmitter: Transmitter::default(),
            fifos: [Fifo::default(); FIFOS],
            filters: Filters::at_reset(),
        }
    }

    pub fn hardware_reset(&mut self) -> Answer {
        let before = if cfg!(wrong) { Some(self.clone()) } else { None };
        *self = Controller::at_reset();
        if let Some(before) = before {
            self.keep_too_much(before);
        }
        self.conclude(DONE)
    }

    fn keep_too_much(&mut self, before: Controller) {
        if made(Mistake::HardwareResetKeepsBanks) {
            (0..BANKS).for_each(|bank| {
                self.filters.set_value(bank, 0, before.filters.value(bank, 0));
                self.filters.set_value(bank, 1, before.filters.value(bank, 1));
            });
        }
        if made(Mistake::HardwareResetKeepsMailboxes) {
            self.transmitter = before.transmitter;
            self.transmitter.keep_words();
        }
    }

    pub fn read(&mut self, offset: u16) -> Answer {
        let outcome = self.word_at(offset);
        self.conclude(outcome)
    }

    pub fn write(&mut self, offset: u16, word: u32) -> Answer {
        let outcome = self.accept_write(offset, word);
        self.conclude(outcome)
    }

    /// Eleven recessive bits.
    pub fn idle(&mut self) -> Answer {
        let outcome = self.accept_idle();
        self.conclude(outcome)
    }

    pub fn bit_times(&mut self, count: u16) -> Answer {
        let outcome = self.accept_bit_times(count);
        self.conclude(outcome)
    }

    /// A dominant edge while asleep.
    pub fn activity(&mut self) -> Answer {
        let outcome = self.accept_activity();
        self.conclude(outcome)
    }

    /// The first mailbox in priority goes on the wire; the word is its number.
    pub fn start(&mut self) -> Answer {
        let outcome = self.accept_start();
        self.conclude(outcome)
    }

    /// The own frame ends: 0 good, 1 to 6 an error code, 7 arbitration lost, 8
    /// an acknowledgment error of an error-passive transmitter that is alone.
    pub fn own_end(&mut self, result: u8) -> Answer {
        let outcome = self.accept_own_end(result);
        self.conclude(outcome)
    }

    /// A whole frame from another node.
    pub fn frame(&mut self, frame: Frame) -> Answer {
        let outcome = self.accept_frame(frame);
        self.conclude(outcome)
    }

    pub fn receive_error(&mut self, code: u8, step: u8) -> Answer {
        let outcome = self.accept_receive_error(code, step);
        self.conclude(outcome)
    }

    /// The interrupt lines: transmit, FIFO 0, FIFO 1, status change and error.
    pub fn lines(&self) -> u8 {
        if cfg!(wrong) {
            return self.perhaps_wrong_lines();
        }
        let transmit = self.transmitter.any_completed() && self.ier & ier::TMEIE != 0;
        let fifo = |x: usize| self.fifos[x].interrupt_sources() & ier::of_fifo(self.ier, x) != 0;
        let status = self.flags & ier::of_flags(self.ier) != 0;
        transmit as u8 | (fifo(0) as u8) << 1 | (fifo(1) as u8) << 2 | (status as u8) << 3
    }

    fn perhaps_wrong_lines(&self) -> u8 {
        let enabled = |flag: bool, bit: u32| flag && self.ier & bit != 0;
        let any_empty = (0..MAILBOXES).any(|x| self.transmitter.mailbox(x).is_empty());
        let completed = if made(Mistake::LineTmeNeedsEmpty) { any_empty } else { self.transmitter.any_completed() };
        let fifo = |x: usize| self.fifos[x].interrupt_sources() & ier::of_fifo(self.ier, x) != 0;
        let mut fifos = [fifo(0), fifo(1)];
        if made(Mistake::LinesOfFifosSwapped) {
            fifos.reverse();
        }
        if made(Mistake::LineFullByCount) {
            for (x, line) in fifos.iter_mut().enumerate() {
                let three = (self.fifos[x].pending() == FIFO_DEPTH) as u32;
                let sources = self.fifos[x].interrupt_sources() & 5 | three << 1;
                *line = sources & (self.ier >> (1 + 3 * x)) & 7 != 0;
            }
        }
        let error = match made(Mistake::LineErrorsDirect) {
            true => self.error_flags() & (self.ier >> ier::ERROR_FLAGS_PLACE) & 7 != 0,
            false => self.has(msr::ERRI),
        };
        let status = enabled(error, ier::ERRIE)
            || enabled(self.has(msr::WKUI), ier::WKUIE)
            || enabled(self.has(msr::SLAKI), ier::SLKIE)
            || self.has(msr::SLAKI) && made(Mistake::LineSlakiIgnoresSlkie);
        enabled(completed, ier::TMEIE) as u8 | (fifos[0] as u8) << 1 | (fifos[1] as u8) << 2 | (status as u8) << 3
    }

    /// Ends every step: an accepted one may change the mode.
    #[inline]
    fn conclude(&mut self, outcome: Outcome) -> Answer {
        let early_lines = if made(Mistake::LinesBeforeModeChange) { self.lines() } else { 0 };
        let (code, word) = match outcome {
            Ok(word) => {
                self.follow_mode_request();
                (0, word)
            }
            Err(Refusal::Protected) if made(Mistake::RefusedWordKept) => (Refusal::Protected as u8, self.btr),
            Err(refusal) => (refusal as u8, 0),
        };
        let lines = if made(Mistake::LinesBeforeModeChange) { early_lines } else { self.lines() };
        Answer { code, lines, word }
    }
}

/// What tests and the script generator look at.
impl Controller {
    pub fn mode(&self) -> Mode {
        self.mode
    }

    pub fn mcr(&self) -> u32 {
        self.mcr
    }

    pub fn tec(&self) -> u16 {
        self.tec
    }

    pub fn rec(&self) -> u16 {
        self.rec
    }

    pub fn transmitter(&self) -> &Transmitter {
        &self.transmitter
    }

    pub fn fifo(&self, x: usize) -> &Fifo {
        &self.fifos[x]
    }

    pub fn filters(&self) -> &Filters {
        &self.filters
    }

    pub fn on_wire(&self) -> bool {
        self.transmitter.on_wire().is_some()
    }

    pub fn is_loopback(&self) -> bool {
        self.btr & btr::LBKM != 0
    }

    pub fn is_silent(&self) -> bool {
        self.btr & btr::SILM != 0
    }

    /// What a read of TSR would give.
    pub fn tsr(&self) -> u32 {
        self.clone().read(0x08).word
    }

    /// EPVF.
    pub fn is_error_passive(&self) -> bool {
        self.error_flags() & esr::EPVF != 0
    }

    /// The identifier word that a good own end would pass through the filters.
    pub fn loopback_word(&self) -> Option<u32> {
        let x = self.transmitter.on_wire()?;
        let passes = self.is_loopback() && !self.filters.initializing;
        passes.then(|| self.transmitter.mailbox(x).frame().identifier)
    }

    pub fn is_bus_off(&self) -> bool {
        let limit = match () {
            () if made(Mistake::BusOffAt255) => TEC_LIMIT - 1,
            () if made(Mistake::BusOffAt257) => TEC_LIMIT + 1,
            () => TEC_LIMIT,
        };
        if made(Mistake::BusOffOnLowByte) {
            return self.tec & 0xFF > limit;
        }
        self.tec > limit
    }

    fn has(&self, flag: u32) -> bool {
        self.flags & flag != 0
    }

    fn option(&self, bit: u32) -> bool {
        self.mcr & bit != 0
    }

    fn request_order(&self) -> bool {
        if made(Mistake::TxfpTakenAtRequest) {
            return recall(Slot::TxfpAtRequest);
        }
        self.option(mcr::TXFP) != made(Mistake::PriorityReversed)
    }
}

/// The state block.
impl Controller {
    /// The numbers of docs/BLOCK.md.
    pub fn fields(&self) -> Fields {
        let (mailboxes, requests) = self.transmitter.fields();
        let (filters, banks) = self.filters.fields();
        Fields {
            control: ControlFields {
                mcr: self.mcr,
                ier: self.ier,
                btr: self.btr,
                timer: self.timer as u32,
                mode: match self.mode {
                    Mode::Normal => block::NORMAL,
                    Mode::Initialization => block::INITIALIZATION,
                    Mode::Sleep => block::SLEEP,
                },
                recovery_count: self.recovery_count as u32,
                // Outside bus-off it says nothing: the next bus-off forgets it.
                initialized_since_bus_off: (self.initialized_since_bus_off
                    && (self.is_bus_off() || made(Mistake::InitializedSavedOutsideBusOff)))
                    as u32,
                erri: self.has(msr::ERRI) as u32,
                wkui: self.has(msr::WKUI) as u32,
                slaki: self.has(msr::SLAKI) as u32,
            },
            errors: ErrorFields { tec: self.tec as u32, rec: self.rec as u32, lec: self.lec as u32 },
            mailboxes,
            requests,
            fifos: self.fifos.map(|fifo| fifo.fields()),
            filters,
            banks,
        }
    }

    /// The state that has these numbers.
    pub fn with_fields(fields: &Fields) -> Controller {
        let ControlFields { mcr, ier, btr, timer, mode, erri, wkui, slaki, .. } = fields.control;
        Controller {
            mcr,
            mode: match mode {
                block::NORMAL => Mode::Normal,
                block::INITIALIZATION => Mode::Initialization,
                _ => Mode::Sleep,
            },
            flags: block::bit(erri, msr::ERRI) | block::bit(wkui, msr::WKUI) | block::bit(slaki, msr::SLAKI),
            ier,
            btr,
            tec: fields.errors.tec as u16,
            rec: fields.errors.rec as u16,
            lec: fields.errors.lec as u8,
            timer: timer as u16,
            recovery_count: fields.control.recovery_count as u8,
            initialized_since_bus_off: fields.control.initialized_since_bus_off != 0,
            transmitter: Transmitter::with_fields(&fields.mailboxes, &fields.requests),
            fifos: fields.fifos.map(Fifo::with_fields),
            filters: Filters::with_fields(&fields.filters, &fields.banks),
        }
    }
}

/// Registers.
impl Controller {
    fn word_at(&self, offset: u16) -> Outcome {
        let register = self.register_at(offset)?;
        if register == Register::Btr && self.mode != Mode::Initialization && made(Mistake::BtrHiddenOutsideInit) {
            return Err(Refusal::Protected);
        }
        Ok(match register {
            Register::Mcr => self.mcr,
            Register::Msr => self.master_status(),
            Register::Tsr if made(Mistake::RequestOrderNotForLow) => self.transmitter.status(false),
            Register::Tsr => self.transmitter.status(self.request_order()),
            Register::Rfr(x) => self.fifos[x].status(),
            Register::Ier => self.ier,
            Register::Esr => self.error_status(),
            Register::Btr => self.btr,
            Register::Mailbox(x, word) => self.transmitter.mailbox(x).word(word),
            Register::FifoOutput(x, word) => self.output_word(x, word),
            Register::Fmr if made(Mistake::FmrReadsFinitOnly) => self.filters.initializing as u32,
            Register::Fmr => fmr::FIXED | self.filters.initializing as u32,
            Register::Fm1r => self.filters.mode(),
            Register::Fs1r => self.filters.scale(),
            Register::Ffa1r => self.filters.assignment(),
            Register::Fa1r => self.filters.activation(),
            Register::Bank(bank, half) => self.filters.value(bank, half),
        })
    }

    #[inline]
    fn register_at(&self, offset: u16) -> Result<Register, Refusal> {
        if made(Mistake::UnalignedRoundedDown) {
            return Register::at(offset & !3).ok_or(Refusal::NotInMap);
        }
        if made(Mistake::MapHas28Banks) && (0x2B0..0x320).contains(&offset) && offset % 4 == 0 {
            return Ok(Register::Bank(BANKS - 1, 0));
        }
        if made(Mistake::ReservedOffsetsReadZero) && matches!(offset, 0x208 | 0x210 | 0x218 | 0x220) {
            return Ok(Register::Fm1r);
        }
        Register::at(offset).ok_or(Refusal::NotInMap)
    }

    fn master_status(&self) -> u32 {
        let bit = |flag: bool, place: u32| if flag { place } else { 0 };
        let pins = msr::RX | msr::SAMP;
        let dark = made(Mistake::RxReadsZero) && self.mode == Mode::Sleep && self.has(msr::WKUI);
        let transmitting = self.on_wire() && !made(Mistake::TxmNotShown);
        bit(!dark, pins)
            | bit(transmitting, msr::TXM)
            | self.flags
            | bit(self.mode == Mode::Sleep, msr::SLAK)
            | bit(self.mode == Mode::Initialization, msr::INAK)
    }

    fn error_status(&self) -> u32 {
        let full = made(Mistake::TecReads255InBusOff) && self.is_bus_off();
        let tec = if full { 0xFF } else { self.tec as u32 & 0xFF };
        (self.rec as u32) << esr::REC_PLACE
            | tec << esr::TEC_PLACE
            | (self.lec as u32) << esr::LEC_PLACE
            | self.error_flags()
    }

    fn output_word(&self, x: usize, word: MailboxWord) -> u32 {
        let Stored { identifier, length_time, data_low, data_high } = self.fifos[x].output();
        match word {
            MailboxWord::Identifier => identifier,
            MailboxWord::LengthTime => length_time,
            MailboxWord::DataLow => data_low,
            MailboxWord::DataHigh => data_high,
        }
    }

    fn accept_write(&mut self, offset: u16, word: u32) -> Outcome {
        let register = self.register_at(offset)?;
        self.check_protection(register)?;
        match register {
            Register::Mcr => self.write_master_control(word),
            Register::Msr => self.write_master_status(word),
            Register::Tsr => self.transmitter.write_status(word),
            Register::Rfr(x) => self.fifos[x].write_status(word),
            Register::Ier => self.write_interrupt_enable(word),
            Register::Esr => self.write_error_status(word),
            Register::Btr if made(Mistake::BtrAllBits) => self.btr = word,
            Register::Btr => self.btr = word & btr::WRITABLE,
            Register::Mailbox(x, part) => self.write_mailbox(x, part, word),
            Register::FifoOutput(..) => {} // only by a mistake: check_protection refuses it
            Register::Fmr => self.filters.initializing = word & fmr::FINIT != 0,
            Register::Fm1r => self.filters.set_mode(word),
            Register::Fs1r => self.filters.set_scale(word),
            Register::Ffa1r => self.filters.set_assignment(word),
            Register::Fa1r => self.filters.set_activation(word),
            Register::Bank(bank, half) => self.filters.set_value(bank, half, word),
        }
        DONE
    }

    /// Codes 3 and 2.
    fn check_protection(&self, register: Register) -> Result<(), Refusal> {
        if cfg!(wrong) && self.wrongly_open(register) {
            return Ok(());
        }
        let finit = self.filters.initializing;
        let protected = match register {
            Register::FifoOutput(..) if made(Mistake::ReceiveWriteIs2) => true,
            Register::FifoOutput(..) => {
                here!();
                return Err(Refusal::ReadOnly);
            }
            Register::Btr => self.mode != Mode::Initialization,
            Register::Mailbox(x, _) => !self.transmitter.mailbox(x).is_empty(),
            Register::Fm1r | Register::Fs1r | Register::Ffa1r => !finit,
            Register::Fa1r => !finit && made(Mistake::Fa1rNeedsFinit),
            Register::Bank(..) if made(Mistake::BankNeedsFinit) => !finit,
            Register::Bank(bank, _) if made(Mistake::ActiveBankProtectedWithFinit) => self.filters.is_active(bank),
            Register::Bank(bank, _) => !finit && self.filters.is_active(bank),
            _ => false,
        };
        if protected {
            here!();
            return Err(Refusal::Protected);
        }
        Ok(())
    }

    fn wrongly_open(&self, register: Register) -> bool {
        match register {
            Register::FifoOutput(..) => made(Mistake::ReceiveWriteIgnored),
            Register::Btr => made(Mistake::BtrWritableInSleep) && self.mode == Mode::Sleep,
            Register::Ffa1r => made(Mistake::Ffa1rNeedsNoFinit),
            Register::Mailbox(x, part) => {
                made(Mistake::OnlyTiProtected) && part != MailboxWord::Identifier
                    || made(Mistake::MailboxProtectedOnWireOnly) && self.transmitter.on_wire() != Some(x)
                    || made(Mistake::RepeatedRequestIgnored)
            }
            _ => false,
        }
    }

    fn write_master_control(&mut self, word: u32) {
        if word & mcr::RESET != 0 {
            here!();
            self.master_reset();
            if made(Mistake::MasterResetTakesRest) {
                self.mcr = word & mcr::WRITABLE;
            }
            if made(Mistake::ResetBitStored) {
                self.mcr |= mcr::RESET;
            }
            return;
        }
        self.mcr = word & mcr::WRITABLE;
        if made(Mistake::DbfNotStored) {
            self.mcr |= mcr::DBF;
        }
        if !self.option(mcr::TTCM) && !made(Mistake::TimerKeptWithoutTtcm) {
            here!();
            self.timer = 0;
        } else {
            here!();
        }
    }

    /// Ends in Sleep with nothing requested, received or flagged in MSR; the
    /// flags of TSR, the error counters and all configuration stay.
    fn master_reset(&mut self) {
        if made(Mistake::MasterResetIsHardwareReset) {
            *self = Controller::at_reset();
        }
        self.mcr = mcr::AT_RESET;
        self.mode = Mode::Sleep;
        self.fifos.iter_mut().for_each(Fifo::empty);
        self.transmitter.drop_requests();
        self.flags &= if made(Mistake::MasterResetKeepsMsrFlags) { msr::WKUI | msr::ERRI } else { 0 };
        if made(Mistake::MasterResetSetsSlaki) && self.ier & ier::SLKIE != 0 {
            self.flags |= msr::SLAKI;
        }
        if !made(Mistake::MasterResetKeepsTimer) {
            self.timer = 0;
        }
        if !made(Mistake::MasterResetKeepsCount) {
            self.recovery_count = 0;
        }
        if cfg!(wrong) {
            self.reset_too_much();
        }
    }

    fn reset_too_much(&mut self) {
        if made(Mistake::MasterResetClearsErrors) {
            (self.tec, self.rec, self.lec) = (0, 0, 0);
        }
        if made(Mistake::MasterResetClearsIer) {
            self.ier = 0;
        }
        if made(Mistake::MasterResetClearsBtr) {
            self.btr = btr::AT_RESET;
        }
        if made(Mistake::MasterResetSetsFinit) {
            self.filters.initializing = true;
        }
        if made(Mistake::MasterResetClearsFilters) {
            let finit = self.filters.initializing;
            self.filters = Filters::at_reset();
            self.filters.initializing = finit;
        }
        if made(Mistake::MasterResetClearsMailboxes) {
            self.transmitter.clear_words();
        }
        if made(Mistake::MasterResetForgetsInit) {
            self.initialized_since_bus_off = false;
        }
    }

    fn write_master_status(&mut self, word: u32) {
        self.flags &= if made(Mistake::MsrClearsAll) { 0 } else { !word };
    }

    fn write_interrupt_enable(&mut self, word: u32) {
        self.ier = word & ier::WRITABLE;
        if made(Mistake::IerBit7Stored) {
            self.ier |= word & 0x80;
        }
        if made(Mistake::SlakiWhenSlkieWritten) && self.mode == Mode::Sleep && word & ier::SLKIE != 0 {
            self.flags |= msr::SLAKI;
        }
        if made(Mistake::ErriWhenEnabled) && self.error_flags() & (self.ier >> ier::ERROR_FLAGS_PLACE) & 7 != 0 {
            self.flags |= msr::ERRI;
        }
    }

    /// Only 7 can be written to LEC.
    fn write_error_status(&mut self, word: u32) {
        let code = (word >> esr::LEC_PLACE & 7) as u8;
        if code == LEC_BY_SOFTWARE || made(Mistake::LecWritable) || code == 0 && made(Mistake::LecZeroWritable) {
            here!();
            self.lec = code;
        } else {
            here!();
        }
        if code == LEC_BY_SOFTWARE && made(Mistake::Lec7SetsErri) && self.ier & ier::LECIE != 0 {
            self.flags |= msr::ERRI;
        }
    }

    fn write_mailbox(&mut self, x: usize, part: MailboxWord, word: u32) {
        let asleep = self.mode != Mode::Normal && made(Mistake::RequestNeedsNormal);
        if made(Mistake::RepeatedRequestIgnored) && !self.transmitter.mailbox(x).is_empty() {
            return;
        }
        let word = if asleep && part == MailboxWord::Identifier { word & !identifier::TXRQ } else { word };
        self.transmitter.write(x, part, word);
        if part == MailboxWord::Identifier && word & identifier::TXRQ != 0 {
            remember(Slot::TxfpAtRequest, self.option(mcr::TXFP));
        }
    }
}

/// Modes.
impl Controller {
    /// What INRQ and SLEEP ask for, unless an own frame is on the wire.
    fn follow_mode_request(&mut self) {
        if self.on_wire() && !made(Mistake::ModeChangesOnWire) {
            here!();
            return;
        }
        let mut requests = self.mcr & (mcr::INRQ | mcr::SLEEP);
        if cfg!(wrong) {
            requests = self.wrong_mode_requests(requests);
        }
        match (self.mode, requests) {
            (Mode::Normal | Mode::Sleep, mcr::INRQ) => self.enter_initialization(),
            (Mode::Normal | Mode::Initialization, mcr::SLEEP) => self.enter_sleep(),
            _ => {}
        }
    }

    fn wrong_mode_requests(&mut self, requests: u32) -> u32 {
        let stay = 0;
        match (self.mode, requests) {
            (_, 3) if made(Mistake::BothRequestsToInit) => mcr::INRQ,
            (_, 3) if made(Mistake::BothRequestsToSleep) => mcr::SLEEP,
            (Mode::Initialization, mcr::SLEEP) if made(Mistake::InitToSleepNotDone) => stay,
            (Mode::Sleep, mcr::INRQ) if made(Mistake::SleepToInitNotDone) => stay,
            (Mode::Initialization, 0) if made(Mistake::NormalWithoutIdle) => {
                self.mode = Mode::Normal;
                stay
            }
            _ => requests,
        }
    }

    fn enter_initialization(&mut self) {
        if self.mode == Mode::Sleep {
            here!();
            if !made(Mistake::SlakiKeptOnInit) {
                self.flags &= !msr::SLAKI;
            }
        } else {
            here!();
        }
        self.mode = Mode::Initialization;
        if !made(Mistake::RecoveryCountKeptInInit) {
            self.recovery_count = 0;
        }
        self.initialized_since_bus_off = true;
        if made(Mistake::InitDropsRequests) {
            self.transmitter.drop_requests();
        }
        if made(Mistake::TimerZeroedInInit) {
            self.timer = 0;
        }
    }

    fn enter_sleep(&mut self) {
        if self.mode == Mode::Initialization {
            here!();
        } else {
            here!();
        }
        self.mode = Mode::Sleep;
        if self.ier & ier::SLKIE != 0 || made(Mistake::SlakiWithoutSlkie) {
            here!();
            self.flags |= msr::SLAKI;
        } else {
            here!();
        }
        if made(Mistake::SleepDropsRequests) {
            self.transmitter.drop_requests();
        }
        if made(Mistake::RecoveryCountLostInSleep) {
            self.recovery_count = 0;
        }
    }

    /// Synchronized on the bus.
    fn enter_normal(&mut self) {
        if self.mode == Mode::Sleep {
            here!();
            if !made(Mistake::SlakiKeptOnWaking) {
                self.flags &= !msr::SLAKI;
            }
        } else {
            here!();
        }
        self.mode = Mode::Normal;
    }
}

/// Bus events.
impl Controller {
    fn accept_idle(&mut self) -> Outcome {
        let deaf = made(Mistake::IdleRefusedInInitialization) && self.mode == Mode::Initialization;
        if self.on_wire() || deaf && self.option(mcr::INRQ) {
            here!();
            return Err(Refusal::WrongState);
        }
        let normal_before = self.mode == Mode::Normal;
        let requests = self.mcr & (mcr::INRQ | mcr::SLEEP);
        let forced = made(Mistake::IdleEntersNormalWithBoth) && requests == mcr::INRQ | mcr::SLEEP;
        if !normal_before && (requests == 0 || forced) {
            here!();
            self.enter_normal();
        } else {
            here!();
        }
        let counts = normal_before
            || made(Mistake::JoiningIdleCounts) && self.mode == Mode::Normal
            || made(Mistake::IdleCountsInAllModes);
        if counts && self.is_bus_off() {
            self.count_recovery();
        }
        DONE
    }

    /// An idle event in Normal while bus-off.
    fn count_recovery(&mut self) {
        let initialized = self.initialized_since_bus_off && !made(Mistake::RecoveryNeedsAbom);
        if !(self.option(mcr::ABOM) || initialized || made(Mistake::RecoveryAlways)) {
            here!();
            if made(Mistake::RecoveryCountLostWithoutAbom) {
                self.recovery_count = 0;
            }
            return;
        }
        self.recovery_count += 1;
        let needed = match () {
            () if made(Mistake::RecoveryAt127) => RECOVERY_IDLES - 1,
            () if made(Mistake::RecoveryAt129) => RECOVERY_IDLES + 1,
            () => RECOVERY_IDLES,
        };
        if self.recovery_count < needed {
            here!();
            return;
        }
        here!();
        self.recovery_count = 0;
        self.tec = 0;
        if !made(Mistake::RecoveryKeepsRec) {
            self.rec = 0;
        }
        if made(Mistake::RecoveryClearsLec) {
            self.lec = 0;
        }
        if made(Mistake::RecoveryDropsRequests) {
            self.transmitter.drop_requests();
        }
    }

    fn accept_bit_times(&mut self, count: u16) -> Outcome {
        if count == 0 && !made(Mistake::BitTimesZeroAccepted) {
            here!();
            return Err(Refusal::OutOfRange);
        }
        if made(Mistake::BitTimesRefusedOutsideNormal) && self.mode != Mode::Normal {
            return Err(Refusal::WrongState);
        }
        let in_mode = self.mode == Mode::Normal || made(Mistake::TimerRunsInAllModes);
        let triggered = self.option(mcr::TTCM) || made(Mistake::TimerRunsWithoutTtcm);
        let standing = made(Mistake::TimerStopsInBusOff) && self.is_bus_off();
        if in_mode && triggered && !standing {
            here!();
            self.advance_timer(count);
        } else {
            here!();
        }
        DONE
    }

    fn advance_timer(&mut self, count: u16) {
        let wraps = self.timer.checked_add(count).is_none();
        self.timer = match wraps {
            true if made(Mistake::TimerSaturates) => u16::MAX,
            true if made(Mistake::TimerWrapsTo1) => self.timer.wrapping_add(count).wrapping_add(1),
            _ => self.timer.wrapping_add(count),
        };
    }

    fn accept_activity(&mut self) -> Outcome {
        let asleep = match made(Mistake::ActivityBySleepBit) {
            true => self.option(mcr::SLEEP),
            false => self.mode == Mode::Sleep,
        };
        if !asleep {
            here!();
            return if made(Mistake::ActivityOutsideSleep) { DONE } else { Err(Refusal::WrongState) };
        }
        if !made(Mistake::ActivityNeedsWkuie) || self.ier & ier::WKUIE != 0 {
            self.flags |= msr::WKUI;
        }
        if self.option(mcr::AWUM) || made(Mistake::ActivityAlwaysWakes) {
            here!();
            self.mcr &= !mcr::SLEEP;
            if made(Mistake::AutoWakeClearsInrq) {
                self.mcr &= !mcr::INRQ;
            }
            if made(Mistake::ActivityToNormal) && !self.option(mcr::INRQ) {
                self.enter_normal();
            }
        } else {
            here!();
        }
        DONE
    }

    fn accept_start(&mut self) -> Outcome {
        let mute = if made(Mistake::SilentStartAllowed) {
            false
        } else if made(Mistake::SilentLoopbackStartRefused) {
            self.is_silent()
        } else {
            self.is_silent() && !self.is_loopback()
        };
        let off = self.is_bus_off() && !made(Mistake::StartInBusOff);
        let crowded = made(Mistake::StartNeedsExactlyOne) && self.transmitter.pending_count() > 1;
        if self.mode != Mode::Normal || off || self.on_wire() || mute || crowded {
            here!();
            return Err(Refusal::WrongState);
        }
        let x = match self.transmitter.first(self.request_order()) {
            Some(x) => x,
            None => {
                here!();
                return Err(Refusal::WrongState);
            }
        };
        remember(Slot::NartAtStart, self.option(mcr::NART));
        remember(Slot::FinitAtStart, self.filters.initializing);
        if made(Mistake::TimeTakenOnlyWithTtcm) && !self.option(mcr::TTCM) {
            self.transmitter.start(x, self.transmitter.mailbox(x).time());
            return Ok(x as u32);
        }
        self.transmitter.start(x, self.timer);
        Ok(x as u32)
    }

    fn accept_own_end(&mut self, result: u8) -> Outcome {
        let result = if result == 9 && made(Mistake::OwnEnd9Taken) { ALONE } else { result };
        if result > ALONE && !self.wrongly_in_range() || cfg!(wrong) && self.wrongly_out_of_range(result) {
            here!();
            return Err(Refusal::OutOfRange);
        }
        let x = match self.transmitter.on_wire() {
            Some(x) => x,
            None => {
                here!();
                return self.end_of_nothing(result);
            }
        };
        if !self.can_end_by(result) {
            here!();
            return Err(Refusal::WrongState);
        }
        match result {
            0 => self.end_well(x),
            LOST => self.end_lost(x),
            ALONE => self.end_alone(x),
            code => self.end_with_error(x, code),
        }
        DONE
    }

    /// A result above 8 that isn't 5.
    fn wrongly_in_range(&self) -> bool {
        made(Mistake::OwnEndAbove8Is4) && !self.on_wire() || made(Mistake::OwnEndAbove8OnWireIs4) && self.on_wire()
    }

    /// A result up to 8 that is 5.
    fn wrongly_out_of_range(&self, result: u8) -> bool {
        match result {
            LOST => made(Mistake::OwnEnd7Unknown),
            ALONE => {
                made(Mistake::OwnEnd8Unknown)
                    || made(Mistake::AloneErrorActiveIs5) && !self.is_error_passive()
                    || made(Mistake::AloneInLoopbackIs5) && self.is_loopback()
                    || made(Mistake::AloneOffWireIs5) && !self.on_wire()
            }
            _ => false,
        }
    }

    /// An own end with none on the wire.
    fn end_of_nothing(&mut self, result: u8) -> Outcome {
        if made(Mistake::AloneOffWireTaken) && result == ALONE && self.can_end_alone() {
            self.count_error(ACKNOWLEDGMENT_ERROR, self.tec, self.rec);
            return DONE;
        }
        Err(Refusal::WrongState)
    }

    /// Can the frame on the wire end so? In loopback nobody has to acknowledge it.
    fn can_end_by(&self, result: u8) -> bool {
        let loopback = self.is_loopback();
        match result {
            0 => !(loopback && self.filters.initializing && made(Mistake::LoopbackFinitRefused)),
            ACKNOWLEDGMENT_ERROR => !loopback || made(Mistake::AckErrorInLoopback),
            LOST => !(loopback && made(Mistake::LostRefusedInLoopback)),
            ALONE => self.can_end_alone(),
            // Above 8 only a wrong variant comes here.
            _ => result < ALONE,
        }
    }

    /// Result 8 is that of an error-passive transmitter.
    fn can_end_alone(&self) -> bool {
        let wrongly = made(Mistake::AloneInLoopback) || made(Mistake::AloneInSilentLoopback) && self.is_silent();
        if self.is_loopback() && !wrongly {
            here!();
            return false;
        }
        let passive = if cfg!(wrong) { self.perhaps_wrongly_passive() } else { self.is_error_passive() };
        if !passive {
            here!();
        }
        passive
    }

    /// EPVF as own end 8 finds it.
    fn perhaps_wrongly_passive(&self) -> bool {
        let most = self.tec.max(self.rec);
        match () {
            () if made(Mistake::AloneWhileErrorActive) => true,
            () if made(Mistake::AlonePassiveByTecOnly) => self.tec >= 128,
            () if made(Mistake::AlonePassiveByRecOnly) => self.rec >= 128,
            () if made(Mistake::AlonePassiveByBoth) => self.tec.min(self.rec) >= 128,
            () if made(Mistake::AlonePassiveFrom127) => most >= 127,
            () if made(Mistake::AlonePassiveFrom129) => most >= 129,
            () if made(Mistake::AlonePassiveAfterEvent) => most.max(self.tec + 8) >= 128,
            () if made(Mistake::AloneByWarning) => self.error_flags() & esr::EWGF != 0,
            () if made(Mistake::AloneInBusOffOnly) => self.is_bus_off(),
            () => self.is_error_passive(),
        }
    }

    fn end_well(&mut self, x: usize) {
        self.transmitter.end_well(x);
        if !made(Mistake::GoodEndKeepsTec) {
            self.tec = self.tec.saturating_sub(1);
        }
        if !made(Mistake::GoodEndKeepsLec) {
            self.lec = 0;
        }
        let finit = match () {
            () if made(Mistake::LoopbackIgnoresFinit) => false,
            () if made(Mistake::FinitTakenAtStart) => recall(Slot::FinitAtStart),
            () => self.filters.initializing,
        };
        if self.is_loopback() && !finit {
            here!();
            let mailbox = self.transmitter.mailbox(x);
            let time = if made(Mistake::LoopbackTakesTimer) { self.timer } else { mailbox.time() };
            let mut frame = mailbox.frame();
            frame.identifier |= made(Mistake::LoopbackStoresTxrq) as u32;
            self.filter_and_store(frame, time);
            if made(Mistake::LoopbackLowersRec) {
                self.count_good_reception();
            }
        } else {
            here!();
        }
    }

    fn end_lost(&mut self, x: usize) {
        here!();
        let single_try = self.single_try() && !made(Mistake::NartOnlyForErrors);
        self.transmitter.end_failed(x, tsr::ALST, single_try);
        if made(Mistake::LostClearsLec) {
            self.lec = 0;
        }
        if made(Mistake::LostCountsAsError) {
            self.count_error(self.lec, self.tec + 8, self.rec);
        }
    }

    fn end_with_error(&mut self, x: usize, code: u8) {
        here!();
        self.transmitter.end_failed(x, tsr::TERR, self.single_try());
        let tec = match code {
            _ if made(Mistake::TecPlusOne) => self.tec + 1,
            _ if made(Mistake::TecStopsAt256) => (self.tec + 8).min(256),
            ACKNOWLEDGMENT_ERROR if made(Mistake::AckLeavesTecWhenPassive) && self.is_error_passive() => self.tec,
            _ => self.tec + 8,
        };
        self.count_error(code, tec, self.rec);
    }

    /// Nobody acknowledged, and no dominant bit came during the passive error
    /// flag: all that an acknowledgment error does, but TEC stays.
    fn end_alone(&mut self, x: usize) {
        here!();
        self.transmitter.end_alone(x, self.single_try());
        if cfg!(wrong) {
            return self.count_alone_perhaps_wrongly();
        }
        self.count_error(ACKNOWLEDGMENT_ERROR, self.tec, self.rec);
    }

    fn count_alone_perhaps_wrongly(&mut self) {
        let (old_flags, old_code) = (self.flags, self.lec);
        let tec = match () {
            () if made(Mistake::AloneRaisesTec) => self.tec + 8,
            () if made(Mistake::AloneAdds1ToTec) => self.tec + 1,
            () if made(Mistake::AloneLowersTec) => self.tec.saturating_sub(1),
            () if made(Mistake::AloneRaisesTecBelow128) && self.tec < 128 => self.tec + 8,
            () if made(Mistake::AloneTecAtMost128) => self.tec.min(128),
            () => self.tec,
        };
        let rec = if made(Mistake::AloneRaisesRec) { (self.rec + 8).min(REC_MOST) } else { self.rec };
        let code = match () {
            () if made(Mistake::AloneLecMasked) => ALONE & 7,
            () if made(Mistake::AloneLecIs8) => ALONE,
            () if made(Mistake::AloneLec7) => LEC_BY_SOFTWARE,
            () if made(Mistake::AloneKeepsLec) => self.lec,
            () => ACKNOWLEDGMENT_ERROR,
        };
        self.count_error(code, tec, rec);
        let known = made(Mistake::AloneErriByNewCodeOnly) && old_code == ACKNOWLEDGMENT_ERROR;
        if made(Mistake::AloneWithoutErri) || known {
            self.flags = old_flags;
        }
        if made(Mistake::AloneAlwaysErri) {
            self.flags |= msr::ERRI;
        }
    }

    fn single_try(&self) -> bool {
        if made(Mistake::NartTakenAtStart) {
            return recall(Slot::NartAtStart);
        }
        self.option(mcr::NART)
    }

    fn accept_frame(&mut self, frame: Frame) -> Outcome {
        let word = frame.identifier;
        let most = if made(Mistake::LengthAbove8Refused) { 8 } else { 15 };
        let bit_0 = word & 1 != 0 && !made(Mistake::FrameBit0Ignored);
        let stray =
            word & identifier::IDE == 0 && word & identifier::LOW != 0 && !made(Mistake::StandardExtendedBitsIgnored);
        if made(Mistake::FrameStateBeforeRange) && !self.can_receive(false) {
            return Err(Refusal::WrongState);
        }
        if bit_0 || stray || frame.length > most {
            here!();
            return Err(Refusal::OutOfRange);
        }
        if !self.can_receive(made(Mistake::FrameWithFinit)) {
            here!();
            return Err(Refusal::WrongState);
        }
        let taken = self.filter_and_store(frame, if made(Mistake::FrameTimeZero) { 0 } else { self.timer });
        if taken || !made(Mistake::UntakenFrameLeavesErrors) {
            self.count_good_reception();
            self.lec &= if made(Mistake::FrameKeepsLec) { 7 } else { 0 };
        }
        DONE
    }

    fn can_receive(&self, wrongly_with_finit: bool) -> bool {
        self.mode == Mode::Normal
            && (!self.is_bus_off() || made(Mistake::FrameInBusOff))
            && !self.on_wire()
            && (!self.is_loopback() || made(Mistake::FrameInLoopback))
            && (!self.filters.initializing || wrongly_with_finit)
            && !(self.is_silent() && made(Mistake::FrameRefusedInSilent))
    }

    fn accept_receive_error(&mut self, code: u8, step: u8) -> Outcome {
        let last_code = if made(Mistake::RecErrorCode7) { 7 } else { 6 };
        let step_known = matches!(step, 1 | 8) || made(Mistake::RecStepOfAnySize);
        if made(Mistake::ReceiveErrorStateBeforeRange) && !self.can_receive(false) {
            return Err(Refusal::WrongState);
        }
        if !(1..=last_code).contains(&code) || !step_known {
            here!();
            return Err(Refusal::OutOfRange);
        }
        if !self.can_receive(made(Mistake::RecErrorWithFinit)) {
            here!();
            return Err(Refusal::WrongState);
        }
        let raised = self.rec + step as u16;
        let rec = match () {
            () if made(Mistake::RecStopsAt254) => raised.min(254),
            () if made(Mistake::RecStopsAt128) => raised.min(128),
            () if made(Mistake::RecWraps) => raised & 0xFF,
            () => raised.min(REC_MOST),
        };
        self.count_error(code, self.tec, rec);
        DONE
    }

    /// Passes a frame through the filters; true if one takes it.
    fn filter_and_store(&mut self, frame: Frame, time: u16) -> bool {
        let hit = match self.filters.search(frame.identifier) {
            Some(hit) => hit,
            None => {
                here!();
                return false;
            }
        };
        let stored = frame.as_stored(hit.number, time);
        self.fifos[hit.fifo].store(stored, self.option(mcr::RFLM));
        true
    }
}

/// Error counters.
impl Controller {
    fn count_good_reception(&mut self) {
        let limit = if made(Mistake::RecFrom128To120) { 127 } else { 128 };
        if self.rec > limit && !made(Mistake::RecNever120) {
            here!();
            self.rec = if made(Mistake::RecTo119) { 119 } else { 120 };
        } else {
            here!();
            self.rec = self.rec.saturating_sub(1);
        }
    }

    /// EWGF, EPVF and BOFF.
    fn error_flags(&self) -> u32 {
        let warning = match () {
            () if made(Mistake::WarningAt95) => 95,
            () if made(Mistake::WarningAt97) => 97,
            () => 96,
        };
        let passive = match () {
            () if made(Mistake::PassiveAt127) => 127,
            () if made(Mistake::PassiveAt129) => 129,
            () => 128,
        };
        let most = self.tec.max(self.rec);
        let for_warning = if made(Mistake::WarningByTecOnly) { self.tec } else { most };
        let for_passive = if made(Mistake::PassiveByRecOnly) { self.rec } else { most };
        let bit = |flag: bool, place: u32| if flag { place } else { 0 };
        bit(for_warning >= warning, esr::EWGF)
            | bit(for_passive >= passive, esr::EPVF)
            | bit(self.is_bus_off(), esr::BOFF)
    }

    /// An error was detected: the counters and LEC take their new values, a
    /// flag that rises or the code itself may set ERRI, and bus-off may begin.
    fn count_error(&mut self, code: u8, tec: u16, rec: u16) {
        let before = self.error_flags();
        let (old_tec, old_rec, old_code) = (self.tec, self.rec, self.lec);
        (self.tec, self.rec, self.lec) = (tec, rec, code);
        let after = self.error_flags();
        let mut rising = after & !before;
        let mut coded = true;
        if cfg!(wrong) {
            rising = self.wrongly_rising(before, after, old_tec, old_rec);
            coded = !(made(Mistake::ErriNotOnSameCode) && old_code == code);
        }
        let enabled = self.ier >> ier::ERROR_FLAGS_PLACE & 7;
        let deaf = made(Mistake::ErriNeedsErrie) && self.ier & ier::ERRIE == 0;
        if (rising & enabled != 0 || coded && self.ier & ier::LECIE != 0) && !deaf {
            here!();
            self.flags |= msr::ERRI;
        } else {
            here!();
        }
        if after & !before & esr::BOFF != 0 {
            here!();
            self.enter_bus_off();
        }
    }

    fn wrongly_rising(&self, before: u32, after: u32, old_tec: u16, old_rec: u16) -> u32 {
        let crossed = |limit: u16| old_tec < limit && self.tec >= limit || old_rec < limit && self.rec >= limit;
        match () {
            () if made(Mistake::ErriWhileFlagStands) => after,
            () if made(Mistake::ErriByEachCounter) => {
                crossed(96) as u32 | (crossed(128) as u32) << 1 | after & !before & esr::BOFF
            }
            () => after & !before,
        }
    }

    fn enter_bus_off(&mut self) {
        self.recovery_count = 0;
        self.initialized_since_bus_off &= made(Mistake::InitBeforeBusOffSuffices);
        if made(Mistake::BusOffDropsRequests) {
            self.transmitter.drop_requests();
        }
        if made(Mistake::InitInBusOffStepIgnored) && self.mcr & (mcr::INRQ | mcr::SLEEP) == mcr::INRQ {
            self.mode = Mode::Initialization;
        }
    }
}
