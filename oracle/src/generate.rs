//! Scripts by seed. A controller runs beside the generator, so that most
//! steps are accepted and the corners are reached on purpose.

use crate::controller::{Answer, Controller, Mode};
use crate::fields::named_bits;
use crate::fifo::Frame;
use crate::registers::{btr, ier, mcr, Register, BANKS, FIFOS, FILTER_WORD, MAILBOXES};
use crate::rng::Rng;
use crate::script::Step;

/// Offsets by name, as the scripts use them.
mod at {
    pub const MCR: u16 = 0x00;
    pub const MSR: u16 = 0x04;
    pub const TSR: u16 = 0x08;
    pub const RF0R: u16 = 0x0C;
    pub const IER: u16 = 0x14;
    pub const ESR: u16 = 0x18;
    pub const BTR: u16 = 0x1C;
    pub const FMR: u16 = 0x200;
    pub const FM1R: u16 = 0x204;
    pub const FS1R: u16 = 0x20C;
    pub const FFA1R: u16 = 0x214;
    pub const FA1R: u16 = 0x21C;

    pub fn mailbox(x: usize, word: u16) -> u16 {
        0x180 + 0x10 * x as u16 + 4 * word
    }

    pub fn output(x: usize, word: u16) -> u16 {
        0x1B0 + 0x10 * x as u16 + 4 * word
    }

    pub fn status(x: usize) -> u16 {
        RF0R + 4 * x as u16
    }

    pub fn bank(bank: usize, half: u16) -> u16 {
        0x240 + 8 * bank as u16 + 4 * half
    }
}

#[derive(Clone, Copy, PartialEq, Eq, Debug)]
pub enum Kind {
    Mix,
    Transmit,
    Filters,
    Receive,
    Errors,
    Recovery,
    Modes,
    Registers,
    Loopback,
    Wild,
    Requests,
    FramesOnly,
    RegistersOnly,
    RegistersAccepted,
    MixInterrupts,
    Any,
    Search(Lesson),
}

/// A lesson with 56 filters, all banks 16-bit lists, in which only frames come.
#[derive(Clone, Copy, PartialEq, Eq, Debug)]
pub struct Lesson {
    /// FFA1R.
    assignment: u32,
    /// FA1R.
    activation: u32,
    sought: Sought,
}

/// The filter that a lesson's frames match.
#[derive(Clone, Copy, PartialEq, Eq, Debug)]
enum Sought {
    First,
    /// The last one of bank 12.
    Late,
    /// The last one of bank 13.
    Last,
    Any,
    None,
}

impl Lesson {
    const fn one_fifo(sought: Sought) -> Kind {
        Kind::Search(Lesson { assignment: 0, activation: FILTER_WORD, sought })
    }

    /// Even banks in FIFO 0, odd ones in FIFO 1.
    const fn both_fifos(sought: Sought) -> Kind {
        Kind::Search(Lesson { assignment: 0x2AAA, activation: FILTER_WORD, sought })
    }

    const fn inactive() -> Kind {
        Kind::Search(Lesson { assignment: 0, activation: 0, sought: Sought::None })
    }
}

/// The filters of a lesson take the standard identifiers from this one on.
const LESSON_IDENTIFIERS: u32 = 0x100;
const LESSON_FILTERS: u32 = 4 * BANKS as u32;

pub const KINDS: [(&str, Kind); 26] = [
    ("mix", Kind::Mix),
    ("transmit", Kind::Transmit),
    ("filters", Kind::Filters),
    ("receive", Kind::Receive),
    ("errors", Kind::Errors),
    ("recovery", Kind::Recovery),
    ("modes", Kind::Modes),
    ("registers", Kind::Registers),
    ("loopback", Kind::Loopback),
    ("wild", Kind::Wild),
    ("requests", Kind::Requests),
    ("frames-only", Kind::FramesOnly),
    ("registers-only", Kind::RegistersOnly),
    ("registers-accepted", Kind::RegistersAccepted),
    ("mix-interrupts", Kind::MixInterrupts),
    ("any", Kind::Any),
    ("search-one-first", Lesson::one_fifo(Sought::First)),
    ("search-one-last", Lesson::one_fifo(Sought::Last)),
    ("search-one-any", Lesson::one_fifo(Sought::Any)),
    ("search-one-none", Lesson::one_fifo(Sought::None)),
    ("search-both-first", Lesson::both_fifos(Sought::First)),
    ("search-both-late", Lesson::both_fifos(Sought::Late)),
    ("search-both-last", Lesson::both_fifos(Sought::Last)),
    ("search-both-any", Lesson::both_fifos(Sought::Any)),
    ("search-both-none", Lesson::both_fifos(Sought::None)),
    ("search-inactive", Lesson::inactive()),
];

/// The kinds that `mix` goes through.
pub const PARTS: [Kind; 9] = [
    Kind::Transmit,
    Kind::Filters,
    Kind::Receive,
    Kind::Errors,
    Kind::Recovery,
    Kind::Modes,
    Kind::Registers,
    Kind::Loopback,
    Kind::Wild,
];

impl Kind {
    pub fn by_name(name: &str) -> Option<Kind> {
        KINDS.iter().find(|(known, _)| *known == name).map(|&(_, kind)| kind)
    }
}

/// A script of exactly `records` well-formed records, the first a reset.
pub fn generate(seed: u64, records: u64, kind: Kind) -> Vec<u8> {
    let mut generator = Generator {
        rng: Rng::new(seed ^ 0xB5C0_FBCF_EC4D_3B2F),
        bench: Controller::at_reset(),
        script: Vec::with_capacity(records as usize * 10),
        left: records,
        pool: Vec::new(),
        observing: 60,
        interrupts: kind == Kind::MixInterrupts,
        accepted_only: kind == Kind::RegistersAccepted,
    };
    generator.emit(Step::Reset);
    generator.new_pool();
    match kind {
        Kind::Requests => generator.many_requests(),
        Kind::FramesOnly => generator.frames_only(),
        Kind::RegistersOnly | Kind::RegistersAccepted => generator.registers_only(),
        Kind::Mix | Kind::MixInterrupts => generator.mix(),
        Kind::Any => generator.any_steps(),
        Kind::Search(lesson) => generator.lesson(lesson),
        kind => generator.one_kind(kind),
    }
    generator.script
}

struct Generator {
    rng: Rng,
    bench: Controller,
    script: Vec<u8>,
    left: u64,
    /// Identifier words that tie or nearly tie; mailboxes, frames and filters use them.
    pool: Vec<u32>,
    /// How often, in percent, a step is followed by a read of what it touches.
    observing: u64,
    /// IER is written after each hardware reset, and never as 0.
    interrupts: bool,
    /// Steps that would be refused are left out.
    accepted_only: bool,
}

/// Emitting and looking.
impl Generator {
    fn emit(&mut self, step: Step) -> Answer {
        match step {
            Step::Write(at::IER, word) if self.interrupts && word & ier::WRITABLE == 0 => {
                self.append(Step::Write(at::IER, word | ier::WRITABLE))
            }
            Step::Reset if self.interrupts => {
                let answer = self.append(Step::Reset);
                self.append(Step::Write(at::IER, ier::WRITABLE));
                answer
            }
            step => self.append(step),
        }
    }

    fn append(&mut self, step: Step) -> Answer {
        if self.left == 0 || self.accepted_only && step.apply(&mut self.bench.clone()).code != 0 {
            return Answer { code: 0xFF, ..Answer::default() };
        }
        self.left -= 1;
        step.encode(&mut self.script);
        step.apply(&mut self.bench)
    }

    fn done(&self) -> bool {
        self.left == 0
    }

    /// Emits a step and often a read that shows what it did.
    fn step(&mut self, step: Step) -> Answer {
        let answer = self.emit(step);
        if self.rng.percent(self.observing) {
            self.observe(step);
        }
        answer
    }

    fn read(&mut self, offset: u16) -> Answer {
        self.emit(Step::Read(offset))
    }

    fn write(&mut self, offset: u16, word: u32) -> Answer {
        self.step(Step::Write(offset, word))
    }

    fn observe(&mut self, step: Step) {
        let fifo = self.rng.below(2) as usize;
        let output = at::output(fifo, self.rng.below(4) as u16);
        let mailbox = at::mailbox(self.rng.below(3) as usize, self.rng.below(4) as u16);
        let rng = &mut self.rng;
        let offset = match step {
            Step::Write(offset, _) if rng.percent(50) => rng.pick(&[offset]),
            Step::Write(at::MCR, _) | Step::Idle | Step::Activity => {
                rng.pick(&[at::MSR, at::MSR, at::MCR, at::ESR, at::TSR])
            }
            Step::Start | Step::OwnEnd(_) => {
                rng.pick(&[at::TSR, at::TSR, at::ESR, at::MSR, mailbox, output, at::status(fifo)])
            }
            Step::Frame(_) => rng.pick(&[at::status(fifo), output, output, at::ESR, at::MSR]),
            Step::ReceiveError { .. } => rng.pick(&[at::ESR, at::MSR]),
            _ => rng.pick(&[at::TSR, at::MSR, at::ESR, at::MCR, at::IER, at::status(fifo), output, mailbox]),
        };
        self.read(offset);
    }

    /// Reads every register once.
    fn sweep(&mut self) {
        for offset in (0..0x2B0).step_by(4) {
            if Register::at(offset).is_some() {
                self.read(offset);
            }
        }
    }

    /// Reads an output mailbox whole and releases it, until the FIFO is empty.
    fn drain(&mut self, fifo: usize) {
        while self.bench.fifo(fifo).pending() > 0 && !self.done() {
            for word in 0..4 {
                self.read(at::output(fifo, word));
            }
            self.emit(Step::Write(at::status(fifo), 0x20));
            self.read(at::status(fifo));
        }
    }
}

/// Identifiers, lengths, words.
impl Generator {
    fn new_pool(&mut self) {
        let top = self.rng.pick(&[0u32, 1, 2, 0x100, 0x3FF, 0x7FE, 0x7FF, 0x123, 0x400]);
        let top = if self.rng.percent(40) { self.rng.below(2048) as u32 } else { top };
        let low = if self.rng.percent(30) { self.rng.below(1 << 18) as u32 } else { self.rng.below(3) as u32 };
        let standard = |top: u32, rtr: u32| (top & 0x7FF) << 21 | rtr << 1;
        let extended = |top: u32, low: u32, rtr: u32| (top & 0x7FF) << 21 | (low & 0x3FFFF) << 3 | 4 | rtr << 1;
        self.pool = vec![
            standard(top, 0),
            standard(top, 1),
            extended(top, low, 0),
            extended(top, low, 1),
            extended(top, low + 1, 0),
            extended(top, low ^ 0x8000, 0),
            extended(top, low ^ 0x20000, self.rng.below(2) as u32),
            standard(top + 1, 0),
            extended(top.wrapping_sub(1), 0x3FFFF, 0),
            extended(top >> 7, top << 11, 0),
        ];
    }

    /// Keeps two or three words of the pool, so that ties are common.
    fn shrink_pool(&mut self) {
        let words = self.rng.within(2, 3);
        self.pool = (0..words).map(|_| self.pool_word()).collect();
    }

    fn pool_word(&mut self) -> u32 {
        let index = self.rng.below(self.pool.len() as u64) as usize;
        self.pool[index]
    }

    /// An identifier word for a mailbox; a standard one may have stray EXID bits.
    fn mailbox_identifier(&mut self) -> u32 {
        let word = if self.rng.percent(90) { self.pool_word() } else { self.rng.word() & !1 };
        if word & 4 == 0 && self.rng.percent(30) {
            return word | self.rng.word() & 0x001F_FFF8;
        }
        word
    }

    fn length(&mut self) -> u8 {
        match self.rng.below(10) {
            0..=5 => self.rng.within(0, 8) as u8,
            6 => 8,
            7 => 9,
            _ => self.rng.within(9, 15) as u8,
        }
    }

    fn frame(&mut self) -> Frame {
        let mut identifier = if self.rng.percent(85) { self.pool_word() } else { self.rng.word() & !1 };
        if identifier & 4 == 0 {
            identifier &= 0xFFE0_0002;
        }
        self.frame_with(identifier)
    }

    fn frame_with(&mut self, identifier: u32) -> Frame {
        Frame { identifier, length: self.length(), data: self.rng.next() }
    }

    /// A frame that is out of range in one way or another.
    fn bad_frame(&mut self) -> Frame {
        let mut frame = self.frame();
        match self.rng.below(4) {
            0 => frame.identifier |= 1,
            1 => frame.identifier = frame.identifier & !4 | 8 << self.rng.below(18),
            2 => frame.length = 16,
            _ => frame.length = self.rng.within(16, 255) as u8,
        }
        frame
    }

    /// Any offset: mostly registers, some near misses.
    fn offset(&mut self) -> u16 {
        match self.rng.below(12) {
            0..=1 => self.rng.within(0, 7) as u16 * 4,
            2..=3 => 0x180 + self.rng.within(0, 19) as u16 * 4,
            4 => self.rng.pick(&[at::FMR, at::FM1R, at::FS1R, at::FFA1R, at::FA1R]),
            5..=6 => 0x240 + self.rng.within(0, 27) as u16 * 4,
            7 => self.bad_offset(),
            _ => self.rng.pick(&[at::MCR, at::MSR, at::TSR, at::ESR, at::IER, at::RF0R, 0x10, at::BTR]),
        }
    }

    fn bad_offset(&mut self) -> u16 {
        let near = [
            0x20, 0x24, 0x17C, 0x1D0, 0x1FC, 0x208, 0x210, 0x218, 0x220, 0x224, 0x23C, 0x2B0, 0x2B4, 0x31C, 0x320,
            0x400, 0x1000, 0x8000, 0xFFFC,
        ];
        match self.rng.below(4) {
            0..=1 => self.rng.pick(&near),
            2 => (self.rng.word() as u16) | self.rng.within(1, 3) as u16,
            _ => self.rng.within(0, 0x2AC) as u16 & !3 | self.rng.within(1, 3) as u16,
        }
    }

    /// A word to write: random, sparse, dense or plain.
    fn any_word(&mut self) -> u32 {
        match self.rng.below(5) {
            0 => self.rng.word(),
            1 => 1 << self.rng.below(32),
            2 => self.rng.word() & self.rng.word() & self.rng.word(),
            3 => u32::MAX,
            _ => 0,
        }
    }
}

/// Modes and options.
impl Generator {
    /// Writes MCR with these mode requests and the present options.
    fn request_mode(&mut self, requests: u32) {
        let options = self.bench.mcr() & !(mcr::INRQ | mcr::SLEEP);
        let stray = if self.rng.percent(10) { self.rng.word() & 0xFFFE_7F00 } else { 0 };
        self.write(at::MCR, options | requests | stray);
    }

    /// Flips or sets some of the options of MCR, mode requests unchanged.
    fn set_options(&mut self, options: u32, value: u32) {
        let word = self.bench.mcr() & !options | value & options;
        self.write(at::MCR, word);
    }

    fn shuffle_options(&mut self, options: u32) {
        let value = self.rng.word();
        self.set_options(options, value);
    }

    fn free_the_wire(&mut self) {
        if !self.bench.on_wire() {
            return;
        }
        let result = self.rng.pick(&[0, 0, 0, 1, 7]);
        self.step(Step::OwnEnd(result));
    }

    fn go_normal(&mut self) {
        self.free_the_wire();
        if self.bench.mcr() & (mcr::INRQ | mcr::SLEEP) != 0 {
            self.request_mode(0);
        }
        if self.bench.mode() != Mode::Normal {
            self.step(Step::Idle);
        }
    }

    fn go_initialization(&mut self) {
        self.free_the_wire();
        if self.bench.mode() != Mode::Initialization {
            self.request_mode(mcr::INRQ);
        }
    }

    /// Into Normal, out of bus-off.
    fn go_on_the_bus(&mut self) {
        if self.bench.is_bus_off() {
            if self.rng.percent(60) {
                self.emit(Step::Reset);
            } else {
                self.set_options(mcr::ABOM, mcr::ABOM);
                self.go_normal();
                self.idles(128);
            }
        }
        self.go_normal();
    }

    /// Silent and loopback bits, by way of Initialization.
    fn set_test_mode(&mut self, bits: u32) {
        self.go_initialization();
        let timing = if self.rng.percent(50) { 0x0123_0000 } else { self.rng.word() & 0x3FFF_FFFF };
        self.write(at::BTR, timing | bits);
    }

    fn leave_loopback(&mut self) {
        if self.bench.is_loopback() || self.bench.is_silent() && self.rng.percent(70) {
            self.set_test_mode(0);
        }
        self.go_normal();
    }

    /// Enables all kinds of interrupts, or some, or none.
    fn set_enables(&mut self) {
        let word = match self.rng.below(5) {
            0 => u32::MAX,
            1 => 0,
            2 => self.rng.word(),
            3 => self.rng.word() & (0x0F00 | ier::ERRIE),
            _ => 1 << self.rng.below(18) | 1 << self.rng.below(18) | ier::ERRIE,
        };
        self.write(at::IER, word);
    }

    /// So many idle events, looked at only near the end of a recovery.
    fn idles(&mut self, count: u64) {
        self.idles_after(0, count);
    }

    /// As `idles`; also looks where a recovery ends that had `before` idles already.
    fn idles_after(&mut self, before: u64, count: u64) {
        for number in 1..=count {
            self.emit(Step::Idle);
            let near = |end: u64| number + 2 >= end && number <= end + 2;
            if number == count || near(128) || near(128 - before) {
                self.read(at::ESR);
            }
            if self.done() {
                return;
            }
        }
    }
}

/// Filters.
impl Generator {
    /// Writes a whole filter configuration and leaves FINIT as asked.
    fn configure_filters(&mut self, finit_after: bool) {
        self.write(at::FMR, self.bench_finit_word(true));
        let uniform = self.rng.percent(30);
        if uniform {
            self.shrink_pool();
        }
        let mode = if uniform { self.rng.pick(&[0, 0x3FFF]) } else { self.configuration_word() };
        let scale = if uniform { self.rng.pick(&[0, 0x3FFF]) } else { self.configuration_word() };
        let assignment = if uniform { self.rng.word() } else { self.configuration_word() };
        self.write(at::FM1R, mode);
        self.write(at::FS1R, scale);
        self.write(at::FFA1R, assignment);
        for bank in 0..BANKS {
            if self.rng.percent(70) {
                self.set_bank(bank, scale >> bank & 1 != 0, mode >> bank & 1 != 0);
            }
        }
        let activation = match self.rng.below(4) {
            0 => 0x3FFF,
            1 => 1 << self.rng.below(14) | 1 << self.rng.below(14),
            _ => self.rng.word(),
        };
        self.write(at::FA1R, activation);
        if !finit_after {
            self.write(at::FMR, self.bench_finit_word(false));
        }
    }

    /// 16-bit lists of two or three identifiers in all, so that both FIFOs have
    /// a match and the lower number decides.
    fn configure_rivals(&mut self) {
        self.shrink_pool();
        let assignment = self.rng.word();
        self.write(at::FMR, 1);
        self.write(at::FM1R, FILTER_WORD);
        self.write(at::FS1R, 0);
        self.write(at::FFA1R, assignment);
        (0..BANKS).for_each(|bank| self.set_bank(bank, false, true));
        self.write(at::FA1R, FILTER_WORD);
        self.write(at::FMR, 0);
    }

    /// FMR's fixed bits written at random have no effect.
    fn bench_finit_word(&self, finit: bool) -> u32 {
        let noise = (self.left as u32).wrapping_mul(0x9E37_79B1) & !1;
        noise | finit as u32
    }

    fn configuration_word(&mut self) -> u32 {
        match self.rng.below(6) {
            0 => 0,
            1 => 0x3FFF,
            2 => u32::MAX,
            _ => self.rng.word(),
        }
    }

    fn set_bank(&mut self, bank: usize, wide: bool, list: bool) {
        for half in 0..2 {
            let word = match (wide, list, half) {
                (true, false, 1) => self.wide_mask(),
                (true, ..) => self.wide_value(),
                (false, true, _) => self.narrow_value() | self.narrow_value() << 16,
                (false, false, _) => self.narrow_value() | self.narrow_mask() << 16,
            };
            self.emit(Step::Write(at::bank(bank, half), word));
        }
    }

    fn wide_value(&mut self) -> u32 {
        let word = self.pool_word();
        if self.rng.percent(12) {
            return word | 1;
        }
        word
    }

    fn wide_mask(&mut self) -> u32 {
        let word = self.rng.word();
        self.rng.pick(&[0, u32::MAX, !1, 0xFFE0_0000, 0xFFE0_0004, 4, 2, 1, word])
    }

    fn narrow_value(&mut self) -> u32 {
        let word = self.pool_word();
        word >> 21 << 5 | (word >> 1 & 1) << 4 | (word >> 2 & 1) << 3 | word >> 18 & 7
    }

    fn narrow_mask(&mut self) -> u32 {
        let word = self.rng.word() & 0xFFFF;
        self.rng.pick(&[0, 0xFFFF, 0xFFFF, 0xFFE0, 0xFFF8, 7, 8, 16, word])
    }

    /// One bank in each FIFO, or in one, that takes everything.
    fn accept_all(&mut self) {
        self.emit(Step::Write(at::FMR, 1));
        let scale = self.rng.word() & 0x3FFF;
        let assignment = self.rng.word();
        let bank = self.rng.below(BANKS as u64) as usize;
        self.emit(Step::Write(at::FM1R, 0));
        self.emit(Step::Write(at::FS1R, scale));
        self.emit(Step::Write(at::FFA1R, assignment));
        self.emit(Step::Write(at::bank(bank, 0), 0));
        self.emit(Step::Write(at::bank(bank, 1), 0));
        self.emit(Step::Write(at::FA1R, 1 << bank));
        self.emit(Step::Write(at::FMR, 0));
    }

    /// Writes to filter words that FINIT and activation may forbid.
    fn try_filter_writes(&mut self) {
        let bank = self.rng.below(BANKS as u64) as usize;
        let half = self.rng.below(2) as u16;
        let offset = self.rng.pick(&[at::FM1R, at::FS1R, at::FFA1R, at::FA1R, at::FMR, at::bank(bank, half)]);
        let word = self.any_word();
        self.step(Step::Write(offset, word));
    }
}

/// Transmission.
impl Generator {
    fn empty_mailbox(&mut self) -> Option<usize> {
        let first = self.rng.below(3) as usize;
        (0..MAILBOXES).map(|k| (first + k) % MAILBOXES).find(|&x| self.bench.transmitter().mailbox(x).is_empty())
    }

    /// Fills an empty mailbox and requests its transmission.
    fn request(&mut self) {
        let x = match self.empty_mailbox() {
            Some(x) => x,
            None => return,
        };
        if self.rng.percent(35) {
            let control = self.rng.word() & 0xFFFF_FFF0 | self.length() as u32;
            self.write(at::mailbox(x, 1), control);
        }
        for word in 2..4 {
            if self.rng.percent(25) {
                let data = self.rng.word();
                self.write(at::mailbox(x, word), data);
            }
        }
        let identifier = self.mailbox_identifier();
        if self.rng.percent(8) {
            self.write(at::mailbox(x, 0), identifier);
        }
        self.write(at::mailbox(x, 0), identifier | 1);
    }

    /// A request by the shortest way.
    fn quick_request(&mut self) {
        if let Some(x) = self.empty_mailbox() {
            let identifier = self.mailbox_identifier();
            self.emit(Step::Write(at::mailbox(x, 0), identifier | 1));
        }
    }

    fn any_pending(&self) -> bool {
        self.bench.transmitter().first(true).is_some()
    }

    fn own_result(&mut self) -> u8 {
        match self.rng.below(12) {
            0..=4 => 0,
            5..=6 => 7,
            7 => 8,
            8 => 9,
            9 => self.rng.within(10, 255) as u8,
            _ => self.rng.within(1, 6) as u8,
        }
    }

    /// Aborts some mailboxes and clears some flags, in one write.
    fn write_tsr(&mut self) {
        let mut word = 0;
        for x in 0..MAILBOXES {
            let byte = match self.rng.below(6) {
                0 => 0x80,
                1 => 0x80 | self.rng.word() & 0x0F,
                2 => 1 << self.rng.below(4),
                3 => self.rng.word() & 0xFF,
                _ => 0,
            };
            word |= byte << (8 * x);
        }
        let stray = if self.rng.percent(20) { self.rng.word() & 0xFF70_7070 } else { 0 };
        self.write(at::TSR, word | stray);
    }

    fn transmit_step(&mut self) {
        let wire = self.bench.on_wire();
        match self.rng.below(20) {
            0..=6 => self.request(),
            7..=12 if wire => {
                let result = self.own_result();
                self.step(Step::OwnEnd(result));
            }
            7..=12 if self.any_pending() => {
                self.step(Step::Start);
            }
            13..=14 => self.write_tsr(),
            15 => self.shuffle_options(mcr::TXFP | mcr::NART),
            16 => self.write_busy_mailbox(),
            17 if wire => self.abort_on_wire(),
            17 => {
                self.step(Step::Start);
            }
            18 => {
                let count = self.rng.within(1, 300) as u16;
                self.step(Step::BitTimes(count));
            }
            _ => {
                let result = self.own_result();
                self.step(Step::OwnEnd(result));
            }
        }
    }

    /// Aborts the frame on the wire and ends it, with either setting of NART.
    fn abort_on_wire(&mut self) {
        let x = match self.bench.transmitter().on_wire() {
            Some(x) => x,
            None => return,
        };
        self.write(at::TSR, 0x80 << (8 * x));
        if self.rng.percent(40) {
            self.shuffle_options(mcr::NART);
        }
        let result = self.rng.below(9) as u8;
        self.step(Step::OwnEnd(result));
        self.read(at::TSR);
    }

    /// A write to any mailbox word, empty or not.
    fn write_busy_mailbox(&mut self) {
        let offset = at::mailbox(self.rng.below(3) as usize, self.rng.below(4) as u16);
        let word = self.rng.word();
        self.step(Step::Write(offset, word));
    }

    /// Three requests and their order to the end, no option changed.
    fn drive_three(&mut self) {
        self.go_on_the_bus();
        while self.empty_mailbox().is_some() && !self.done() {
            self.quick_request();
            self.read(at::TSR);
        }
        while self.any_pending() && !self.done() {
            let answer = self.emit(Step::Start);
            if answer.code != 0 {
                return;
            }
            self.read(at::TSR);
            if self.rng.percent(15) {
                self.abort_on_wire();
                continue;
            }
            let result = self.rng.pick(&[0, 0, 0, 7, 1]);
            self.emit(Step::OwnEnd(result));
            self.read(at::TSR);
            if self.rng.percent(25) {
                self.quick_request();
            }
        }
    }

    fn transmit_part(&mut self) {
        self.new_pool();
        self.leave_loopback();
        self.go_on_the_bus();
        self.shuffle_options(mcr::TXFP | mcr::NART | mcr::TTCM);
        if self.rng.percent(30) {
            self.set_enables();
        }
        for _ in 0..self.rng.within(1, 4) {
            self.new_pool();
            if self.rng.percent(60) {
                self.shrink_pool();
            }
            self.drive_three();
        }
        for _ in 0..self.rng.within(10, 60) {
            self.transmit_step();
        }
    }
}

/// Reception.
impl Generator {
    /// A frame from the bus, and what it left.
    fn receive(&mut self) {
        let frame = self.frame();
        self.step(Step::Frame(frame));
        if self.rng.percent(30) {
            self.read(at::status(0));
            self.read(at::status(1));
        }
    }

    fn filters_part(&mut self) {
        self.new_pool();
        self.leave_loopback();
        self.go_on_the_bus();
        let finit_stays = self.rng.percent(8);
        match self.rng.percent(10) {
            true => self.configure_rivals(),
            false => self.configure_filters(finit_stays),
        }
        for _ in 0..self.rng.within(6, 30) {
            match self.rng.below(20) {
                0..=1 => (0..4).for_each(|_| self.try_filter_writes()),
                2 => self.shuffle_activation(),
                3 => {
                    let frame = self.bad_frame();
                    self.step(Step::Frame(frame));
                }
                _ => self.receive(),
            }
            if self.rng.percent(70) {
                self.drain(0);
                self.drain(1);
            }
        }
    }

    fn shuffle_activation(&mut self) {
        let word = self.bench.filters().activation() ^ 1 << self.rng.below(14);
        self.write(at::FA1R, word);
    }

    fn receive_part(&mut self) {
        self.new_pool();
        self.leave_loopback();
        self.go_on_the_bus();
        if self.rng.percent(70) {
            self.accept_all();
        }
        self.shuffle_options(mcr::RFLM | mcr::TTCM);
        if self.rng.percent(50) {
            self.set_enables();
        }
        for _ in 0..self.rng.within(10, 50) {
            match self.rng.below(16) {
                0..=8 => self.receive(),
                9..=11 => self.write_fifo_status(),
                12 => self.shuffle_options(mcr::RFLM | mcr::TTCM),
                13 => {
                    let fifo = self.rng.below(FIFOS as u64) as usize;
                    self.drain(fifo);
                }
                14 => {
                    let count = self.rng.pick(&[1, 2, 1000, 30000, 65535, 65534]);
                    self.step(Step::BitTimes(count));
                }
                _ => {
                    let frame = self.bad_frame();
                    self.step(Step::Frame(frame));
                }
            }
        }
    }

    fn write_fifo_status(&mut self) {
        let fifo = self.rng.below(FIFOS as u64) as usize;
        let word = match self.rng.below(6) {
            0 => 0x08,
            1 => 0x10,
            2 => 0x18,
            3 => self.rng.word(),
            _ => 0x20,
        };
        self.write(at::status(fifo), word);
    }
}

/// Errors, bus-off and recovery.
impl Generator {
    /// One own frame from request to its end.
    fn own_frame(&mut self, result: u8) {
        self.put_on_wire();
        self.step(Step::OwnEnd(result));
    }

    /// A start, and a request before it where none waits.
    fn put_on_wire(&mut self) {
        if !self.any_pending() && !self.bench.on_wire() {
            self.quick_request();
        }
        if !self.bench.on_wire() {
            self.emit(Step::Start);
        }
    }

    fn error_code(&mut self) -> u8 {
        if self.bench.is_loopback() {
            return self.rng.pick(&[1, 2, 4, 5, 6]);
        }
        self.rng.within(1, 6) as u8
    }

    /// Own errors and good frames until TEC is near or at the target.
    fn drive_tec(&mut self, target: u16) {
        let mut tries = 200;
        while self.bench.tec() < target && tries > 0 && !self.done() {
            let code = self.error_code();
            self.own_frame(code);
            tries -= 1;
        }
        while self.bench.tec() > target && !self.bench.is_bus_off() && tries > 0 && !self.done() {
            self.own_frame(0);
            tries -= 1;
        }
    }

    /// Receive errors until REC is at the target or above.
    fn drive_rec(&mut self, target: u16) {
        let mut tries = 60;
        while self.bench.rec() < target && tries > 0 && !self.done() {
            let code = self.rng.within(1, 6) as u8;
            let step = if self.bench.rec() + 8 <= target { 8 } else { 1 };
            self.step(Step::ReceiveError { code, step });
            tries -= 1;
        }
    }

    /// Makes frames from the bus possible.
    fn open_reception(&mut self) {
        self.leave_loopback();
        self.go_on_the_bus();
        if self.bench.filters().initializing {
            self.write(at::FMR, 0);
        }
    }

    fn error_part(&mut self) {
        self.open_reception();
        self.set_options(mcr::NART, 0);
        self.set_enables();
        if self.rng.percent(60) {
            let target = self.rng.pick(&[8, 95, 96, 97, 127, 128, 129, 247, 248, 255]);
            self.drive_tec(target);
        }
        if self.rng.percent(60) {
            self.open_reception();
            let target = self.rng.pick(&[5, 95, 96, 97, 120, 127, 128, 129, 130, 250, 254, 255]);
            self.drive_rec(target);
        }
        if self.rng.percent(30) {
            self.same_code_again();
        }
        match self.rng.below(4) {
            0 => self.lone_node(),
            1..=2 => self.alone_part(),
            _ => {}
        }
        for _ in 0..self.rng.within(10, 40) {
            self.error_step();
        }
    }

    /// A node that is alone on the bus: 3 while it is error active, 8 while it
    /// is error passive, until somebody acknowledges.
    fn lone_node(&mut self) {
        self.open_reception();
        self.set_options(mcr::NART, 0);
        let mut while_passive = self.rng.within(1, 12);
        for _ in 0..40 {
            let result = self.unheard_result();
            self.own_frame(result);
            while_passive -= (result == 8) as u64;
            if while_passive == 0 || self.done() {
                break;
            }
        }
        for _ in 0..self.rng.within(1, 3) {
            self.own_frame(0);
            self.read(at::ESR);
        }
        let result = self.unheard_result();
        self.own_frame(result);
    }

    /// What a node finds that nobody hears.
    fn unheard_result(&self) -> u8 {
        if self.bench.is_error_passive() {
            8
        } else {
            3
        }
    }

    /// Error passive or nearly so, by either counter; then own ends 8 and what
    /// is near them.
    fn alone_part(&mut self) {
        let near = [
            (128, 0),
            (128, 0),
            (127, 0),
            (120, 0),
            (129, 0),
            (247, 0),
            (248, 0),
            (0, 128),
            (0, 128),
            (8, 127),
            (7, 129),
            (96, 255),
            (127, 128),
            (127, 127),
            (128, 127),
            (136, 135),
        ];
        let (tec, rec) = self.rng.pick(&near);
        self.observing = 20;
        self.drive_counters(tec, rec);
        self.observing = 60;
        for _ in 0..self.rng.within(4, 12) {
            self.alone_step();
        }
    }

    /// TEC and REC at these values.
    fn drive_counters(&mut self, tec: u16, rec: u16) {
        if self.bench.tec() > tec + 8 || self.bench.rec() > rec {
            self.emit(Step::Reset);
            self.set_enables();
        }
        self.open_reception();
        self.set_options(mcr::NART, 0);
        self.drive_tec(tec);
        self.drive_rec(rec);
        self.read(at::ESR);
    }

    /// Own end 8 mostly; 3 raises TEC and 9 is out of range, whatever the state.
    fn alone_result(&mut self) -> u8 {
        self.rng.pick(&[8, 8, 8, 8, 8, 8, 3, 9])
    }

    fn alone_step(&mut self) {
        let result = self.alone_result();
        match self.rng.below(12) {
            0..=2 => self.own_frame(result),
            3 => {
                self.free_the_wire();
                self.step(Step::OwnEnd(result));
            }
            4 => {
                self.set_options(mcr::NART, mcr::NART);
                self.own_frame(result);
                self.set_options(mcr::NART, 0);
            }
            5 => self.alone_after_abort(result),
            6..=7 => self.alone_with_errors_enabled(result),
            8 => self.alone_in_order(result),
            9 => self.alone_with_mode_request(result),
            10 => self.own_frame(7),
            _ => {
                let code = self.rng.pick(&[0x70, 0]);
                self.write(at::ESR, code);
                self.own_frame(result);
            }
        }
        let offset = self.rng.pick(&[at::ESR, at::TSR]);
        self.read(offset);
    }

    /// The abort of the frame on the wire is remembered up to its end.
    fn alone_after_abort(&mut self, result: u8) {
        self.put_on_wire();
        if let Some(x) = self.bench.transmitter().on_wire() {
            self.write(at::TSR, 0x80 << (8 * x));
            if self.rng.percent(30) {
                self.shuffle_options(mcr::NART);
            }
        }
        self.step(Step::OwnEnd(result));
        self.read(at::TSR);
        self.set_options(mcr::NART, 0);
    }

    /// With ERRI clear before; LECIE alone shows whether the code sets it.
    fn alone_with_errors_enabled(&mut self, result: u8) {
        let enables = self.rng.pick(&[ier::LECIE, ier::LECIE | ier::ERRIE, 0x0700 | ier::ERRIE, 0]);
        self.write(at::IER, enables);
        self.put_on_wire();
        if self.rng.percent(80) {
            self.emit(Step::Write(at::MSR, 4));
        }
        self.step(Step::OwnEnd(result));
        self.read(at::MSR);
        self.read(at::ESR);
    }

    /// The order of requests before and after a failed try.
    fn alone_in_order(&mut self, result: u8) {
        self.shuffle_options(mcr::TXFP);
        self.free_the_wire();
        for _ in 0..self.rng.within(1, 3) {
            self.quick_request();
        }
        self.emit(Step::Start);
        self.read(at::TSR);
        self.emit(Step::OwnEnd(result));
        self.read(at::TSR);
        self.step(Step::Start);
    }

    /// The mode that is asked for follows when the wire is free.
    fn alone_with_mode_request(&mut self, result: u8) {
        self.put_on_wire();
        let requests = self.rng.within(1, 3) as u32;
        self.request_mode(requests);
        self.step(Step::OwnEnd(result));
        self.read(at::MSR);
        self.go_normal();
    }

    /// The same code twice, ERRI cleared between.
    fn same_code_again(&mut self) {
        self.open_reception();
        let enables = self.rng.word() | ier::LECIE;
        self.write(at::IER, enables);
        let code = self.rng.within(1, 6) as u8;
        for _ in 0..2 {
            match self.rng.percent(50) {
                true => self.emit(Step::ReceiveError { code, step: 1 }),
                false => {
                    self.own_frame(code);
                    Answer::default()
                }
            };
            self.read(at::MSR);
            self.emit(Step::Write(at::MSR, 4));
        }
    }

    fn error_step(&mut self) {
        match self.rng.below(20) {
            0..=2 => {
                let code = self.error_code();
                self.own_frame(code);
            }
            3..=4 => self.own_frame(0),
            5..=7 => {
                let (code, step) = (self.rng.within(1, 6) as u8, self.rng.pick(&[1, 8]));
                self.step(Step::ReceiveError { code, step });
            }
            8..=9 => self.receive(),
            10 => {
                let (code, step) = (self.rng.within(0, 8) as u8, self.rng.within(0, 9) as u8);
                self.step(Step::ReceiveError { code, step });
            }
            11..=13 => {
                let word = self.rng.pick(&[4, 4, 4, 0x1C, 0, 0xFFFF_FFFB]);
                self.write(at::MSR, word);
            }
            14 => self.set_enables(),
            15 => {
                let word = self.rng.pick(&[0x70, 0, 0x30, 0x77, u32::MAX, 0x8F]);
                self.write(at::ESR, word);
            }
            16 => self.own_frame(7),
            17..=18 => self.alone_step(),
            _ => {
                let result = self.own_result();
                self.step(Step::OwnEnd(result));
            }
        }
    }

    fn recovery_part(&mut self) {
        self.open_reception();
        self.set_options(mcr::NART | mcr::ABOM, self.left as u32);
        if self.rng.percent(50) {
            self.set_enables();
        }
        if self.rng.percent(30) {
            self.drive_rec(100);
        }
        self.observing = 15;
        if self.rng.percent(40) {
            self.drive_tec(248);
            self.go_bus_off_with_request();
        } else {
            self.drive_tec(256);
        }
        self.observing = 60;
        self.read(at::ESR);
        self.read(at::TSR);
        if self.rng.percent(50) {
            return self.interrupted_recovery();
        }
        for _ in 0..self.rng.within(2, 8) {
            self.bus_off_step();
        }
        if self.rng.percent(60) {
            self.recover();
        }
    }

    /// A recovery that is disturbed on its way; then idles to where it ends
    /// if the count was kept, and to where it ends if it was zeroed.
    fn interrupted_recovery(&mut self) {
        let by_initialization = self.rng.percent(50);
        self.set_options(mcr::ABOM, if by_initialization { 0 } else { mcr::ABOM });
        if by_initialization && !self.joined_in_bus_off_step() {
            self.go_initialization();
        }
        self.go_normal();
        let before = self.rng.pick(&[1, 5, 60, 100, 127]);
        self.idles(before);
        match self.rng.below(6) {
            0 => {
                self.set_options(mcr::ABOM, !self.bench.mcr());
                self.idles(3);
                self.set_options(mcr::ABOM, !self.bench.mcr());
            }
            1 => {
                self.request_mode(mcr::SLEEP);
                self.emit(Step::Idle);
                self.go_normal();
            }
            2 => {
                self.go_initialization();
                self.emit(Step::Idle);
                self.go_normal();
            }
            3 => self.request_mode(mcr::INRQ | mcr::SLEEP),
            4 => {
                let options = self.bench.mcr();
                self.emit(Step::Write(at::MCR, mcr::RESET));
                self.write(at::MCR, options & !mcr::SLEEP);
                self.emit(Step::Idle);
            }
            _ => {
                self.receive();
                self.step(Step::Start);
                self.step(Step::BitTimes(9));
            }
        }
        self.idles_after(before.min(126), 130);
        self.read(at::TSR);
    }

    /// Bus-off and Initialization came in one step: no need to enter it again.
    fn joined_in_bus_off_step(&self) -> bool {
        self.bench.mode() == Mode::Initialization
    }

    /// The error that makes bus-off ends while a mode is requested.
    fn go_bus_off_with_request(&mut self) {
        if self.bench.mode() != Mode::Normal || self.bench.is_bus_off() {
            return;
        }
        if !self.any_pending() {
            self.quick_request();
        }
        self.emit(Step::Start);
        let requests = self.rng.pick(&[mcr::INRQ, mcr::INRQ, mcr::SLEEP, mcr::INRQ | mcr::SLEEP]);
        self.request_mode(requests);
        let code = self.error_code();
        self.step(Step::OwnEnd(code));
        self.read(at::MSR);
    }

    fn bus_off_step(&mut self) {
        match self.rng.below(14) {
            0..=3 => {
                let count = self.rng.pick(&[1, 2, 40, 63, 64, 100, 127]);
                self.idles(count);
            }
            4 => self.shuffle_options(mcr::ABOM),
            5 => self.go_initialization(),
            6 => self.go_normal(),
            7 => self.request_mode(mcr::SLEEP),
            8 => {
                self.set_options(mcr::TTCM, mcr::TTCM);
                self.step(Step::BitTimes(77));
            }
            9 => self.receive(),
            10 => {
                self.step(Step::Start);
            }
            11 => self.quick_request(),
            12 => self.write_tsr(),
            _ => {
                if self.rng.percent(30) {
                    self.write(at::MCR, mcr::RESET);
                }
                self.step(Step::ReceiveError { code: 1, step: 1 });
            }
        }
    }

    /// One of the two ways out of bus-off, idle by idle.
    fn recover(&mut self) {
        if self.rng.percent(50) {
            self.set_options(mcr::ABOM, mcr::ABOM);
        } else {
            self.set_options(mcr::ABOM, 0);
            if self.rng.percent(70) {
                self.go_initialization();
            }
        }
        self.go_normal();
        let count = self.rng.pick(&[126, 127, 128, 128, 129, 130]);
        self.idles(count);
        self.read(at::TSR);
        self.step(Step::Start);
    }
}

/// Modes, time, registers, loopback and anything at all.
impl Generator {
    fn modes_part(&mut self) {
        self.set_enables();
        for _ in 0..self.rng.within(15, 60) {
            self.mode_step();
        }
    }

    fn mode_step(&mut self) {
        match self.rng.below(22) {
            0..=6 => {
                let requests = self.rng.below(4) as u32;
                self.request_mode(requests);
            }
            7..=10 => {
                self.step(Step::Idle);
            }
            11..=13 => {
                self.step(Step::Activity);
            }
            14 => self.shuffle_options(mcr::AWUM | mcr::TTCM | mcr::DBF),
            15 => {
                let word = self.rng.word();
                self.write(at::MSR, word);
            }
            16 => {
                let word = self.rng.pick(&[ier::SLKIE, ier::WKUIE, ier::SLKIE | ier::WKUIE, 0]);
                self.write(at::IER, word);
            }
            17 => {
                let count = self.rng.pick(&[0, 1, 100, 40000, 65535]);
                self.step(Step::BitTimes(count));
            }
            18 => self.quick_request(),
            19 => {
                self.step(Step::Start);
            }
            20 => {
                let result = self.own_result();
                self.step(Step::OwnEnd(result));
            }
            _ => self.rare_mode_step(),
        }
    }

    fn rare_mode_step(&mut self) {
        match self.rng.below(6) {
            0 => {
                let word = self.rng.word();
                self.write(at::BTR, word & 0x3FFF_FFFF);
            }
            1 => {
                self.write(at::MCR, mcr::RESET | self.left as u32 & 0xFF);
                self.read(at::MCR);
            }
            2 => self.write_tsr(),
            3 => self.receive(),
            _ => self.time_scenario(),
        }
    }

    /// Lets the timer run, disturbs it, and shows it.
    fn time_scenario(&mut self) {
        self.set_options(mcr::TTCM, mcr::TTCM);
        self.go_normal();
        let count = self.rng.pick(&[1, 12345, 65534, 65535]);
        self.step(Step::BitTimes(count));
        match self.rng.below(7) {
            0 => self.stamp(),
            1 => {
                self.emit(Step::Write(at::MCR, mcr::RESET));
                self.write(at::MCR, mcr::TTCM);
            }
            2 => {
                self.set_options(mcr::TTCM, 0);
                self.step(Step::BitTimes(5));
                self.set_options(mcr::TTCM, mcr::TTCM);
            }
            3 => {
                self.request_mode(mcr::SLEEP);
                self.step(Step::BitTimes(7));
            }
            4 => {
                self.request_mode(mcr::INRQ);
                self.step(Step::BitTimes(11));
            }
            _ => {
                let more = self.rng.pick(&[1, 2, 65535]);
                self.step(Step::BitTimes(more));
            }
        }
        self.go_normal();
        self.stamp();
    }

    /// Shows the timer: in a mailbox that starts.
    fn stamp(&mut self) {
        self.quick_request();
        let answer = self.emit(Step::Start);
        if answer.code == 0 {
            self.read(at::mailbox(answer.word as usize % MAILBOXES, 1));
            self.step(Step::OwnEnd(0));
        }
    }

    fn registers_part(&mut self) {
        if self.rng.percent(30) {
            self.sweep();
        }
        for _ in 0..self.rng.within(10, 60) {
            self.register_step();
        }
    }

    fn register_step(&mut self) {
        let offset = self.offset();
        if self.rng.percent(35) {
            self.read(offset);
            return;
        }
        let mut word = self.any_word();
        if offset == at::MCR && self.rng.percent(85) {
            word &= !mcr::RESET;
        }
        if offset == at::BTR && self.rng.percent(80) {
            word &= !btr::SILM;
        }
        self.write(offset, word);
        if self.rng.percent(60) {
            self.read(offset);
        }
    }

    fn loopback_part(&mut self) {
        self.new_pool();
        if self.bench.is_bus_off() {
            self.go_on_the_bus();
        }
        let bits = self.rng.pick(&[btr::LBKM, btr::LBKM, btr::LBKM | btr::SILM, btr::SILM]);
        self.set_test_mode(bits);
        let finit = self.rng.percent(10);
        match self.rng.percent(50) {
            true => self.configure_filters(finit),
            false => self.accept_all(),
        }
        self.shuffle_options(mcr::RFLM | mcr::TTCM | mcr::TXFP);
        self.go_normal();
        if self.bench.is_loopback() && self.rng.percent(30) {
            self.unheard_in_loopback();
        }
        for _ in 0..self.rng.within(10, 40) {
            self.loopback_step();
        }
    }

    /// Nobody has to acknowledge here, error passive or not.
    fn unheard_in_loopback(&mut self) {
        self.observing = 20;
        self.drive_tec(self.bench.tec().max(128));
        self.observing = 60;
        for _ in 0..self.rng.within(1, 4) {
            let result = self.alone_result();
            self.put_on_wire();
            self.step(Step::OwnEnd(result));
        }
    }

    /// Own frames one after the other, none released.
    fn loopback_burst(&mut self) {
        for _ in 0..self.rng.within(3, 6) {
            self.quick_request();
            self.emit(Step::Start);
            self.step(Step::OwnEnd(0));
        }
    }

    fn loopback_step(&mut self) {
        match self.rng.below(13) {
            0..=3 => self.request(),
            12 => self.loopback_burst(),
            4..=6 => {
                self.step(Step::Start);
                let count = self.rng.within(1, 40000) as u16;
                self.emit(Step::BitTimes(count));
                let result = self.rng.pick(&[0, 0, 0, 0, 3, 7, 1, 8, 9]);
                self.step(Step::OwnEnd(result));
                self.read(at::ESR);
            }
            7..=8 => {
                let fifo = self.rng.below(2) as usize;
                self.drain(fifo);
            }
            9 => self.receive(),
            10 => {
                let word = self.rng.below(2) as u32;
                self.write(at::FMR, word);
            }
            _ => {
                self.step(Step::ReceiveError { code: 2, step: 8 });
            }
        }
    }

    /// Any step with any fields.
    fn wild_step(&mut self) {
        let step = match self.rng.below(12) {
            0 if self.rng.percent(3) => Step::Reset,
            0..=1 => Step::Read(self.offset()),
            2..=4 => {
                let offset = self.offset();
                let word = self.any_word();
                Step::Write(offset, if self.rng.percent(90) { word & !mcr::RESET } else { word })
            }
            5 => Step::Idle,
            6 => Step::BitTimes(self.rng.word() as u16),
            7 => Step::Activity,
            8 => Step::Start,
            9 => Step::OwnEnd(self.rng.below(10) as u8),
            10 => Step::Frame(if self.rng.percent(80) { self.frame() } else { self.bad_frame() }),
            _ => Step::ReceiveError { code: self.rng.below(9) as u8, step: self.rng.pick(&[1, 8, 0, 2, 7, 9, 255]) },
        };
        self.step(step);
    }

    fn wild_part(&mut self) {
        for _ in 0..self.rng.within(20, 80) {
            self.wild_step();
        }
    }
}

/// Whole scripts.
impl Generator {
    fn part(&mut self, kind: Kind) {
        match kind {
            Kind::Transmit => self.transmit_part(),
            Kind::Filters => self.filters_part(),
            Kind::Receive => self.receive_part(),
            Kind::Errors => self.error_part(),
            Kind::Recovery => self.recovery_part(),
            Kind::Modes => self.modes_part(),
            Kind::Registers => self.registers_part(),
            Kind::Loopback => self.loopback_part(),
            _ => self.wild_part(),
        }
    }

    fn mix(&mut self) {
        while !self.done() {
            let kind = self.rng.pick(&PARTS);
            self.part(kind);
            self.interlude();
        }
    }

    fn one_kind(&mut self, kind: Kind) {
        while !self.done() {
            self.part(kind);
            self.interlude();
        }
    }

    /// Between parts: now and then a reset of either kind, or a look at everything.
    fn interlude(&mut self) {
        match self.rng.below(12) {
            0 => {
                let rest = self.rng.word();
                self.emit(Step::Write(at::MCR, mcr::RESET | rest));
                if self.rng.percent(50) {
                    self.sweep();
                }
            }
            1 => {
                self.emit(Step::Reset);
            }
            2 => self.sweep(),
            _ => {}
        }
    }

    /// Request after request, two records each: the newest waits while its
    /// forerunner is aborted. Around each multiple of 32768 requests three
    /// are kept waiting and sent in turn.
    fn many_requests(&mut self) {
        self.emit(Step::Write(at::MCR, mcr::TXFP));
        self.emit(Step::Idle);
        let mut made: u64 = 0;
        while !self.done() {
            let near = (made + 16) % 32768 < 32;
            while let (Some(x), false) = (self.empty_mailbox(), self.done()) {
                let identifier = self.mailbox_identifier();
                self.emit(Step::Write(at::mailbox(x, 0), identifier | 1));
                made += 1;
                if !near {
                    self.emit(Step::Write(at::TSR, 0x0080_8080 & !(0x80 << (8 * x))));
                    break;
                }
            }
            if near {
                self.emit(Step::Start);
                self.emit(Step::OwnEnd(0));
                self.read(at::TSR);
            }
        }
    }

    fn frames_only(&mut self) {
        self.configure_filters(false);
        self.emit(Step::Write(at::MCR, 0));
        self.emit(Step::Idle);
        while !self.done() {
            let frame = self.frame();
            self.emit(Step::Frame(frame));
        }
    }

    fn lesson(&mut self, lesson: Lesson) {
        self.configure_lesson(lesson);
        self.emit(Step::Write(at::MCR, 0));
        self.emit(Step::Idle);
        while !self.done() {
            let identifier = self.lesson_identifier(lesson.sought);
            let frame = self.frame_with(identifier << 21);
            self.emit(Step::Frame(frame));
        }
    }

    /// Each filter takes another standard data frame; they ascend from bank to bank.
    fn configure_lesson(&mut self, lesson: Lesson) {
        self.emit(Step::Write(at::FM1R, FILTER_WORD));
        self.emit(Step::Write(at::FS1R, 0));
        self.emit(Step::Write(at::FFA1R, lesson.assignment));
        for bank in 0..BANKS {
            for half in 0..2 {
                let low = LESSON_IDENTIFIERS + 4 * bank as u32 + 2 * half as u32;
                self.emit(Step::Write(at::bank(bank, half), low << 5 | (low + 1) << 21));
            }
        }
        self.emit(Step::Write(at::FA1R, lesson.activation));
        self.emit(Step::Write(at::FMR, 0));
    }

    fn lesson_identifier(&mut self, sought: Sought) -> u32 {
        match sought {
            Sought::First => LESSON_IDENTIFIERS,
            Sought::Late => LESSON_IDENTIFIERS + LESSON_FILTERS - 5,
            Sought::Last => LESSON_IDENTIFIERS + LESSON_FILTERS - 1,
            Sought::Any => LESSON_IDENTIFIERS + self.rng.below(LESSON_FILTERS as u64) as u32,
            Sought::None => {
                let other = self.rng.below(2048 - LESSON_FILTERS as u64) as u32;
                if other < LESSON_IDENTIFIERS {
                    other
                } else {
                    other + LESSON_FILTERS
                }
            }
        }
    }

    /// Steps of all kinds with any numbers, whatever the controller makes of them.
    fn any_steps(&mut self) {
        while !self.done() {
            if self.rng.percent(2) {
                self.new_pool();
            }
            let step = self.any_step();
            self.emit(step);
        }
    }

    fn any_step(&mut self) -> Step {
        let byte = |rng: &mut Rng| if rng.percent(70) { rng.below(16) as u8 } else { rng.word() as u8 };
        match self.rng.below(16) {
            0 => Step::Reset,
            1 => Step::Idle,
            2 => Step::Activity,
            3 => Step::Start,
            4 => Step::BitTimes(self.rng.word() as u16),
            5 => Step::OwnEnd(byte(&mut self.rng)),
            6 => Step::ReceiveError { code: byte(&mut self.rng), step: byte(&mut self.rng) },
            7..=8 => Step::Read(self.offset()),
            9..=11 => {
                let offset = self.offset();
                Step::Write(offset, self.any_value(offset))
            }
            _ => Step::Frame(self.any_frame()),
        }
    }

    /// Often without the bits that have no name.
    fn any_value(&mut self, offset: u16) -> u32 {
        let word = self.any_word();
        match Register::at(offset) {
            Some(register) if self.rng.percent(60) => word & named_bits(register),
            _ => word,
        }
    }

    /// Half of them in the range of frames; data past the length, often none.
    fn any_frame(&mut self) -> Frame {
        let identifier = match self.rng.below(4) {
            0 => self.rng.word(),
            1 => self.rng.word() & !1,
            _ => self.frame().identifier,
        };
        let length = match self.rng.below(4) {
            0 => self.rng.word() as u8,
            1 => self.rng.below(17) as u8,
            _ => self.rng.below(9) as u8,
        };
        let data = match self.rng.below(6) {
            0 => self.rng.next(),
            1 => 0,
            2 => 1 << self.rng.below(64),
            _ if length < 8 => self.rng.next() & ((1 << (8 * length)) - 1),
            _ => self.rng.next(),
        };
        Frame { identifier, length, data }
    }

    fn registers_only(&mut self) {
        self.emit(Step::Write(at::MCR, mcr::INRQ));
        while !self.done() {
            self.register_step();
        }
    }
}
