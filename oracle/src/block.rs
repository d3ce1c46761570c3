//! The state block of docs/BLOCK.md: a controller's whole state as a row of
//! tagged fields.

use crate::controller::Controller;
use crate::fifo::Stored;
use crate::here;
use crate::probe::{made, Mistake};
use crate::registers::{btr, identifier, ier, length_time, mcr, BANKS, FIFOS, FIFO_DEPTH, FILTER_WORD, MAILBOXES};

/// The block of the STM32F334.
pub const BLOCK_LENGTH: usize = 354;
const FIRST_TAG: u8 = 0x40;
/// How many numbers stand in a block.
pub const NUMBERS: u64 = 107;

/// The mode's numbers.
pub const NORMAL: u32 = 0;
pub const INITIALIZATION: u32 = 1;
pub const SLEEP: u32 = 2;
/// In the order of requests, and as the mailbox on the wire: none.
pub const NO_MAILBOX: u32 = MAILBOXES as u32;

const TEC_MOST: u32 = 263;
const BUS_OFF_ABOVE: u32 = 255;
const RECOVERY_MOST: u32 = 127;
const LEC_MOST: u32 = 7;
const FMI_MOST: u32 = 55;

/// A limit, unless the mistake of a higher or of a lower one is made.
fn limit(most: u32, higher: Mistake, lower: Mistake) -> u32 {
    most + made(higher) as u32 - made(lower) as u32
}

/// A bit that is set where a block's flag is.
pub fn bit(flag: u32, place: u32) -> u32 {
    if flag != 0 {
        place
    } else {
        0
    }
}

/// All numbers of a block, as they stand in it.
#[derive(Clone, Copy, PartialEq, Eq, Debug, Default)]
pub struct Fields {
    pub control: ControlFields,
    pub errors: ErrorFields,
    pub mailboxes: [MailboxFields; MAILBOXES],
    pub requests: RequestFields,
    pub fifos: [FifoFields; FIFOS],
    pub filters: FilterFields,
    pub banks: [[u32; 2]; BANKS],
}

#[derive(Clone, Copy, PartialEq, Eq, Debug, Default)]
pub struct ControlFields {
    pub mcr: u32,
    pub ier: u32,
    pub btr: u32,
    pub timer: u32,
    pub mode: u32,
    pub recovery_count: u32,
    pub initialized_since_bus_off: u32,
    pub erri: u32,
    pub wkui: u32,
    pub slaki: u32,
}

#[derive(Clone, Copy, PartialEq, Eq, Debug, Default)]
pub struct ErrorFields {
    pub tec: u32,
    pub rec: u32,
    pub lec: u32,
}

#[derive(Clone, Copy, PartialEq, Eq, Debug, Default)]
pub struct MailboxFields {
    pub identifier: u32,
    pub length_time: u32,
    pub data_low: u32,
    pub data_high: u32,
    pub rqcp: u32,
    pub txok: u32,
    pub alst: u32,
    pub terr: u32,
}

#[derive(Clone, Copy, PartialEq, Eq, Debug, Default)]
pub struct RequestFields {
    /// The mailboxes that aren't empty, oldest request first.
    pub order: [u32; MAILBOXES],
    pub on_wire: u32,
    pub aborts: [u32; MAILBOXES],
}

#[derive(Clone, Copy, PartialEq, Eq, Debug, Default)]
pub struct FifoFields {
    pub places: [Stored; FIFO_DEPTH],
    pub pending: u32,
    pub full: u32,
    pub overrun: u32,
}

#[derive(Clone, Copy, PartialEq, Eq, Debug, Default)]
pub struct FilterFields {
    pub mode: u32,
    pub scale: u32,
    pub assignment: u32,
    pub activation: u32,
    pub initializing: u32,
}

/// Goes through a block in its order.
pub trait Visitor {
    /// A tagged field begins.
    fn field(&mut self, name: &'static str, length: usize);
    /// A number of the body, with as many bytes.
    fn number(&mut self, name: &'static str, bytes: usize, number: &mut u32);
}

impl Fields {
    pub fn visit(&mut self, visitor: &mut impl Visitor) {
        self.control.visit(visitor);
        self.errors.visit(visitor);
        for (name, mailbox) in ["mailbox 0", "mailbox 1", "mailbox 2"].into_iter().zip(&mut self.mailboxes) {
            visitor.field(name, 20);
            mailbox.visit(visitor);
        }
        self.requests.visit(visitor);
        for (name, fifo) in ["FIFO 0", "FIFO 1"].into_iter().zip(&mut self.fifos) {
            visitor.field(name, 52);
            fifo.visit(visitor);
        }
        self.filters.visit(visitor);
        visitor.field("banks", 112);
        for [r1, r2] in &mut self.banks {
            visitor.number("R1", 4, r1);
            visitor.number("R2", 4, r2);
        }
    }
}

impl ControlFields {
    fn visit(&mut self, visitor: &mut impl Visitor) {
        visitor.field("control", 20);
        visitor.number("MCR", 4, &mut self.mcr);
        visitor.number("IER", 4, &mut self.ier);
        visitor.number("BTR", 4, &mut self.btr);
        visitor.number("timer", 2, &mut self.timer);
        visitor.number("mode", 1, &mut self.mode);
        visitor.number("recovery count", 1, &mut self.recovery_count);
        visitor.number("Initialization since bus-off", 1, &mut self.initialized_since_bus_off);
        visitor.number("ERRI", 1, &mut self.erri);
        visitor.number("WKUI", 1, &mut self.wkui);
        visitor.number("SLAKI", 1, &mut self.slaki);
    }
}

impl ErrorFields {
    fn visit(&mut self, visitor: &mut impl Visitor) {
        visitor.field("errors", 4);
        visitor.number("TEC", 2, &mut self.tec);
        visitor.number("REC", 1, &mut self.rec);
        visitor.number("LEC", 1, &mut self.lec);
    }
}

impl MailboxFields {
    fn visit(&mut self, visitor: &mut impl Visitor) {
        visitor.number("TI", 4, &mut self.identifier);
        visitor.number("TDT", 4, &mut self.length_time);
        visitor.number("TDL", 4, &mut self.data_low);
        visitor.number("TDH", 4, &mut self.data_high);
        visitor.number("RQCP", 1, &mut self.rqcp);
        visitor.number("TXOK", 1, &mut self.txok);
        visitor.number("ALST", 1, &mut self.alst);
        visitor.number("TERR", 1, &mut self.terr);
    }
}

impl RequestFields {
    fn visit(&mut self, visitor: &mut impl Visitor) {
        visitor.field("requests", 7);
        self.order.iter_mut().for_each(|x| visitor.number("order", 1, x));
        visitor.number("on the wire", 1, &mut self.on_wire);
        self.aborts.iter_mut().for_each(|flag| visitor.number("abort", 1, flag));
    }
}

impl FifoFields {
    fn visit(&mut self, visitor: &mut impl Visitor) {
        for frame in &mut self.places {
            visitor.number("RI", 4, &mut frame.identifier);
            visitor.number("RDT", 4, &mut frame.length_time);
            visitor.number("RDL", 4, &mut frame.data_low);
            visitor.number("RDH", 4, &mut frame.data_high);
        }
        visitor.number("FMP", 2, &mut self.pending);
        visitor.number("FULL", 1, &mut self.full);
        visitor.number("FOVR", 1, &mut self.overrun);
    }
}

impl FilterFields {
    fn visit(&mut self, visitor: &mut impl Visitor) {
        visitor.field("filters", 17);
        visitor.number("FM1R", 4, &mut self.mode);
        visitor.number("FS1R", 4, &mut self.scale);
        visitor.number("FFA1R", 4, &mut self.assignment);
        visitor.number("FA1R", 4, &mut self.activation);
        visitor.number("FINIT", 1, &mut self.initializing);
    }
}

macro_rules! rules {
    ($($name:ident, $mistake:ident = $text:literal,)*) => {
        /// What docs/BLOCK.md asks of a block, in its order.
        #[derive(Clone, Copy, PartialEq, Eq, Debug)]
        pub enum Rule { $($name),* }

        /// Each rule, the mistake of not looking at it, and what breaks it.
        pub const RULES: &[(Rule, Mistake, &str)] = &[$((Rule::$name, Mistake::$mistake, $text)),*];
    };
}

rules! {
    Length, LongerBlockTaken = "another length",
    Tag, TagNotChecked = "another tag",
    FieldLength, FieldLengthNotChecked = "another length of a field",
    McrBits, McrBitsNotChecked = "reserved bits of MCR, or RESET",
    IerBits, IerBitsNotChecked = "reserved bits of IER",
    BtrBits, BtrBitsNotChecked = "reserved bits of BTR",
    TimerWithoutTtcm, TimerWithoutTtcmTaken = "a timer with TTCM=0",
    ModeNumber, ModeNumberNotChecked = "a mode above 2",
    RecoveryRange, RecoveryRangeNotChecked = "a recovery count above 127",
    InitializedFlag, InitializedFlagNotChecked = "the mark of Initialization above 1",
    ErriFlag, ErriFlagNotChecked = "ERRI above 1",
    WkuiFlag, WkuiFlagNotChecked = "WKUI above 1",
    SlakiFlag, SlakiFlagNotChecked = "SLAKI above 1",
    SlakiOutsideSleep, SlakiOutsideSleepTaken = "SLAKI=1 outside Sleep",
    TecRange, TecRangeNotChecked = "TEC above 263",
    LecRange, LecRangeNotChecked = "LEC above 7",
    TiBit0, TiBit0NotChecked = "bit 0 of TI",
    TdtBits, TdtBitsNotChecked = "reserved bits of TDT",
    RqcpFlag, RqcpFlagNotChecked = "RQCP above 1",
    RqcpOfRequest, RqcpOfRequestTaken = "RQCP=1 of a mailbox with a request",
    TxokFlag, TxokFlagNotChecked = "TXOK above 1",
    TxokWithoutRqcp, TxokWithoutRqcpTaken = "TXOK=1 with RQCP=0",
    AlstFlag, AlstFlagNotChecked = "ALST above 1",
    TerrFlag, TerrFlagNotChecked = "TERR above 1",
    TwoResults, TwoResultsTaken = "more than one of TXOK, ALST and TERR",
    OrderNumber, OrderNumberNotChecked = "a number above 3 in the order",
    OrderTwice, OrderTwiceTaken = "a mailbox twice in the order",
    OrderGap, OrderGapTaken = "a mailbox behind a 3 in the order",
    WireOutsideOrder, WireOutsideOrderTaken = "a frame on the wire whose mailbox is not in the order",
    AbortFlag, AbortFlagNotChecked = "an abort mark above 1",
    AbortOffWire, AbortOffWireTaken = "an abort mark of a mailbox that isn't on the wire",
    RiBit0, RiBit0NotChecked = "bit 0 of RI",
    RiExtendedBits, RiExtendedBitsNotChecked = "extended bits of a standard RI",
    RdtBits, RdtBitsNotChecked = "reserved bits of RDT",
    FmiRange, FmiRangeNotChecked = "FMI above 55",
    DataPastLength, DataPastLengthTaken = "data past the length",
    DataOfRemote, DataOfRemoteTaken = "data of a remote frame",
    PlacePastCount, PlacePastCountTaken = "a place past the number of frames that isn't zero",
    FmpRange, FmpRangeNotChecked = "FMP above 3",
    FullFlag, FullFlagNotChecked = "FULL above 1",
    FovrFlag, FovrFlagNotChecked = "FOVR above 1",
    Fm1rBits, Fm1rBitsNotChecked = "reserved bits of FM1R",
    Fs1rBits, Fs1rBitsNotChecked = "reserved bits of FS1R",
    Ffa1rBits, Ffa1rBitsNotChecked = "reserved bits of FFA1R",
    Fa1rBits, Fa1rBitsNotChecked = "reserved bits of FA1R",
    FinitFlag, FinitFlagNotChecked = "FINIT above 1",
    WireOutsideNormal, WireOutsideNormalTaken = "a frame on the wire outside Normal",
    WireInBusOff, WireInBusOffTaken = "a frame on the wire in bus-off",
    WireSilent, WireSilentTaken = "a frame on the wire with SILM=1 and LBKM=0",
    NormalNotFollowed, NormalNotFollowedTaken = "INRQ and SLEEP not equal in Normal",
    InitializationNotFollowed, InitializationNotFollowedTaken = "SLEEP alone in Initialization",
    SleepNotFollowed, SleepNotFollowedTaken = "INRQ alone in Sleep",
    CountOutsideBusOff, CountOutsideBusOffTaken = "a recovery count outside bus-off",
    InitializedOutsideBusOff, InitializedOutsideBusOffTaken = "the mark of Initialization outside bus-off",
    CountInInitialization, CountInInitializationTaken = "a recovery count in Initialization",
    InitializationForgotten, InitializationForgottenTaken = "Initialization in bus-off, without its mark",
}

/// A set of rules.
#[derive(Clone, Copy, PartialEq, Eq, Debug, Default)]
pub struct Rules(u64);

impl Rules {
    fn note(&mut self, rule: Rule, broken: bool) {
        self.0 |= (broken as u64) << rule as u32;
    }

    /// Takes out the rule that isn't looked at by mistake.
    fn forgive(&mut self) {
        for &(rule, mistake, _) in RULES {
            self.0 &= !((made(mistake) as u64) << rule as u32);
        }
    }

    pub fn has(self, rule: Rule) -> bool {
        self.0 >> rule as u32 & 1 != 0
    }

    pub fn is_empty(self) -> bool {
        self.0 == 0
    }

    /// The only one of the set.
    pub fn alone(self) -> Option<Rule> {
        RULES.get(self.0.trailing_zeros() as usize).map(|&(rule, ..)| rule).filter(|_| self.0.is_power_of_two())
    }
}

/// The ranges and the rules across fields.
impl Fields {
    pub fn broken(&self) -> Rules {
        let mut rules = Rules::default();
        self.control.check(&mut rules);
        self.errors.check(&mut rules);
        for (x, mailbox) in self.mailboxes.iter().enumerate() {
            mailbox.check(self.requests.names(x), &mut rules);
        }
        self.requests.check(&mut rules);
        self.fifos.iter().for_each(|fifo| fifo.check(&mut rules));
        self.filters.check(&mut rules);
        self.check_across(&mut rules);
        if cfg!(wrong) {
            rules.forgive();
            rules.note(Rule::Length, self.wrongly_refused());
        }
        rules
    }

    fn check_across(&self, rules: &mut Rules) {
        let ControlFields { mcr, btr, mode, recovery_count, initialized_since_bus_off, .. } = self.control;
        let bus_off = self.errors.tec > limit(BUS_OFF_ABOVE, Mistake::BlockBusOffAt257, Mistake::BlockBusOffAt255);
        if self.requests.on_wire != NO_MAILBOX {
            rules.note(Rule::WireOutsideNormal, mode != NORMAL);
            rules.note(Rule::WireInBusOff, bus_off);
            rules.note(Rule::WireSilent, btr & btr::SILM != 0 && btr & btr::LBKM == 0);
        } else {
            let (inrq, sleep) = (mcr & mcr::INRQ != 0, mcr & mcr::SLEEP != 0);
            rules.note(Rule::NormalNotFollowed, mode == NORMAL && inrq != sleep);
            rules.note(Rule::InitializationNotFollowed, mode == INITIALIZATION && !inrq && sleep);
            rules.note(Rule::SleepNotFollowed, mode == SLEEP && inrq && !sleep);
        }
        if !bus_off {
            rules.note(Rule::CountOutsideBusOff, recovery_count != 0);
            rules.note(Rule::InitializedOutsideBusOff, initialized_since_bus_off == 1);
        } else if mode == INITIALIZATION {
            rules.note(Rule::CountInInitialization, recovery_count != 0);
            rules.note(Rule::InitializationForgotten, initialized_since_bus_off == 0);
        }
    }
}

impl ControlFields {
    fn check(&self, rules: &mut Rules) {
        rules.note(Rule::McrBits, self.mcr & !mcr::WRITABLE != 0);
        rules.note(Rule::IerBits, self.ier & !ier::WRITABLE != 0);
        rules.note(Rule::BtrBits, self.btr & !btr::WRITABLE != 0);
        rules.note(Rule::TimerWithoutTtcm, self.timer != 0 && self.mcr & mcr::TTCM == 0);
        rules.note(Rule::ModeNumber, self.mode > SLEEP);
        let most = limit(RECOVERY_MOST, Mistake::Recovery128Taken, Mistake::Recovery127Refused);
        rules.note(Rule::RecoveryRange, self.recovery_count > most);
        rules.note(Rule::InitializedFlag, self.initialized_since_bus_off > 1);
        rules.note(Rule::ErriFlag, self.erri > 1);
        rules.note(Rule::WkuiFlag, self.wkui > 1);
        rules.note(Rule::SlakiFlag, self.slaki > 1);
        rules.note(Rule::SlakiOutsideSleep, self.slaki == 1 && self.mode != SLEEP);
    }
}

impl ErrorFields {
    fn check(&self, rules: &mut Rules) {
        let most = limit(TEC_MOST, Mistake::Tec264Taken, Mistake::Tec263Refused);
        rules.note(Rule::TecRange, self.tec > most);
        rules.note(Rule::LecRange, self.lec > LEC_MOST);
    }
}

impl MailboxFields {
    fn check(&self, requested: bool, rules: &mut Rules) {
        rules.note(Rule::TiBit0, self.identifier & identifier::TXRQ != 0);
        rules.note(Rule::TdtBits, self.length_time & !length_time::TRANSMIT_WRITABLE != 0);
        rules.note(Rule::RqcpFlag, self.rqcp > 1);
        rules.note(Rule::RqcpOfRequest, self.rqcp == 1 && requested);
        rules.note(Rule::TxokFlag, self.txok > 1);
        rules.note(Rule::TxokWithoutRqcp, self.txok == 1 && self.rqcp == 0);
        rules.note(Rule::AlstFlag, self.alst > 1);
        rules.note(Rule::TerrFlag, self.terr > 1);
        let results = [self.txok, self.alst, self.terr].iter().filter(|&&flag| flag == 1).count();
        rules.note(Rule::TwoResults, results > 1);
    }
}

impl RequestFields {
    /// Does the order name this mailbox?
    pub fn names(&self, x: usize) -> bool {
        self.order.contains(&(x as u32))
    }

    fn check(&self, rules: &mut Rules) {
        let [first, second, third] = self.order;
        let twice = |a: u32, b: u32| a == b && a < NO_MAILBOX;
        rules.note(Rule::OrderNumber, self.order.iter().any(|&x| x > NO_MAILBOX));
        rules.note(Rule::OrderTwice, twice(first, second) || twice(first, third) || twice(second, third));
        let gap = |a: u32, b: u32| a == NO_MAILBOX && b < NO_MAILBOX;
        rules.note(Rule::OrderGap, gap(first, second) || gap(first, third) || gap(second, third));
        let in_order = self.on_wire < NO_MAILBOX && self.names(self.on_wire as usize);
        rules.note(Rule::WireOutsideOrder, self.on_wire != NO_MAILBOX && !in_order);
        for (x, &flag) in self.aborts.iter().enumerate() {
            rules.note(Rule::AbortFlag, flag > 1);
            rules.note(Rule::AbortOffWire, flag == 1 && self.on_wire != x as u32);
        }
    }
}

impl FifoFields {
    fn check(&self, rules: &mut Rules) {
        for (place, frame) in self.places.iter().enumerate() {
            if (place as u32) < self.pending {
                check_frame(frame, rules);
            } else {
                rules.note(Rule::PlacePastCount, *frame != Stored::default());
            }
        }
        rules.note(Rule::FmpRange, self.pending > FIFO_DEPTH as u32);
        rules.note(Rule::FullFlag, self.full > 1);
        rules.note(Rule::FovrFlag, self.overrun > 1);
    }
}

fn check_frame(frame: &Stored, rules: &mut Rules) {
    let word = frame.identifier;
    rules.note(Rule::RiBit0, word & 1 != 0);
    rules.note(Rule::RiExtendedBits, word & identifier::IDE == 0 && word & identifier::LOW != 0);
    rules.note(Rule::RdtBits, frame.length_time & 0xF0 != 0);
    let most = limit(FMI_MOST, Mistake::Fmi56Taken, Mistake::Fmi55Refused);
    rules.note(Rule::FmiRange, frame.length_time >> length_time::FMI_PLACE & 0xFF > most);
    let data = frame.data_low as u64 | (frame.data_high as u64) << 32;
    if word & identifier::RTR != 0 {
        rules.note(Rule::DataOfRemote, data != 0);
    } else {
        let length = frame.length_time & length_time::DLC;
        let short = length < 8 && data >> (8 * length) != 0;
        rules.note(Rule::DataPastLength, short || made(Mistake::LongLengthHasNoData) && length > 8 && data != 0);
    }
}

impl FilterFields {
    fn check(&self, rules: &mut Rules) {
        rules.note(Rule::Fm1rBits, self.mode & !FILTER_WORD != 0);
        rules.note(Rule::Fs1rBits, self.scale & !FILTER_WORD != 0);
        rules.note(Rule::Ffa1rBits, self.assignment & !FILTER_WORD != 0);
        rules.note(Rule::Fa1rBits, self.activation & !FILTER_WORD != 0);
        rules.note(Rule::FinitFlag, self.initializing > 1);
    }
}

/// What only a mistake refuses.
impl Fields {
    fn wrongly_refused(&self) -> bool {
        let ControlFields { mcr, ier, btr, mode, recovery_count, wkui, slaki, .. } = self.control;
        let requests = mcr & (mcr::INRQ | mcr::SLEEP);
        let sending = self.requests.on_wire != NO_MAILBOX;
        let waiting = self.requests.order[0] != NO_MAILBOX;
        let counts = mcr & mcr::ABOM != 0 || self.control.initialized_since_bus_off != 0;
        let test_mode = btr & (btr::SILM | btr::LBKM);
        made(Mistake::FollowedOnWireToo) && sending && matches!(requests, mcr::INRQ | mcr::SLEEP)
            || made(Mistake::BothRequestsRefused) && requests == mcr::INRQ | mcr::SLEEP
            || made(Mistake::CountInSleepRefused) && mode == SLEEP && recovery_count != 0
            || made(Mistake::CountWithoutAbomRefused) && recovery_count != 0 && !counts
            || made(Mistake::SlakiWithoutSlkieRefused) && slaki != 0 && ier & ier::SLKIE == 0
            || made(Mistake::WkuiOutsideSleepRefused) && wkui != 0 && mode != SLEEP
            || made(Mistake::RequestOutsideNormalRefused) && waiting && mode != NORMAL
            || made(Mistake::SilentLoopbackOnWireRefused) && sending && test_mode == btr::SILM | btr::LBKM
            || made(Mistake::SilentRequestRefused) && waiting && test_mode == btr::SILM
            || self.mailboxes.iter().any(MailboxFields::wrongly_refused)
            || self.fifos.iter().any(|fifo| fifo.wrongly_refused(mcr & mcr::TTCM != 0))
    }
}

impl MailboxFields {
    fn wrongly_refused(&self) -> bool {
        let stray = self.identifier & identifier::IDE == 0 && self.identifier & identifier::LOW != 0;
        made(Mistake::AlstWithoutRqcpRefused) && self.alst != 0 && self.rqcp == 0
            || made(Mistake::TiExtendedBitsRefused) && stray
    }
}

impl FifoFields {
    fn wrongly_refused(&self, triggered: bool) -> bool {
        let any = |test: fn(&Stored) -> bool| self.places.iter().any(test);
        let remote = |frame: &Stored| frame.identifier & identifier::RTR != 0;
        made(Mistake::FullNeedsThreeFrames) && self.full != 0 && self.pending < 3
            || made(Mistake::FovrNeedsFull) && self.overrun != 0 && self.full == 0
            || made(Mistake::TimeNeedsTtcm) && !triggered && any(|frame| frame.length_time >> 16 != 0)
            || made(Mistake::BlockLengthAbove8Refused) && any(|frame| frame.length_time & length_time::DLC > 8)
            || made(Mistake::RemoteLengthRefused)
                && self.places.iter().any(|frame| remote(frame) && frame.length_time & length_time::DLC != 0)
    }
}

/// Takes numbers from a block's bytes.
struct Reader<'a> {
    rest: &'a [u8],
    tag: u8,
    rules: Rules,
}

impl Reader<'_> {
    fn take(&mut self, bytes: usize) -> u32 {
        let (taken, rest) = self.rest.split_at(bytes);
        self.rest = rest;
        taken.iter().rev().fold(0, |number, &byte| number << 8 | byte as u32)
    }
}

impl Visitor for Reader<'_> {
    fn field(&mut self, _name: &'static str, length: usize) {
        let (tag, found) = (self.take(1), self.take(2));
        self.rules.note(Rule::Tag, tag != self.tag as u32);
        self.rules.note(Rule::FieldLength, found != length as u32);
        self.tag += 1;
    }

    fn number(&mut self, _name: &'static str, bytes: usize, number: &mut u32) {
        *number = self.take(bytes);
    }
}

/// Puts numbers into a block's bytes.
struct Writer<'a> {
    block: &'a mut [u8],
    place: usize,
    tag: u8,
}

impl Writer<'_> {
    fn put(&mut self, bytes: usize, number: u32, high_first: bool) {
        let part = &mut self.block[self.place..self.place + bytes];
        part.copy_from_slice(&number.to_le_bytes()[..bytes]);
        if high_first {
            part.reverse();
        }
        self.place += bytes;
    }
}

impl Visitor for Writer<'_> {
    fn field(&mut self, _name: &'static str, length: usize) {
        self.put(1, self.tag as u32, false);
        self.put(2, length as u32, made(Mistake::FieldLengthsSavedHighFirst));
        self.tag += 1;
    }

    fn number(&mut self, _name: &'static str, bytes: usize, number: &mut u32) {
        self.put(bytes, *number, made(Mistake::NumbersSavedHighFirst));
    }
}

/// Every number of a block, and the tag and the length of every field: name,
/// place and how many bytes.
pub fn places() -> Vec<(String, usize, usize)> {
    let mut places = Places { field: "", list: Vec::new(), next: 0 };
    Fields::default().visit(&mut places);
    places.list
}

struct Places {
    field: &'static str,
    list: Vec<(String, usize, usize)>,
    next: usize,
}

impl Places {
    fn add(&mut self, name: &str, bytes: usize) {
        let alike = format!("{} {name}", self.field);
        let before = self.list.iter().filter(|(known, ..)| known.starts_with(&alike)).count();
        let name = if before == 0 { alike } else { format!("{alike}, number {before}") };
        self.list.push((name, self.next, bytes));
        self.next += bytes;
    }
}

impl Visitor for Places {
    fn field(&mut self, name: &'static str, _length: usize) {
        self.field = name;
        self.add("tag", 1);
        self.add("length", 2);
    }

    fn number(&mut self, name: &'static str, bytes: usize, _number: &mut u32) {
        self.add(name, bytes);
    }
}

/// The numbers of a block, and the rules that it breaks.
pub fn read(block: &[u8]) -> (Fields, Rules) {
    let mut fields = Fields::default();
    let mut rules = Rules::default();
    let long = made(Mistake::LongerBlockTaken) && block.len() > BLOCK_LENGTH;
    if block.len() != BLOCK_LENGTH && !long {
        here!();
        rules.note(Rule::Length, true);
        return (fields, rules);
    }
    let mut reader = Reader { rest: block, tag: FIRST_TAG, rules };
    fields.visit(&mut reader);
    if cfg!(wrong) {
        reader.rules.forgive();
    }
    rules = Rules(reader.rules.0 | fields.broken().0);
    if rules.is_empty() {
        here!();
    } else {
        here!();
    }
    (fields, rules)
}

/// The numbers as bytes, whatever rules they break.
pub fn written(mut fields: Fields) -> [u8; BLOCK_LENGTH] {
    let mut block = [0; BLOCK_LENGTH];
    fields.visit(&mut Writer { block: &mut block, place: 0, tag: FIRST_TAG });
    block
}

/// The state that is saved as these bytes, or the rules that they break.
pub fn load(block: &[u8]) -> Result<Controller, Rules> {
    match read(block) {
        (fields, rules) if rules.is_empty() => Ok(Controller::with_fields(&fields)),
        (_, rules) => Err(rules),
    }
}

pub fn save(controller: &Controller) -> [u8; BLOCK_LENGTH] {
    let mut fields = controller.fields();
    if cfg!(wrong) {
        fields.leave_out();
    }
    written(fields)
}

/// What a mistake saves otherwise.
impl Fields {
    fn leave_out(&mut self) {
        let forget = |mistake: Mistake, number: &mut u32| *number = if made(mistake) { 0 } else { *number };
        let Fields { control, errors, .. } = self;
        forget(Mistake::SlakiNotSaved, &mut control.slaki);
        forget(Mistake::ErriNotSaved, &mut control.erri);
        forget(Mistake::TimerNotSaved, &mut control.timer);
        forget(Mistake::RecoveryCountNotSaved, &mut control.recovery_count);
        forget(Mistake::InitializedNotSaved, &mut control.initialized_since_bus_off);
        forget(Mistake::LecNotSaved, &mut errors.lec);
        forget(Mistake::FinitNotSaved, &mut self.filters.initializing);
        self.requests.aborts.iter_mut().for_each(|flag| forget(Mistake::AbortsNotSaved, flag));
        self.mailboxes.iter_mut().for_each(|mailbox| forget(Mistake::AlstNotSaved, &mut mailbox.alst));
        for fifo in &mut self.fifos {
            forget(Mistake::FullNotSaved, &mut fifo.full);
            forget(Mistake::FovrNotSaved, &mut fifo.overrun);
            if made(Mistake::LaterFramesNotSaved) {
                fifo.places[1..].fill(Stored::default());
            }
        }
        if made(Mistake::TecSavedInOneByte) {
            errors.tec &= 0xFF;
        }
        if made(Mistake::LastBankNotSaved) {
            self.banks[BANKS - 1] = [0; 2];
        }
        if made(Mistake::BankWordsExchanged) {
            self.banks.iter_mut().for_each(|words| words.reverse());
        }
        if made(Mistake::ModeNumbersExchanged) && control.mode != NORMAL {
            control.mode = INITIALIZATION + SLEEP - control.mode;
        }
    }
}
