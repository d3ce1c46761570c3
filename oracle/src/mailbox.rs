//! The three transmit mailboxes: requests, their order, and TSR.

use crate::block::{bit, MailboxFields, RequestFields, NO_MAILBOX};
use crate::fifo::Frame;
use crate::here;
use crate::probe::{made, Mistake};
use crate::registers::{identifier, length_time, tsr, MailboxWord, MAILBOXES};

#[derive(Clone, Copy, PartialEq, Eq, Debug, Default)]
pub struct Mailbox {
    /// TI without TXRQ.
    identifier: u32,
    length_time: u32,
    data_low: u32,
    data_high: u32,
    /// A request is outstanding: the mailbox is pending or on the wire.
    requested: bool,
    /// The number of that request; lower is older.
    request: u64,
    /// RQCP, TXOK, ALST, TERR and ABRQ as in this mailbox's byte of TSR.
    status: u32,
}

impl Mailbox {
    pub fn is_empty(&self) -> bool {
        !self.requested
    }

    pub fn word(&self, word: MailboxWord) -> u32 {
        match word {
            MailboxWord::Identifier if made(Mistake::ExidOfStandardReadsZero) => self.frame().identifier | self.txrq(),
            MailboxWord::Identifier => self.identifier | self.txrq(),
            MailboxWord::LengthTime => self.length_time,
            MailboxWord::DataLow => self.data_low,
            MailboxWord::DataHigh => self.data_high,
        }
    }

    fn txrq(&self) -> u32 {
        if made(Mistake::TxrqStaysSet) {
            return (self.request != 0) as u32;
        }
        self.requested as u32 & !(made(Mistake::TxrqReadsZero) as u32)
    }

    /// TIME of TDT, taken at the last start.
    pub fn time(&self) -> u16 {
        (self.length_time >> length_time::TIME_PLACE) as u16
    }

    fn take_time(&mut self, timer: u16) {
        let rest = self.length_time & ((1 << length_time::TIME_PLACE) - 1);
        self.length_time = rest | (timer as u32) << length_time::TIME_PLACE;
    }

    /// The frame this mailbox sends. EXID of a standard one is sent as 0.
    pub fn frame(&self) -> Frame {
        let sent = if self.is_extended() || made(Mistake::LoopbackKeepsExidOfStandard) {
            here!();
            self.identifier
        } else {
            here!();
            self.identifier & (identifier::TOP | identifier::RTR)
        };
        Frame {
            identifier: sent,
            length: (self.length_time & length_time::DLC) as u8,
            data: self.data_low as u64 | (self.data_high as u64) << 32,
        }
    }

    fn is_extended(&self) -> bool {
        self.identifier & identifier::IDE != 0
    }

    /// The frame's rank in arbitration, lower wins: the top 11 bits; then
    /// standard data, standard remote, extended; then the low 18 bits; then
    /// data before remote.
    fn arbitration_rank(&self) -> u32 {
        let top = self.identifier & identifier::TOP;
        let low = (self.identifier & identifier::LOW) >> identifier::LOW_PLACE;
        let remote = (self.identifier & identifier::RTR != 0) as u32;
        if self.is_extended() {
            here!();
            top | 2 << 19 | low << 1 | remote
        } else {
            here!();
            top | remote << 19
        }
    }

    /// As `arbitration_rank`, with whatever mistake is switched on.
    fn wrong_arbitration_rank(&self) -> u32 {
        let top = self.identifier & identifier::TOP;
        let low = (self.identifier & identifier::LOW) >> identifier::LOW_PLACE;
        let remote = (self.identifier & identifier::RTR != 0) as u32;
        match self.is_extended() {
            false if made(Mistake::PlainNumbersCompared) => top >> 21,
            true if made(Mistake::PlainNumbersCompared) => (top >> 21) << 18 | low,
            false if made(Mistake::StandardRemoteAfterExtended) => top | (remote * 3) << 19,
            false if made(Mistake::StandardRemoteTiesWithData) => top,
            false if made(Mistake::ExidOfStandardCompared) => top | remote << 19 | low << 1,
            true if made(Mistake::RemoteBeforeDataExtended) => top | 2 << 19 | low << 1 | (1 - remote),
            true if made(Mistake::ExtendedRemoteTiesWithData) => top | 2 << 19 | low << 1,
            true if made(Mistake::ExtendedBeforeStandard) => top | low << 1 | remote,
            false if made(Mistake::ExtendedBeforeStandard) => top | (2 + remote) << 19,
            _ => self.arbitration_rank(),
        }
    }

    fn set(&mut self, flags: u32) {
        self.status |= flags;
    }

    fn clear(&mut self, flags: u32) {
        self.status &= !flags;
    }

    fn has(&self, flag: u32) -> bool {
        self.status & flag != 0
    }

    fn accept_request(&mut self, number: u64) {
        self.requested = true;
        self.request = number;
        if !made(Mistake::RequestKeepsFlags) {
            self.clear(tsr::RQCP | tsr::TXOK | tsr::ALST | tsr::TERR);
        }
    }

    /// The request has ended: the mailbox is empty and says so.
    fn complete(&mut self) {
        self.requested = false;
        self.set(tsr::RQCP);
        if !made(Mistake::EmptyKeepsAbrq) {
            self.clear(tsr::ABRQ);
        }
    }

    /// Dropped by a master reset, without RQCP.
    fn drop_request(&mut self) {
        if made(Mistake::MasterResetSetsRqcp) && self.requested {
            self.set(tsr::RQCP);
        }
        self.requested &= made(Mistake::MasterResetKeepsRequests);
        self.clear(tsr::ABRQ);
        if made(Mistake::MasterResetClearsTransmitFlags) {
            self.status = 0;
        }
    }

    /// The clearing half of a write to TSR: this mailbox's byte of it.
    fn clear_flags(&mut self, byte: u32) {
        let all = tsr::RQCP | tsr::TXOK | tsr::ALST | tsr::TERR;
        if made(Mistake::RqcpClearsOnlyWhenSet) && !self.has(tsr::RQCP) {
            return self.clear(byte & (all & !tsr::RQCP));
        }
        if byte & tsr::RQCP != 0 && !made(Mistake::RqcpClearsOnlyItself) {
            here!();
            self.clear(all);
        } else if !made(Mistake::OnlyRqcpClears) || byte & tsr::RQCP != 0 {
            here!();
            self.clear(byte & all);
        }
    }
}

#[derive(Clone, PartialEq, Eq, Debug, Default)]
pub struct Transmitter {
    mailboxes: [Mailbox; MAILBOXES],
    on_wire: Option<usize>,
    /// Requests accepted so far: the next one's number.
    requests: u64,
}

impl Transmitter {
    pub fn mailbox(&self, x: usize) -> &Mailbox {
        &self.mailboxes[x]
    }

    pub fn on_wire(&self) -> Option<usize> {
        self.on_wire
    }

    fn is_pending(&self, x: usize) -> bool {
        self.mailboxes[x].requested && self.on_wire != Some(x)
    }

    pub fn any_completed(&self) -> bool {
        self.mailboxes.iter().fold(0, |flags, mailbox| flags | mailbox.status) & tsr::RQCP != 0
    }

    /// A write to a word of an empty mailbox.
    pub fn write(&mut self, x: usize, word: MailboxWord, value: u32) {
        let mailbox = &mut self.mailboxes[x];
        match word {
            MailboxWord::Identifier => {
                mailbox.identifier = value & !identifier::TXRQ;
                if value & identifier::TXRQ != 0 {
                    here!();
                    self.requests += 1;
                    mailbox.accept_request(self.requests);
                } else {
                    here!();
                    if made(Mistake::TxrqStaysSet) {
                        mailbox.request = 0;
                    }
                    if made(Mistake::TiWithoutTxrqClearsFlags) {
                        mailbox.status = 0;
                    }
                }
            }
            MailboxWord::LengthTime if made(Mistake::TdtStoresAllBits) => mailbox.length_time = value,
            MailboxWord::LengthTime if made(Mistake::TdtTimeReadOnly) => {
                mailbox.length_time = mailbox.length_time & 0xFFFF_0000 | value & 0x10F
            }
            MailboxWord::LengthTime => mailbox.length_time = value & length_time::TRANSMIT_WRITABLE,
            MailboxWord::DataLow => mailbox.data_low = value,
            MailboxWord::DataHigh => mailbox.data_high = value,
        }
    }

    /// Where a mailbox stands; lower goes first, ties to the lower mailbox.
    fn place(&self, x: usize, request_order: bool) -> (u64, usize) {
        let mailbox = &self.mailboxes[x];
        let tie = if made(Mistake::TiesToHigherMailbox) { MAILBOXES - x } else { x };
        if request_order {
            let wraps = made(Mistake::RequestNumbersIn16Bits);
            let number = if wraps { mailbox.request & 0xFFFF } else { mailbox.request };
            (number, tie)
        } else if cfg!(wrong) {
            (mailbox.wrong_arbitration_rank() as u64, tie)
        } else {
            (mailbox.arbitration_rank() as u64, x)
        }
    }

    fn pending(&self) -> impl Iterator<Item = usize> + '_ {
        (0..MAILBOXES).filter(|&x| self.is_pending(x))
    }

    pub fn first(&self, request_order: bool) -> Option<usize> {
        self.pending().min_by_key(|&x| self.place(x, request_order))
    }

    /// The lowest in priority of the mailboxes that aren't empty. One on the
    /// wire stands first, so it counts only where nothing is pending.
    fn lowest(&self, request_order: bool) -> Option<usize> {
        if made(Mistake::WireOneCanBeLowest) {
            let not_empty = (0..MAILBOXES).filter(|&x| !self.mailboxes[x].is_empty());
            return not_empty.max_by_key(|&x| self.place(x, request_order));
        }
        self.pending().max_by_key(|&x| self.place(x, request_order))
    }

    pub fn start(&mut self, x: usize, timer: u16) {
        self.on_wire = Some(x);
        let mailbox = &mut self.mailboxes[x];
        let retry = mailbox.status & (tsr::ALST | tsr::TERR) != 0;
        if !(made(Mistake::TimeTakenAtFirstTryOnly) && retry || made(Mistake::TimeNotTaken)) {
            mailbox.take_time(timer);
        }
        if made(Mistake::StartClearsTgt) {
            mailbox.length_time &= !0x100;
        }
    }

    /// The frame on the wire has ended well.
    pub fn end_well(&mut self, x: usize) {
        self.on_wire = None;
        let mailbox = &mut self.mailboxes[x];
        mailbox.set(tsr::TXOK);
        if !made(Mistake::GoodEndKeepsAlst) {
            mailbox.clear(tsr::ALST);
        }
        if !made(Mistake::GoodEndKeepsTerr) {
            mailbox.clear(tsr::TERR);
        }
        mailbox.complete();
    }

    /// The frame on the wire has failed with `reason`, ALST or TERR. Unless
    /// the request ends with it, it is pending in its old place.
    pub fn end_failed(&mut self, x: usize, reason: u32, single_try: bool) {
        self.on_wire = None;
        let mailbox = &mut self.mailboxes[x];
        if !made(Mistake::FailureAddsToEarlierFlag) {
            mailbox.clear(tsr::ALST | tsr::TERR);
        }
        mailbox.set(reason);
        mailbox.clear(tsr::TXOK);
        if made(Mistake::FailedRequestGoesLast) {
            self.requests += 1;
            mailbox.request = self.requests;
        }
        let aborted = mailbox.has(tsr::ABRQ) && !made(Mistake::AbortOnWireForgotten);
        if aborted {
            here!();
        }
        if single_try {
            here!();
        }
        if aborted || single_try {
            mailbox.complete();
            if made(Mistake::EmptiedByFailureWithoutRqcp) {
                mailbox.clear(tsr::RQCP);
            }
        } else {
            here!();
        }
    }

    /// The frame on the wire has failed by own end 8: as by an error.
    pub fn end_alone(&mut self, x: usize, single_try: bool) {
        if made(Mistake::AloneIsGood) {
            return self.end_well(x);
        }
        let reason = match () {
            () if made(Mistake::AloneSetsAlst) => tsr::ALST,
            () if made(Mistake::AloneWithoutTerr) => 0,
            () => tsr::TERR,
        };
        let old = self.mailboxes[x];
        if made(Mistake::AloneForgetsAbort) {
            self.mailboxes[x].clear(tsr::ABRQ);
        }
        let ends = single_try && !made(Mistake::AloneIgnoresNart) || made(Mistake::AloneEndsRequest);
        self.end_failed(x, reason, ends);
        if made(Mistake::AloneKeepsAlst) {
            self.mailboxes[x].set(old.status & tsr::ALST);
        }
        if made(Mistake::AloneGoesLast) {
            self.requests += 1;
            self.mailboxes[x].request = self.requests;
        }
        if made(Mistake::AloneStaysOnWire) && !self.mailboxes[x].is_empty() {
            self.on_wire = Some(x);
        }
    }

    /// A write to TSR: the clears, then the aborts.
    pub fn write_status(&mut self, word: u32) {
        for x in 0..MAILBOXES {
            let byte = word >> (tsr::BITS_PER_MAILBOX * x);
            if made(Mistake::AbortBeforeClears) && byte & tsr::ABRQ != 0 {
                self.abort(x);
            }
            self.mailboxes[x].clear_flags(byte);
            if byte & tsr::ABRQ != 0 && !made(Mistake::AbortBeforeClears) {
                self.abort(x);
            }
        }
    }

    fn abort(&mut self, x: usize) {
        if self.on_wire == Some(x) && made(Mistake::AbortOnWireActsAtOnce) {
            self.on_wire = None;
        }
        let mailbox = &mut self.mailboxes[x];
        if self.on_wire == Some(x) {
            here!();
            mailbox.set(tsr::ABRQ);
            if made(Mistake::AbortOnWireSetsRqcp) {
                mailbox.set(tsr::RQCP);
            }
        } else if mailbox.requested {
            here!();
            mailbox.clear(tsr::TXOK);
            if made(Mistake::AbortClearsAlstTerr) {
                mailbox.clear(tsr::ALST | tsr::TERR);
            }
            mailbox.complete();
            if made(Mistake::AbortWithoutRqcp) {
                mailbox.clear(tsr::RQCP);
            }
        } else {
            here!();
            if made(Mistake::AbortOfEmptySetsRqcp) {
                mailbox.set(tsr::RQCP);
            }
            if made(Mistake::AbortOfEmptyClearsTxok) {
                mailbox.clear(tsr::TXOK);
            }
            if made(Mistake::AbortOfEmptyIsRemembered) {
                mailbox.set(tsr::ABRQ);
            }
        }
    }

    /// TSR as it reads.
    pub fn status(&self, request_order: bool) -> u32 {
        let mut word = self.code(request_order) << tsr::CODE_PLACE;
        let mut not_empty = 0;
        for (x, mailbox) in self.mailboxes.iter().enumerate() {
            let hidden = if made(Mistake::AbrqReadsZero) { tsr::ABRQ } else { 0 };
            word |= (mailbox.status & !hidden) << (tsr::BITS_PER_MAILBOX * x);
            let shown_empty = made(Mistake::TmeSetOnWire) && self.on_wire == Some(x);
            if mailbox.is_empty() || shown_empty {
                word |= 1 << (tsr::TME_PLACE + x);
            } else {
                not_empty += 1;
            }
        }
        word | self.low(not_empty, request_order)
    }

    fn low(&self, not_empty: usize, request_order: bool) -> u32 {
        let needed = match () {
            () if made(Mistake::LowWithOneRequest) => 1,
            () if made(Mistake::LowWithThreeOnly) => 3,
            () => 2,
        };
        let counted = if made(Mistake::LowCountsPendingOnly) { self.pending().count() } else { not_empty };
        if counted < needed {
            here!();
            return 0;
        }
        here!();
        self.lowest(request_order).map_or(0, |x| 1 << (tsr::LOW_PLACE + x))
    }

    /// CODE: the lowest empty mailbox, else the lowest in priority.
    fn code(&self, request_order: bool) -> u32 {
        let mut numbers = 0..MAILBOXES;
        let empty = if made(Mistake::CodeGivesHighestEmpty) {
            numbers.rfind(|&x| self.mailboxes[x].is_empty())
        } else {
            numbers.find(|&x| self.mailboxes[x].is_empty())
        };
        if let Some(x) = empty {
            here!();
            return x as u32;
        }
        here!();
        if made(Mistake::CodeGivesFirstWhenFull) {
            return self.first(request_order).unwrap_or(0) as u32;
        }
        if made(Mistake::CodeZeroWhenFull) {
            return 0;
        }
        self.lowest(request_order).unwrap_or(0) as u32
    }

    /// Keeps only the words of the mailboxes (a mistake at a hardware reset).
    pub fn keep_words(&mut self) {
        self.on_wire = None;
        for mailbox in &mut self.mailboxes {
            *mailbox = Mailbox { requested: false, request: 0, status: 0, ..*mailbox };
        }
    }

    /// Keeps all but those words (a mistake at a master reset).
    pub fn clear_words(&mut self) {
        for mailbox in &mut self.mailboxes {
            *mailbox = Mailbox { status: mailbox.status, ..Mailbox::default() };
        }
    }

    pub fn pending_count(&self) -> usize {
        self.pending().count()
    }

    /// Drops every request and the frame on the wire (master reset).
    pub fn drop_requests(&mut self) {
        self.on_wire = None;
        for mailbox in &mut self.mailboxes {
            mailbox.drop_request();
        }
    }
}

/// The state block.
impl Mailbox {
    fn fields(&self) -> MailboxFields {
        MailboxFields {
            identifier: self.identifier | (made(Mistake::TxrqSaved) && self.requested) as u32,
            length_time: self.length_time,
            data_low: self.data_low,
            data_high: self.data_high,
            rqcp: self.has(tsr::RQCP) as u32,
            txok: self.has(tsr::TXOK) as u32,
            alst: self.has(tsr::ALST) as u32,
            terr: self.has(tsr::TERR) as u32,
        }
    }

    /// Without a request.
    fn with_fields(fields: &MailboxFields) -> Mailbox {
        Mailbox {
            identifier: fields.identifier,
            length_time: fields.length_time,
            data_low: fields.data_low,
            data_high: fields.data_high,
            requested: false,
            request: 0,
            status: bit(fields.rqcp, tsr::RQCP)
                | bit(fields.txok, tsr::TXOK)
                | bit(fields.alst, tsr::ALST)
                | bit(fields.terr, tsr::TERR),
        }
    }
}

impl Transmitter {
    pub fn fields(&self) -> ([MailboxFields; MAILBOXES], RequestFields) {
        let mut order = [NO_MAILBOX; MAILBOXES];
        let mut waiting: Vec<usize> = (0..MAILBOXES).filter(|&x| self.mailboxes[x].requested).collect();
        if !made(Mistake::OrderSavedByMailbox) {
            waiting.sort_by_key(|&x| self.mailboxes[x].request);
        }
        waiting.iter().zip(&mut order).for_each(|(&x, place)| *place = x as u32);
        let requests = RequestFields {
            order,
            on_wire: self.on_wire.map_or(NO_MAILBOX, |x| x as u32),
            aborts: self.mailboxes.map(|mailbox| mailbox.has(tsr::ABRQ) as u32),
        };
        (self.mailboxes.map(|mailbox| mailbox.fields()), requests)
    }

    /// The requests are accepted anew, in their order.
    pub fn with_fields(mailboxes: &[MailboxFields; MAILBOXES], requests: &RequestFields) -> Transmitter {
        let named = |x: u32| (x < NO_MAILBOX).then_some(x as usize);
        let mut transmitter = Transmitter {
            mailboxes: [0, 1, 2].map(|x| Mailbox::with_fields(&mailboxes[x])),
            on_wire: named(requests.on_wire),
            requests: 0,
        };
        let mut order: Vec<usize> = requests.order.into_iter().filter_map(named).collect();
        if made(Mistake::OrderLoadedBackwards) {
            order.reverse();
        }
        for x in order {
            transmitter.requests += 1;
            transmitter.mailboxes[x].requested = true;
            transmitter.mailboxes[x].request = transmitter.requests;
        }
        for x in (0..MAILBOXES).filter(|&x| requests.aborts[x] != 0) {
            transmitter.mailboxes[x].set(tsr::ABRQ);
        }
        transmitter
    }
}
