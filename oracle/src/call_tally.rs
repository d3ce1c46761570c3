//! What random calls have met, and what they must have met.

use crate::block::{Fields, Rule, INITIALIZATION, NORMAL, NO_MAILBOX, RULES, SLEEP};
use crate::calls::CODE_BLOCK;
use crate::registers::{btr, identifier, length_time, mcr};
use crate::writer::WideStep;

/// Every call with the codes that it can give.
pub const CALLS: [(&str, &[u8]); 10] = [
    ("bxcan_reset", &[0, 10]),
    ("bxcan_read", &[0, 1, 10]),
    ("bxcan_write", &[0, 1, 2, 3, 10]),
    ("bxcan_idle", &[0, 4, 10]),
    ("bxcan_bit_times", &[0, 5, 10]),
    ("bxcan_activity", &[0, 4, 10]),
    ("bxcan_start", &[0, 4, 10]),
    ("bxcan_own_end", &[0, 4, 5, 10]),
    ("bxcan_frame", &[0, 4, 5, 10]),
    ("bxcan_receive_error", &[0, 4, 5, 10]),
];

/// The place in `CALLS`.
pub fn call_number(step: WideStep) -> usize {
    match step {
        WideStep::Reset => 0,
        WideStep::Read(_) => 1,
        WideStep::Write(..) => 2,
        WideStep::Idle => 3,
        WideStep::BitTimes(_) => 4,
        WideStep::Activity => 5,
        WideStep::Start => 6,
        WideStep::OwnEnd(_) => 7,
        WideStep::Frame { .. } => 8,
        WideStep::ReceiveError { .. } => 9,
    }
}

type Edge = (&'static str, fn(&Fields) -> bool);

/// What stands just within the rules.
const EDGES: [Edge; 24] = [
    ("a timer of 65535", |fields| fields.control.timer == 65_535),
    ("a recovery count of 127", |fields| fields.control.recovery_count == 127),
    ("a recovery count in Sleep", |fields| fields.control.recovery_count > 0 && fields.control.mode == SLEEP),
    ("Initialization in bus-off", |fields| fields.errors.tec > 255 && fields.control.mode == INITIALIZATION),
    ("Normal in bus-off, Initialization entered", |fields| {
        fields.control.initialized_since_bus_off == 1 && fields.control.mode == NORMAL
    }),
    ("SLAKI", |fields| fields.control.slaki == 1),
    ("WKUI outside Sleep", |fields| fields.control.wkui == 1 && fields.control.mode != SLEEP),
    ("TEC 263", |fields| fields.errors.tec == 263),
    ("TEC 256", |fields| fields.errors.tec == 256),
    ("TEC 255 and a frame on the wire", |fields| fields.errors.tec == 255 && on_wire(fields)),
    ("LEC 7", |fields| fields.errors.lec == 7),
    ("extended bits of a standard TI", |fields| {
        let stray = |word: u32| word & identifier::IDE == 0 && word & identifier::LOW != 0;
        fields.mailboxes.iter().any(|mailbox| stray(mailbox.identifier))
    }),
    ("ALST=1 and RQCP=0", |fields| fields.mailboxes.iter().any(|mailbox| mailbox.alst == 1 && mailbox.rqcp == 0)),
    ("three requests outside Normal", |fields| fields.requests.order[2] < 3 && fields.control.mode != NORMAL),
    ("requests in silent mode", |fields| fields.control.btr & btr::SILM != 0 && fields.requests.order[0] < 3),
    ("a remembered abort", |fields| fields.requests.aborts.contains(&1)),
    ("a frame on the wire and SLEEP alone", |fields| on_wire(fields) && modes(fields) == mcr::SLEEP),
    ("a frame on the wire in silent loopback", |fields| on_wire(fields) && fields.control.btr >> 30 == 3),
    ("INRQ and SLEEP in Normal", |fields| modes(fields) == 3 && !on_wire(fields) && fields.control.mode == NORMAL),
    ("FMI 55", |fields| any_frame(fields, |_, length_time| length_time >> 8 & 0xFF == 55)),
    ("TIME and TTCM=0", |fields| {
        fields.control.mcr & mcr::TTCM == 0 && any_frame(fields, |_, length_time| length_time >> 16 != 0)
    }),
    ("a remote frame of length code 15", |fields| {
        any_frame(fields, |word, length_time| word & identifier::RTR != 0 && length_time & length_time::DLC == 15)
    }),
    ("FULL without frames", |fields| fields.fifos.iter().any(|fifo| fifo.full == 1 && fifo.pending == 0)),
    ("FOVR without FULL", |fields| fields.fifos.iter().any(|fifo| fifo.overrun == 1 && fifo.full == 0)),
];

type End = (&'static str, u32, u8, fn(&Fields) -> bool);

/// Own ends 8 and 9 by result and code, and what the block before them has.
const ENDS: [End; 10] = [
    ("own end 8 done by TEC alone", 8, 0, |fields| fields.errors.rec < 128),
    ("own end 8 done by REC alone", 8, 0, |fields| fields.errors.tec < 128),
    ("own end 8 done by both counters", 8, 0, |fields| fields.errors.tec.min(fields.errors.rec) > 127),
    ("own end 8 done with NART=1", 8, 0, |fields| fields.control.mcr & mcr::NART != 0),
    ("own end 8 done with a remembered abort", 8, 0, |fields| fields.requests.aborts.contains(&1)),
    ("own end 8 refused for EPVF alone", 8, 4, |fields| on_wire(fields) && !is_loopback(fields)),
    ("own end 8 refused for LBKM alone", 8, 4, |fields| on_wire(fields) && is_passive(fields)),
    ("own end 8 refused for none on the wire alone", 8, 4, |fields| {
        !on_wire(fields) && is_passive(fields) && !is_loopback(fields)
    }),
    ("own end 9 with a frame on the wire", 9, 5, on_wire),
    ("own end 9 with none on the wire", 9, 5, |fields| !on_wire(fields)),
];

fn is_passive(fields: &Fields) -> bool {
    fields.errors.tec.max(fields.errors.rec) > 127
}

fn is_loopback(fields: &Fields) -> bool {
    fields.control.btr & btr::LBKM != 0
}

fn on_wire(fields: &Fields) -> bool {
    fields.requests.on_wire != NO_MAILBOX
}

fn modes(fields: &Fields) -> u32 {
    fields.control.mcr & (mcr::INRQ | mcr::SLEEP)
}

fn any_frame(fields: &Fields, test: fn(u32, u32) -> bool) -> bool {
    let mut frames = fields.fifos.iter().flat_map(|fifo| fifo.places.iter().take(fifo.pending as usize));
    frames.any(|frame| test(frame.identifier, frame.length_time))
}

#[derive(Clone, Debug)]
pub struct Tally {
    pub calls: u64,
    /// Blocks changed: a read took them, or refused them.
    pub accepted: u64,
    pub refused: u64,
    /// By call and code.
    codes: [[u64; CODE_BLOCK as usize + 1]; CALLS.len()],
    /// Blocks that break just one rule, by this rule.
    rules: [u64; RULES.len()],
    edges: [u64; EDGES.len()],
    ends: [u64; ENDS.len()],
}

impl Tally {
    pub fn new() -> Tally {
        Tally {
            calls: 0,
            accepted: 0,
            refused: 0,
            codes: [[0; CODE_BLOCK as usize + 1]; CALLS.len()],
            rules: [0; RULES.len()],
            edges: [0; EDGES.len()],
            ends: [0; ENDS.len()],
        }
    }

    pub fn note_code(&mut self, step: WideStep, code: u8) {
        self.codes[call_number(step)][code as usize] += 1;
    }

    /// A block was refused for this rule alone.
    pub fn note_rule(&mut self, rule: Rule) {
        self.rules[rule as usize] += 1;
    }

    /// A block with these numbers was taken.
    pub fn note_taken(&mut self, fields: &Fields) {
        for ((_, edge), met) in EDGES.iter().zip(&mut self.edges) {
            *met += edge(fields) as u64;
        }
    }

    /// An own end on a block with these numbers had this code.
    pub fn note_end(&mut self, before: &Fields, result: u32, code: u8) {
        for (&(_, of_result, of_code, has), met) in ENDS.iter().zip(&mut self.ends) {
            *met += ((of_result, of_code) == (result, code) && has(before)) as u64;
        }
    }

    /// What was never met, in words.
    pub fn missing(&self) -> Vec<String> {
        let mut missing = Vec::new();
        for (&(name, codes), met) in CALLS.iter().zip(&self.codes) {
            let never = codes.iter().filter(|&&code| met[code as usize] == 0);
            missing.extend(never.map(|code| format!("{name} with code {code}")));
        }
        let never = RULES.iter().zip(&self.rules).filter(|(_, &met)| met == 0);
        missing.extend(never.map(|((.., text), _)| format!("a block refused for this alone: {text}")));
        let never = EDGES.iter().zip(&self.edges).filter(|(_, &met)| met == 0);
        missing.extend(never.map(|((name, _), _)| format!("a block taken with {name}")));
        let never = ENDS.iter().zip(&self.ends).filter(|(_, &met)| met == 0);
        missing.extend(never.map(|((name, ..), _)| name.to_string()));
        missing
    }
}
