//! Blocks by seed: states within the ranges of docs/BLOCK.md, built number by
//! number, and ones with a number changed.

use crate::block::{Fields, FifoFields, MailboxFields, Visitor, INITIALIZATION, NORMAL, NO_MAILBOX, NUMBERS, SLEEP};
use crate::fifo::{Frame, Stored};
use crate::registers::{btr, identifier, ier, length_time, mcr, BANKS, FIFO_DEPTH, FILTER_WORD, MAILBOXES};
use crate::rng::Rng;

/// What the rules across fields go by.
#[derive(Clone, Copy)]
pub struct Shape {
    mode: u32,
    bus_off: bool,
    sending: bool,
}

const fn shape(mode: u32, bus_off: bool, sending: bool) -> Shape {
    Shape { mode, bus_off, sending }
}

/// A frame is on the wire.
pub const SENDING: Shape = shape(NORMAL, false, true);

pub const SHAPES: [Shape; 7] = [
    shape(NORMAL, false, false),
    SENDING,
    shape(NORMAL, true, false),
    shape(INITIALIZATION, false, false),
    shape(INITIALIZATION, true, false),
    shape(SLEEP, false, false),
    shape(SLEEP, true, false),
];

/// A state within the ranges.
pub fn within(rng: &mut Rng, shape: Shape) -> Fields {
    let mut fields = Fields::default();
    set_requests(rng, &mut fields, shape);
    set_control(rng, &mut fields, shape);
    set_errors(rng, &mut fields, shape);
    for x in 0..MAILBOXES {
        fields.mailboxes[x] = mailbox(rng, fields.requests.names(x));
    }
    fields.fifos = [(); 2].map(|()| fifo(rng));
    let words = [(); 4].map(|()| any_word(rng) & FILTER_WORD);
    [fields.filters.mode, fields.filters.scale, fields.filters.assignment, fields.filters.activation] = words;
    fields.filters.initializing = flag(rng);
    fields.banks.iter_mut().flatten().for_each(|value| *value = any_word(rng));
    fields
}

fn flag(rng: &mut Rng) -> u32 {
    rng.below(2) as u32
}

/// All bits, none, one, or some.
fn any_word(rng: &mut Rng) -> u32 {
    match rng.below(6) {
        0 => 0,
        1 => u32::MAX,
        2 => 1 << rng.below(32),
        _ => rng.word(),
    }
}

/// The ends of a range more often than the rest.
fn in_range(rng: &mut Rng, from: u64, to: u64) -> u32 {
    match rng.below(4) {
        0 => from as u32,
        1 => to as u32,
        _ => rng.within(from, to) as u32,
    }
}

fn set_requests(rng: &mut Rng, fields: &mut Fields, shape: Shape) {
    let requests = &mut fields.requests;
    let (first, step) = (rng.below(3) as u32, rng.within(1, 2) as u32);
    let waiting = rng.within(shape.sending as u64, 3);
    requests.order = [0, 1, 2].map(|place| (first + step * place) % NO_MAILBOX);
    requests.order[waiting as usize..].fill(NO_MAILBOX);
    requests.on_wire = NO_MAILBOX;
    if shape.sending {
        let x = requests.order[rng.below(waiting) as usize];
        requests.on_wire = x;
        requests.aborts[x as usize] = flag(rng);
    }
}

fn set_control(rng: &mut Rng, fields: &mut Fields, Shape { mode, bus_off, sending }: Shape) {
    let control = &mut fields.control;
    let (none, both) = (0, mcr::INRQ | mcr::SLEEP);
    let modes = match mode {
        _ if sending => rng.pick(&[none, mcr::INRQ, mcr::SLEEP, both]),
        NORMAL => rng.pick(&[none, both]),
        INITIALIZATION => rng.pick(&[none, mcr::INRQ, both]),
        _ => rng.pick(&[none, mcr::SLEEP, both]),
    };
    control.mode = mode;
    control.mcr = any_word(rng) & mcr::WRITABLE & !both | modes;
    control.ier = any_word(rng) & ier::WRITABLE;
    control.btr = any_word(rng) & btr::WRITABLE;
    if sending && control.btr & btr::LBKM == 0 {
        control.btr &= !btr::SILM;
    }
    if control.mcr & mcr::TTCM != 0 {
        control.timer = in_range(rng, 0, 65_535);
    }
    if bus_off {
        let initialized = mode == INITIALIZATION;
        control.recovery_count = if initialized { 0 } else { in_range(rng, 0, 127) };
        control.initialized_since_bus_off = if initialized { 1 } else { flag(rng) };
    }
    control.erri = flag(rng);
    control.wkui = flag(rng);
    control.slaki = if mode == SLEEP { flag(rng) } else { 0 };
}

fn set_errors(rng: &mut Rng, fields: &mut Fields, shape: Shape) {
    let most = rng.pick(&[255, 255, 248, 247, 128, 127, 96, 95, 7]);
    fields.errors.tec = if shape.bus_off { in_range(rng, 256, 263) } else { in_range(rng, 0, most) };
    fields.errors.rec = rng.pick(&[0, 1, 95, 96, 127, 128, 129, 247, 248, 254, 255]);
    fields.errors.lec = in_range(rng, 0, 7);
}

fn mailbox(rng: &mut Rng, requested: bool) -> MailboxFields {
    let mut mailbox = MailboxFields {
        identifier: any_word(rng) & !identifier::TXRQ,
        length_time: any_word(rng) & length_time::TRANSMIT_WRITABLE,
        data_low: any_word(rng),
        data_high: any_word(rng),
        rqcp: if requested { 0 } else { flag(rng) },
        ..MailboxFields::default()
    };
    match rng.below(4) {
        0 => mailbox.txok = mailbox.rqcp,
        1 => mailbox.alst = 1,
        2 => mailbox.terr = 1,
        _ => {}
    }
    mailbox
}

fn fifo(rng: &mut Rng) -> FifoFields {
    let mut fifo =
        FifoFields { pending: rng.below(4) as u32, full: flag(rng), overrun: flag(rng), ..Default::default() };
    fifo.places.iter_mut().take(FIFO_DEPTH.min(fifo.pending as usize)).for_each(|place| *place = stored(rng));
    fifo
}

fn stored(rng: &mut Rng) -> Stored {
    let word = any_word(rng) & !1;
    let stray = if word & identifier::IDE == 0 { identifier::LOW } else { 0 };
    let frame = Frame { identifier: word & !stray, length: rng.below(16) as u8, data: rng.next() };
    let last_filter = 4 * BANKS as u64 - 1;
    let number = in_range(rng, 0, last_filter) as u8;
    frame.as_stored(number, rng.word() as u16)
}

/// A state within the ranges, with one or two numbers changed.
pub fn beside(rng: &mut Rng, shape: Shape) -> Fields {
    let mut fields = within(rng, shape);
    for _ in 0..rng.within(1, 2) {
        // The values of the banks come last; any is in range, so a few will do.
        let left = rng.below(NUMBERS - 2 * BANKS as u64 + 4);
        fields.visit(&mut Changer { rng, left });
    }
    fields
}

/// Gives one number of a block another value.
struct Changer<'a> {
    rng: &'a mut Rng,
    /// How many numbers stand before it.
    left: u64,
}

impl Visitor for Changer<'_> {
    fn field(&mut self, _name: &'static str, _length: usize) {}

    fn number(&mut self, _name: &'static str, bytes: usize, number: &mut u32) {
        if self.left == 0 {
            let value = match self.rng.below(6) {
                0 => number.wrapping_add(1),
                1 => number.wrapping_sub(1),
                2 => *number ^ 1 << self.rng.below(8 * bytes as u64),
                3 => self.rng.pick(&[1, 2, 3, 4, 56, 128, 255, 256, 263, 264, 65_535]),
                4 => any_word(self.rng),
                _ => self.rng.below(8) as u32,
            };
            *number = value & u32::MAX >> (32 - 8 * bytes);
        }
        self.left = self.left.wrapping_sub(1);
    }
}
