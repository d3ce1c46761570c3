//! The fields of the registers by name (RM0364, section 30.9).

use crate::registers::{MailboxWord, Register, BANKS, MAILBOXES};

/// Bits of a register that have a name.
#[derive(Clone, PartialEq, Eq, Debug)]
pub struct Field {
    pub name: String,
    /// The lowest bit.
    pub place: usize,
    /// How many bits.
    pub width: usize,
}

impl Field {
    /// The greatest number that it holds.
    pub fn limit(&self) -> u32 {
        u32::MAX >> (32 - self.width)
    }

    /// The bits of the word that are its own.
    pub fn mask(&self) -> u32 {
        self.limit() << self.place
    }

    /// Its number in a word.
    pub fn of(&self, word: u32) -> u32 {
        word >> self.place & self.limit()
    }

    pub fn is_flag(&self) -> bool {
        self.width == 1
    }
}

fn field(name: &str, place: usize, width: usize) -> Field {
    Field { name: name.into(), place, width }
}

fn numbered(name: &str, number: usize, place: usize, width: usize) -> Field {
    Field { name: format!("{name}{number}"), place, width }
}

fn flags(list: &[(&str, usize)]) -> Vec<Field> {
    list.iter().map(|&(name, place)| field(name, place, 1)).collect()
}

/// The fields of a register in the order in which a line names them.
pub fn fields(register: Register) -> Vec<Field> {
    match register {
        Register::Mcr => mcr(),
        Register::Msr => msr(),
        Register::Tsr => tsr(),
        Register::Rfr(x) => {
            vec![
                numbered("FMP", x, 0, 2),
                numbered("FULL", x, 3, 1),
                numbered("FOVR", x, 4, 1),
                numbered("RFOM", x, 5, 1),
            ]
        }
        Register::Ier => ier(),
        Register::Esr => esr(),
        Register::Btr => btr(),
        Register::Mailbox(_, word) => mailbox_fields(word, true),
        Register::FifoOutput(_, word) => mailbox_fields(word, false),
        Register::Fmr => flags(&[("FINIT", 0)]),
        Register::Fm1r => bits_of_banks("FBM"),
        Register::Fs1r => bits_of_banks("FSC"),
        Register::Ffa1r => bits_of_banks("FFA"),
        Register::Fa1r => bits_of_banks("FACT"),
        Register::Bank(..) => Vec::new(),
    }
}

fn mcr() -> Vec<Field> {
    let names = ["INRQ", "SLEEP", "TXFP", "RFLM", "NART", "AWUM", "ABOM", "TTCM"];
    let mut fields: Vec<Field> = names.iter().enumerate().map(|(place, name)| field(name, place, 1)).collect();
    fields.extend(flags(&[("RESET", 15), ("DBF", 16)]));
    fields
}

fn msr() -> Vec<Field> {
    flags(&[
        ("INAK", 0),
        ("SLAK", 1),
        ("ERRI", 2),
        ("WKUI", 3),
        ("SLAKI", 4),
        ("TXM", 8),
        ("RXM", 9),
        ("SAMP", 10),
        ("RX", 11),
    ])
}

fn tsr() -> Vec<Field> {
    let mut fields = Vec::new();
    for x in 0..MAILBOXES {
        for (name, place) in [("RQCP", 0), ("TXOK", 1), ("ALST", 2), ("TERR", 3), ("ABRQ", 7)] {
            fields.push(numbered(name, x, 8 * x + place, 1));
        }
    }
    fields.push(field("CODE", 24, 2));
    fields.extend((0..MAILBOXES).map(|x| numbered("TME", x, 26 + x, 1)));
    fields.extend((0..MAILBOXES).map(|x| numbered("LOW", x, 29 + x, 1)));
    fields
}

fn ier() -> Vec<Field> {
    flags(&[
        ("TMEIE", 0),
        ("FMPIE0", 1),
        ("FFIE0", 2),
        ("FOVIE0", 3),
        ("FMPIE1", 4),
        ("FFIE1", 5),
        ("FOVIE1", 6),
        ("EWGIE", 8),
        ("EPVIE", 9),
        ("BOFIE", 10),
        ("LECIE", 11),
        ("ERRIE", 15),
        ("WKUIE", 16),
        ("SLKIE", 17),
    ])
}

fn esr() -> Vec<Field> {
    let mut fields = flags(&[("EWGF", 0), ("EPVF", 1), ("BOFF", 2)]);
    fields.extend([field("LEC", 4, 3), field("TEC", 16, 8), field("REC", 24, 8)]);
    fields
}

fn btr() -> Vec<Field> {
    let mut fields = vec![field("BRP", 0, 10), field("TS1", 16, 4), field("TS2", 20, 3), field("SJW", 24, 2)];
    fields.extend(flags(&[("LBKM", 30), ("SILM", 31)]));
    fields
}

/// STID and EXID share their bits, so that a line names one of them.
fn mailbox_fields(word: MailboxWord, transmit: bool) -> Vec<Field> {
    let data = |first: usize| (0..4).map(|byte| numbered("DATA", first + byte, 8 * byte, 8)).collect();
    match word {
        MailboxWord::Identifier => {
            let mut fields = vec![field("STID", 21, 11), field("EXID", 3, 29), field("IDE", 2, 1), field("RTR", 1, 1)];
            if transmit {
                fields.push(field("TXRQ", 0, 1));
            }
            fields
        }
        MailboxWord::LengthTime if transmit => vec![field("DLC", 0, 4), field("TGT", 8, 1), field("TIME", 16, 16)],
        MailboxWord::LengthTime => vec![field("DLC", 0, 4), field("FMI", 8, 8), field("TIME", 16, 16)],
        MailboxWord::DataLow => data(0),
        MailboxWord::DataHigh => data(4),
    }
}

fn bits_of_banks(name: &str) -> Vec<Field> {
    (0..BANKS).map(|bank| numbered(name, bank, bank, 1)).collect()
}

/// The bits that belong to a field.
pub fn named_bits(register: Register) -> u32 {
    fields(register).iter().fold(0, |bits, field| bits | field.mask())
}

/// The field with this name.
pub fn field_named(register: Register, name: &[u8]) -> Option<Field> {
    fields(register).into_iter().find(|field| field.name.as_bytes() == name)
}

/// Every register of the map with its offset.
pub fn registers() -> Vec<(u16, Register)> {
    (0..0x400).step_by(4).filter_map(|offset| Some((offset, Register::at(offset)?))).collect()
}

/// The offset of the register with this name.
pub fn offset_named(name: &[u8]) -> Option<u16> {
    let named = |&(_, register): &(u16, Register)| register.name().as_bytes() == name;
    registers().into_iter().find(named).map(|(offset, _)| offset)
}
