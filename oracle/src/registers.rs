//! Offsets and bit places of the bxCAN registers (RM0364, section 30.9).

use crate::here;

pub const MAILBOXES: usize = 3;
pub const FIFOS: usize = 2;
pub const FIFO_DEPTH: usize = 3;
pub const BANKS: usize = 14;

pub mod mcr {
    pub const INRQ: u32 = 1 << 0;
    pub const SLEEP: u32 = 1 << 1;
    pub const TXFP: u32 = 1 << 2;
    pub const RFLM: u32 = 1 << 3;
    pub const NART: u32 = 1 << 4;
    pub const AWUM: u32 = 1 << 5;
    pub const ABOM: u32 = 1 << 6;
    pub const TTCM: u32 = 1 << 7;
    pub const RESET: u32 = 1 << 15;
    pub const DBF: u32 = 1 << 16;
    pub const WRITABLE: u32 = 0x0001_00FF;
    pub const AT_RESET: u32 = 0x0001_0002;
}

pub mod msr {
    pub const INAK: u32 = 1 << 0;
    pub const SLAK: u32 = 1 << 1;
    pub const ERRI: u32 = 1 << 2;
    pub const WKUI: u32 = 1 << 3;
    pub const SLAKI: u32 = 1 << 4;
    pub const TXM: u32 = 1 << 8;
    pub const SAMP: u32 = 1 << 10;
    pub const RX: u32 = 1 << 11;
}

/// TSR: one byte per mailbox below, the common fields on top.
pub mod tsr {
    pub const RQCP: u32 = 1 << 0;
    pub const TXOK: u32 = 1 << 1;
    pub const ALST: u32 = 1 << 2;
    pub const TERR: u32 = 1 << 3;
    pub const ABRQ: u32 = 1 << 7;
    pub const BITS_PER_MAILBOX: usize = 8;
    pub const CODE_PLACE: usize = 24;
    pub const TME_PLACE: usize = 26;
    pub const LOW_PLACE: usize = 29;
}

pub mod rfr {
    pub const FULL: u32 = 1 << 3;
    pub const FOVR: u32 = 1 << 4;
    pub const RFOM: u32 = 1 << 5;
}

pub mod ier {
    pub const TMEIE: u32 = 1 << 0;
    /// EWGIE, EPVIE, BOFIE stand in the order of EWGF, EPVF, BOFF.
    pub const ERROR_FLAGS_PLACE: usize = 8;
    pub const LECIE: u32 = 1 << 11;
    pub const ERRIE: u32 = 1 << 15;
    pub const WKUIE: u32 = 1 << 16;
    pub const SLKIE: u32 = 1 << 17;
    pub const WRITABLE: u32 = 0x0003_8F7F;

    /// FMPIE, FFIE, FOVIE of FIFO x, which stand together from bit 1 + 3x upward.
    pub const fn of_fifo(word: u32, x: usize) -> u32 {
        word >> (1 + 3 * x) & 7
    }

    /// ERRIE, WKUIE, SLKIE at the places of ERRI, WKUI, SLAKI in MSR.
    pub const fn of_flags(word: u32) -> u32 {
        word >> 13 & (super::msr::ERRI | super::msr::WKUI | super::msr::SLAKI)
    }
}

pub mod esr {
    pub const EWGF: u32 = 1 << 0;
    pub const EPVF: u32 = 1 << 1;
    pub const BOFF: u32 = 1 << 2;
    pub const LEC_PLACE: usize = 4;
    pub const TEC_PLACE: usize = 16;
    pub const REC_PLACE: usize = 24;
}

pub mod btr {
    pub const LBKM: u32 = 1 << 30;
    pub const SILM: u32 = 1 << 31;
    pub const WRITABLE: u32 = 0xC37F_03FF;
    pub const AT_RESET: u32 = 0x0123_0000;
}

/// The identifier word, the same in TI and RI but for bit 0.
pub mod identifier {
    pub const TXRQ: u32 = 1 << 0;
    pub const RTR: u32 = 1 << 1;
    pub const IDE: u32 = 1 << 2;
    /// STID, or EXID 28 to 18.
    pub const TOP: u32 = 0xFFE0_0000;
    /// EXID 17 to 0.
    pub const LOW: u32 = 0x001F_FFF8;
    pub const LOW_PLACE: usize = 3;
}

/// TDT and RDT.
pub mod length_time {
    pub const DLC: u32 = 0x0000_000F;
    pub const TRANSMIT_WRITABLE: u32 = 0xFFFF_010F;
    pub const FMI_PLACE: usize = 8;
    pub const TIME_PLACE: usize = 16;
}

pub mod fmr {
    pub const FINIT: u32 = 1 << 0;
    pub const FIXED: u32 = 0x2A1C_0E00;
}

/// The implemented bits of FM1R, FS1R, FFA1R and FA1R.
pub const FILTER_WORD: u32 = 0x3FFF;

/// The four words of a transmit mailbox or of a FIFO output.
#[derive(Clone, Copy, PartialEq, Eq, Debug)]
pub enum MailboxWord {
    Identifier,
    LengthTime,
    DataLow,
    DataHigh,
}

impl MailboxWord {
    fn at(offset: u16) -> MailboxWord {
        match offset / 4 % 4 {
            0 => MailboxWord::Identifier,
            1 => MailboxWord::LengthTime,
            2 => MailboxWord::DataLow,
            _ => MailboxWord::DataHigh,
        }
    }
}

#[derive(Clone, Copy, PartialEq, Eq, Debug)]
pub enum Register {
    Mcr,
    Msr,
    Tsr,
    Rfr(usize),
    Ier,
    Esr,
    Btr,
    Mailbox(usize, MailboxWord),
    FifoOutput(usize, MailboxWord),
    Fmr,
    Fm1r,
    Fs1r,
    Ffa1r,
    Fa1r,
    /// Bank number, and 0 for R1, 1 for R2.
    Bank(usize, usize),
}

impl Register {
    /// The register at an offset; none if unaligned or not in the map.
    #[inline(always)]
    pub fn at(offset: u16) -> Option<Register> {
        if offset % 4 != 0 {
            here!();
            return None;
        }
        Some(match offset {
            0x000 => Register::Mcr,
            0x004 => Register::Msr,
            0x008 => Register::Tsr,
            0x00C => Register::Rfr(0),
            0x010 => Register::Rfr(1),
            0x014 => Register::Ier,
            0x018 => Register::Esr,
            0x01C => Register::Btr,
            0x180..=0x1AC => Register::Mailbox((offset as usize - 0x180) / 16, MailboxWord::at(offset)),
            0x1B0..=0x1CC => Register::FifoOutput((offset as usize - 0x1B0) / 16, MailboxWord::at(offset)),
            0x200 => Register::Fmr,
            0x204 => Register::Fm1r,
            0x20C => Register::Fs1r,
            0x214 => Register::Ffa1r,
            0x21C => Register::Fa1r,
            0x240..=0x2AC => Register::Bank((offset as usize - 0x240) / 8, offset as usize / 4 % 2),
            _ => {
                here!();
                return None;
            }
        })
    }

    /// The manual's name, for messages.
    pub fn name(self) -> String {
        let words = |x: usize, prefix: char, word: MailboxWord| match word {
            MailboxWord::Identifier => format!("{prefix}I{x}R"),
            MailboxWord::LengthTime => format!("{prefix}DT{x}R"),
            MailboxWord::DataLow => format!("{prefix}DL{x}R"),
            MailboxWord::DataHigh => format!("{prefix}DH{x}R"),
        };
        match self {
            Register::Mcr => "MCR".into(),
            Register::Msr => "MSR".into(),
            Register::Tsr => "TSR".into(),
            Register::Rfr(x) => format!("RF{x}R"),
            Register::Ier => "IER".into(),
            Register::Esr => "ESR".into(),
            Register::Btr => "BTR".into(),
            Register::Mailbox(x, word) => words(x, 'T', word),
            Register::FifoOutput(x, word) => words(x, 'R', word),
            Register::Fmr => "FMR".into(),
            Register::Fm1r => "FM1R".into(),
            Register::Fs1r => "FS1R".into(),
            Register::Ffa1r => "FFA1R".into(),
            Register::Fa1r => "FA1R".into(),
            Register::Bank(bank, half) => format!("F{bank}R{}", half + 1),
        }
    }
}
