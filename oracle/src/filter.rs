//! The fourteen filter banks: configuration, numbering and search.

use crate::block::FilterFields;
use crate::here;
use crate::probe::{made, Mistake};
use crate::registers::{identifier, BANKS, FIFOS, FILTER_WORD};
use std::num::NonZeroU16;

/// The four classes of filters, best first.
#[derive(Clone, Copy, PartialEq, Eq, Debug)]
pub enum Class {
    WideList,
    WideMask,
    NarrowList,
    NarrowMask,
}

const CLASSES: [Class; 4] = [Class::WideList, Class::WideMask, Class::NarrowList, Class::NarrowMask];

/// Places for banks: as many as a set of banks has bits, so that no place is out of range.
const SLOTS: usize = u16::BITS as usize;

/// A filter that took a frame: its number within its FIFO, and that FIFO.
/// The order of the fields is the order of precedence within a class.
#[derive(Clone, Copy, PartialEq, Eq, PartialOrd, Ord, Debug)]
pub struct Hit {
    pub number: u8,
    pub fifo: usize,
}

#[derive(Clone, PartialEq, Eq, Debug)]
pub struct Filters {
    /// FINIT of FMR.
    pub initializing: bool,
    /// FM1R: 1 is list, 0 is mask.
    mode: u32,
    /// FS1R: 1 is 32-bit, 0 is 16-bit.
    scale: u32,
    /// FFA1R: the FIFO of each bank.
    assignment: u32,
    /// FA1R.
    activation: u32,
    values: [[u32; 2]; SLOTS],
    /// The number of each bank's first filter; follows from mode, scale and assignment.
    first_number: [u8; SLOTS],
}

impl Filters {
    pub fn at_reset() -> Filters {
        let mut filters = Filters {
            initializing: true,
            mode: 0,
            scale: 0,
            assignment: 0,
            activation: 0,
            values: [[0; 2]; SLOTS],
            first_number: [0; SLOTS],
        };
        filters.number_banks();
        filters
    }

    pub fn mode(&self) -> u32 {
        self.mode
    }

    pub fn scale(&self) -> u32 {
        self.scale
    }

    pub fn assignment(&self) -> u32 {
        self.assignment
    }

    pub fn activation(&self) -> u32 {
        self.activation
    }

    pub fn is_active(&self, bank: usize) -> bool {
        self.activation >> bank & 1 != 0
    }

    pub fn value(&self, bank: usize, half: usize) -> u32 {
        self.values[bank][half]
    }

    pub fn set_mode(&mut self, word: u32) {
        self.mode = word & writable();
        self.number_banks();
    }

    pub fn set_scale(&mut self, word: u32) {
        self.scale = word & writable();
        self.number_banks();
    }

    pub fn set_assignment(&mut self, word: u32) {
        self.assignment = word & writable();
        self.number_banks();
    }

    pub fn set_activation(&mut self, word: u32) {
        self.activation = word & writable();
        if made(Mistake::InactiveBanksNotNumbered) {
            self.number_banks();
        }
    }

    pub fn set_value(&mut self, bank: usize, half: usize, word: u32) {
        self.values[bank][half] = if made(Mistake::BankBit0NotStored) { word & !1 } else { word };
    }

    /// Each FIFO numbers the filters of its own banks upward from 0,
    /// inactive banks included.
    fn number_banks(&mut self) {
        let mut next = [0u8; FIFOS];
        for bank in 0..BANKS {
            let fifo = if made(Mistake::OneNumberingForBothFifos) { 0 } else { self.fifo_of(bank) };
            self.first_number[bank] = if made(Mistake::FmiIsBank) { bank as u8 } else { next[fifo] };
            if !(made(Mistake::InactiveBanksNotNumbered) && !self.is_active(bank)) {
                next[fifo] += self.class_of(bank).filters_per_bank();
            }
        }
    }

    fn fifo_of(&self, bank: usize) -> usize {
        (self.assignment >> bank & 1) as usize
    }

    fn class_of(&self, bank: usize) -> Class {
        match (self.scale >> bank & 1, self.mode >> bank & 1) {
            (1, 1) => Class::WideList,
            (1, _) => Class::WideMask,
            (_, 1) => Class::NarrowList,
            _ => Class::NarrowMask,
        }
    }

    /// The banks that are searched, as a set of bits.
    fn active_banks(&self) -> u32 {
        match () {
            () if made(Mistake::InactiveBanksSearched) => FILTER_WORD,
            () if made(Mistake::FilterWordsHave28Banks) => self.activation & FILTER_WORD,
            () => self.activation,
        }
    }

    fn banks_of(&self, class: Class) -> u32 {
        match class {
            Class::WideList => self.scale & self.mode,
            Class::WideMask => self.scale & !self.mode,
            Class::NarrowList => !self.scale & self.mode,
            Class::NarrowMask => !self.scale & !self.mode,
        }
    }

    /// The filter that takes a frame with this identifier word: of all active
    /// filters that match, the best class, then the lowest number, then FIFO 0.
    pub fn search(&self, identifier: u32) -> Option<Hit> {
        let hit = self.first_class_hit(identifier);
        if hit.is_some() {
            here!();
        } else {
            here!();
        }
        hit
    }

    /// The best hit of the first class that has one.
    #[inline(always)]
    fn first_class_hit(&self, identifier: u32) -> Option<Hit> {
        if self.active_banks() == 0 {
            here!();
            return None;
        }
        if made(Mistake::Fifo0OverAllClassesFirst) {
            if let Some(class) = self.first_class_of_fifo_0(identifier) {
                return self.hit_of_class(class, identifier);
            }
        }
        let [first, second, third, fourth] = search_order();
        if let Some(hit) = self.hit_of_class(first, identifier) {
            return Some(hit);
        }
        if let Some(hit) = self.hit_of_class(second, identifier) {
            return Some(hit);
        }
        if let Some(hit) = self.hit_of_class(third, identifier) {
            return Some(hit);
        }
        self.hit_of_class(fourth, identifier)
    }

    #[inline(always)]
    fn hit_of_class(&self, class: Class, identifier: u32) -> Option<Hit> {
        let narrow = narrow_word(identifier);
        match class {
            Class::WideList => self.best_hit(class, |r1, r2| wide_list(identifier, r1, r2)),
            Class::WideMask => self.best_hit(class, |r1, r2| wide_mask(identifier, r1, r2)),
            Class::NarrowList => self.best_hit(class, |r1, r2| narrow_list(narrow, r1, r2)),
            Class::NarrowMask => self.best_hit(class, |r1, r2| narrow_mask(narrow, r1, r2)),
        }
    }

    /// The best hit among the active banks of one class: FIFO 0 first, then
    /// the banks of FIFO 1 that can still win. `first_match` gives the place
    /// within its bank of the first filter that matches.
    #[inline(always)]
    fn best_hit(&self, class: Class, first_match: impl Fn(u32, u32) -> Option<u8> + Copy) -> Option<Hit> {
        let banks = self.active_banks() & self.banks_of(class);
        if banks == 0 {
            return None;
        }
        let (of_fifo_0, of_fifo_1) = (banks & !self.assignment, banks & self.assignment);
        match self.first_hit(0, of_fifo_0, |_| true, first_match) {
            Some(hit) => match self.first_hit(1, of_fifo_1, |bank| self.can_win(bank, hit), first_match) {
                Some(other) => Some(self.better(hit, other)),
                None => Some(hit),
            },
            None => self.first_hit(1, of_fifo_1, |_| true, first_match),
        }
    }

    /// The hit of the lowest of these banks of a FIFO that has one, up to the
    /// first that can't win.
    #[inline(always)]
    fn first_hit(
        &self,
        fifo: usize,
        banks: u32,
        can_win: impl Fn(usize) -> bool,
        first_match: impl Fn(u32, u32) -> Option<u8>,
    ) -> Option<Hit> {
        let mut banks = banks as u16;
        while let Some(left) = NonZeroU16::new(banks) {
            let bank = left.trailing_zeros() as usize;
            if !can_win(bank) {
                here!();
                return None;
            }
            let [r1, r2] = self.values[bank];
            if let Some(position) = first_match(r1, r2) {
                return Some(Hit { number: self.first_number[bank] + position, fifo });
            }
            banks &= banks - 1;
        }
        None
    }

    /// Can a filter of this bank of FIFO 1 have a lower number than FIFO 0's
    /// hit? If not, none of a higher bank can either.
    #[inline(always)]
    fn can_win(&self, bank: usize, hit: Hit) -> bool {
        match () {
            () if made(Mistake::Fifo1NotSearchedAfterMatch) => false,
            () if made(Mistake::LeftOutByBankNumber) => bank < self.bank_of(hit),
            () if made(Mistake::LeftOutByLastNumber) => {
                self.first_number[bank] + self.class_of(bank).filters_per_bank() - 1 < hit.number
            }
            () if made(Mistake::Fifo1WinsTies) => self.first_number[bank] <= hit.number,
            () if made(Mistake::LowerBankBeforeLowerNumber) => true,
            () => self.first_number[bank] < hit.number,
        }
    }

    /// Of two hits of one class, the first in FIFO 0, the other in FIFO 1.
    #[inline(always)]
    fn better(&self, hit: Hit, other: Hit) -> Hit {
        if made(Mistake::Fifo0BeforeLowerNumber) {
            return hit;
        }
        if made(Mistake::Fifo1WinsTies) && other.number == hit.number {
            return other;
        }
        if made(Mistake::LowerBankBeforeLowerNumber) {
            return if self.bank_of(other) < self.bank_of(hit) { other } else { hit };
        }
        if other.number == hit.number {
            here!();
        } else if other.number < hit.number {
            here!();
        } else {
            here!();
        }
        hit.min(other)
    }
}

/// The state block.
impl Filters {
    pub fn fields(&self) -> (FilterFields, [[u32; 2]; BANKS]) {
        let mut banks = [[0; 2]; BANKS];
        banks.copy_from_slice(&self.values[..BANKS]);
        let words = FilterFields {
            mode: self.mode,
            scale: self.scale,
            assignment: self.assignment,
            activation: self.activation,
            initializing: self.initializing as u32,
        };
        (words, banks)
    }

    pub fn with_fields(words: &FilterFields, banks: &[[u32; 2]; BANKS]) -> Filters {
        let mut filters = Filters {
            initializing: words.initializing != 0,
            mode: words.mode,
            scale: words.scale,
            assignment: words.assignment,
            activation: words.activation,
            ..Filters::at_reset()
        };
        filters.values[..BANKS].copy_from_slice(banks);
        filters.number_banks();
        filters
    }
}

/// What only a mistake needs.
impl Filters {
    /// The first class in which FIFO 0 has a match.
    fn first_class_of_fifo_0(&self, identifier: u32) -> Option<Class> {
        let of_fifo_0 = Filters { activation: self.activation & !self.assignment, ..self.clone() };
        CLASSES.into_iter().find(|&class| of_fifo_0.hit_of_class(class, identifier).is_some())
    }

    /// The highest bank of the FIFO that doesn't start above the number.
    fn bank_of(&self, hit: Hit) -> usize {
        let reaches = |bank: &usize| self.fifo_of(*bank) == hit.fifo && self.first_number[*bank] <= hit.number;
        (0..BANKS).rev().find(reaches).unwrap_or(0)
    }
}

fn writable() -> u32 {
    if made(Mistake::FilterWordsHave28Banks) {
        return 0x0FFF_FFFF;
    }
    FILTER_WORD
}

fn search_order() -> [Class; 4] {
    if made(Mistake::MaskBeforeList) {
        return [Class::WideMask, Class::WideList, Class::NarrowMask, Class::NarrowList];
    }
    if made(Mistake::NarrowBeforeWide) {
        return [Class::NarrowList, Class::NarrowMask, Class::WideList, Class::WideMask];
    }
    if made(Mistake::ListsOfBothScalesFirst) {
        return [Class::WideList, Class::NarrowList, Class::WideMask, Class::NarrowMask];
    }
    if made(Mistake::LastClassWins) {
        return [Class::NarrowMask, Class::NarrowList, Class::WideMask, Class::WideList];
    }
    CLASSES
}

/// The 16-bit form of an identifier word: the top 11 bits, RTR, IDE, EXID 17 to 15.
fn narrow_word(word: u32) -> u16 {
    let top = word >> 21 << 5;
    let rtr = (word & identifier::RTR != 0) as u32;
    let ide = (word & identifier::IDE != 0) as u32;
    let exid = word >> 18 & 7;
    if made(Mistake::NarrowRtrIdeSwapped) {
        return (top | ide << 4 | rtr << 3 | exid) as u16;
    }
    if made(Mistake::NarrowTakesLowExid) {
        return (top | rtr << 4 | ide << 3 | word >> 3 & 7) as u16;
    }
    if made(Mistake::NarrowWithoutExid) {
        return (top | rtr << 4 | ide << 3) as u16;
    }
    (top | rtr << 4 | ide << 3 | exid) as u16
}

impl Class {
    fn filters_per_bank(self) -> u8 {
        match self {
            Class::WideMask => 1,
            Class::WideList => 2,
            Class::NarrowMask if made(Mistake::NarrowMaskCountsOne) => 1,
            Class::NarrowMask => 2,
            Class::NarrowList => 4,
        }
    }
}

fn wide_list(wide: u32, r1: u32, r2: u32) -> Option<u8> {
    if made(Mistake::Bit0OutOfWideFilters) {
        return first_of([(wide ^ r1) >> 1 == 0, (wide ^ r2) >> 1 == 0]);
    }
    first_of([wide == r1, wide == r2])
}

/// R2 is the mask over the identifier in R1.
fn wide_mask(wide: u32, r1: u32, r2: u32) -> Option<u8> {
    let mask = match () {
        () if made(Mistake::Bit0OutOfWideFilters) => r2 & !1,
        () if made(Mistake::MaskReversed) => !r2 & !1,
        () => r2,
    };
    first_of([(wide ^ r1) & mask == 0])
}

/// Four identifiers: R1 before R2, low half before high.
fn narrow_list(narrow: u16, r1: u32, r2: u32) -> Option<u8> {
    let equals = |half: u16| half == narrow;
    if made(Mistake::HighHalfBeforeLow) {
        return first_of([high(r1), low(r1), high(r2), low(r2)].map(equals));
    }
    if made(Mistake::LowHalvesFirst) {
        return first_of([low(r1), low(r2), high(r1), high(r2)].map(equals));
    }
    first_of([low(r1), high(r1), low(r2), high(r2)].map(equals))
}

/// In each word the high half is the mask over the identifier in the low half.
fn narrow_mask(narrow: u16, r1: u32, r2: u32) -> Option<u8> {
    let takes = |value: u16, mask: u16| (narrow ^ value) & mask == 0;
    if made(Mistake::NarrowMaskHalvesSwapped) {
        return first_of([takes(high(r1), low(r1)), takes(high(r2), low(r2))]);
    }
    if made(Mistake::NarrowMaskInR2) {
        return first_of([takes(low(r1), low(r2)), takes(high(r1), high(r2))]);
    }
    first_of([takes(low(r1), high(r1)), takes(low(r2), high(r2))])
}

fn low(word: u32) -> u16 {
    word as u16
}

fn high(word: u32) -> u16 {
    (word >> 16) as u16
}

fn first_of<const N: usize>(matches: [bool; N]) -> Option<u8> {
    matches.iter().position(|&matched| matched).map(|place| place as u8)
}
