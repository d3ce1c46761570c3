//! How many filters a search compares, worked out from the rule and apart
//! from the search in `filter.rs`.

use crate::controller::Controller;
use crate::filter::Filters;
use crate::probe::{made, Mistake};
use crate::registers::{BANKS, FIFOS};
use crate::script::{decode, step, Step, REPLY_LENGTH};

/// An active filter, and whether it matches the word that is searched.
#[derive(Clone, Copy, PartialEq, Eq, Debug)]
pub struct Filter {
    /// 0 is a 32-bit list, 1 a 32-bit mask, 2 a 16-bit list, 3 a 16-bit mask.
    pub class: usize,
    pub fifo: usize,
    pub bank: usize,
    /// The number of the bank's first filter, and this one's.
    pub first_number: usize,
    pub number: usize,
    pub matches: bool,
}

/// The active filters in the order of the search: by class, in a class by
/// FIFO, in a FIFO by number.
pub fn in_order(filters: &Filters, word: u32) -> Vec<Filter> {
    let mut list = Vec::new();
    let mut next = [0; FIFOS];
    for bank in 0..BANKS {
        let bit = |word: u32| (word >> bank & 1) as usize;
        let class = 2 * (1 - bit(filters.scale())) + 1 - bit(filters.mode());
        let fifo = bit(filters.assignment());
        let active = bit(filters.activation()) == 1;
        let first_number = next[fifo];
        for matches in matches_in_bank(class, [filters.value(bank, 0), filters.value(bank, 1)], word) {
            if active || made(Mistake::InactiveBanksCounted) {
                let matches = matches && active;
                list.push(Filter { class, fifo, bank, first_number, number: next[fifo], matches });
            }
            next[fifo] += 1;
        }
    }
    list.sort_by_key(|filter| (filter.class, filter.fifo, filter.number));
    list
}

/// For each filter of a bank, whether it matches: R1 before R2, low half
/// before high; a mask stands in R2 or in the high half.
fn matches_in_bank(class: usize, [r1, r2]: [u32; 2], word: u32) -> Vec<bool> {
    let narrow = word >> 21 << 5 | (word >> 1 & 1) << 4 | (word >> 2 & 1) << 3 | word >> 18 & 7;
    let (low, high) = (|r: u32| r & 0xFFFF, |r: u32| r >> 16);
    match class {
        0 => vec![word == r1, word == r2],
        1 => vec![(word ^ r1) & r2 == 0],
        2 => vec![narrow == low(r1), narrow == high(r1), narrow == low(r2), narrow == high(r2)],
        _ => vec![(narrow ^ low(r1)) & high(r1) == 0, (narrow ^ low(r2)) & high(r2) == 0],
    }
}

/// Of all that match, the best class, then the lowest number, then FIFO 0.
pub fn winner(list: &[Filter]) -> Option<Filter> {
    let matching = list.iter().filter(|filter| filter.matches);
    matching.min_by_key(|filter| (filter.class, filter.number, filter.fifo)).copied()
}

/// How many filters of the list are compared. Once FIFO 0 has a match in the
/// winner's class, banks of FIFO 1 that don't start below its number aren't.
pub fn compared(list: &[Filter]) -> usize {
    let Some(winner) = winner(list) else {
        return list.len();
    };
    let of_fifo_0 = up_to_match(of_class(list, winner.class, 0));
    let mut of_fifo_1 = of_class(list, winner.class, 1);
    if let Some(hit) = of_fifo_0.last().filter(|last| last.matches) {
        let nothing_left_out = made(Mistake::NothingLeftOutInFifo1);
        of_fifo_1.retain(|filter| filter.first_number < hit.number || nothing_left_out);
        if made(Mistake::Fifo1NotComparedAfterMatch) {
            of_fifo_1.clear();
        }
    }
    let count = before_class(list, winner.class) + of_fifo_0.len() + up_to_match(of_fifo_1).len();
    match () {
        () if made(Mistake::OneComparedAfterWinner) => count + 1,
        () if made(Mistake::WinnerNotCounted) => count - 1,
        () => count,
    }
}

/// At most so many are compared: in the winner's class, of each FIFO those up
/// to its first match.
pub fn bound(list: &[Filter]) -> usize {
    let Some(winner) = winner(list) else {
        return list.len();
    };
    let of_fifo = |fifo| up_to_match(of_class(list, winner.class, fifo)).len();
    before_class(list, winner.class) + of_fifo(0) + of_fifo(1)
}

fn before_class(list: &[Filter], class: usize) -> usize {
    list.iter().filter(|filter| filter.class < class).count()
}

fn of_class(list: &[Filter], class: usize, fifo: usize) -> Vec<Filter> {
    list.iter().filter(|filter| filter.class == class && filter.fifo == fifo).copied().collect()
}

/// The filters up to the first that matches; all if none does.
fn up_to_match(mut list: Vec<Filter>) -> Vec<Filter> {
    if let Some(place) = list.iter().position(|filter| filter.matches) {
        list.truncate(place + 1);
    }
    list
}

/// A record in which the filters are searched.
#[derive(Clone, Copy, PartialEq, Eq, Debug)]
pub struct Search {
    /// How many records stand before it.
    pub record: u64,
    pub compared: usize,
    pub bound: usize,
}

/// Where a script can't be read on: the records before that one, and its place.
pub type Stop = Option<(u64, usize)>;

/// Replays a script from hardware reset and hands on each search.
pub fn replay(script: &[u8], mut take: impl FnMut(Search)) -> Stop {
    let mut controller = Controller::at_reset();
    let mut reply = [0; REPLY_LENGTH];
    let (mut record, mut place) = (0, 0);
    while place < script.len() {
        let word = searched_word(&controller, &script[place..]);
        let progress = step(&mut controller, script, place, &mut reply);
        match (progress.answer.code, word) {
            (0, Some(word)) => {
                let list = in_order(controller.filters(), word);
                take(Search { record, compared: compared(&list), bound: bound(&list) });
            }
            (0..=5, _) => {}
            _ => return Some((record, place)),
        }
        record += 1;
        place = progress.place;
    }
    None
}

/// The identifier word that the first record of a rest passes through the
/// filters if it is accepted.
fn searched_word(controller: &Controller, rest: &[u8]) -> Option<u32> {
    match decode(rest) {
        Ok((Step::Frame(frame), _)) => Some(frame.identifier),
        Ok((Step::OwnEnd(0), _)) => controller.loopback_word(),
        _ => None,
    }
}
