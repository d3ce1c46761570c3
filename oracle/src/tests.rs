//! Document 01's numbers on the wall, its whole script, and some of the
//! settled readings, each as a short history of steps, own end 8 of Q-4 among
//! them; then the writer and the readers of Q-1.

use crate::broken_replies::broken_replies;
use crate::comparisons;
use crate::controller::{Answer, Controller, Mode};
use crate::encode::{self, REQUEST_LENGTH};
use crate::fifo::Frame;
use crate::filter::{Filters, Hit};
use crate::generate::{generate, Kind, KINDS};
use crate::lesson;
use crate::malformed::{broken_script, whole_record};
use crate::openings::openings;
use crate::replies::{self, read_reply};
use crate::requests::Requests;
use crate::rng::Rng;
use crate::script::{decode, step, Step, REPLY_LENGTH};
use crate::writer::{write_record, WideStep, Written, RESET_RECORD};

const MCR: u16 = 0x00;
const MSR: u16 = 0x04;
const TSR: u16 = 0x08;
const RF0R: u16 = 0x0C;
const IER: u16 = 0x14;
const ESR: u16 = 0x18;
const BTR: u16 = 0x1C;
const TI0: u16 = 0x180;
const TDT0: u16 = 0x184;
const RI0: u16 = 0x1B0;
const RDT0: u16 = 0x1B4;
const FMR: u16 = 0x200;
const FM1R: u16 = 0x204;
const FS1R: u16 = 0x20C;
const FFA1R: u16 = 0x214;
const FA1R: u16 = 0x21C;

fn word(controller: &mut Controller, offset: u16) -> u32 {
    let answer = controller.read(offset);
    assert_eq!(answer.code, 0);
    answer.word
}

fn write(controller: &mut Controller, offset: u16, word: u32) {
    assert_eq!(controller.write(offset, word).code, 0, "write of {word:08X} to {offset:03X}");
}

/// In Normal with these options of MCR and FINIT=0.
fn normal(options: u32) -> Controller {
    let mut controller = Controller::at_reset();
    write(&mut controller, MCR, options);
    assert_eq!(controller.idle().code, 0);
    assert_eq!(controller.mode(), Mode::Normal);
    write(&mut controller, FMR, 0);
    controller
}

fn own_frame(controller: &mut Controller, result: u8) {
    if word(controller, TI0) & 1 == 0 {
        write(controller, TI0, 1);
    }
    assert_eq!(controller.start().code, 0);
    assert_eq!(controller.own_end(result).code, 0);
}

fn with_tec(options: u32, tec: u16) -> Controller {
    let mut controller = normal(options);
    while controller.tec() < tec {
        own_frame(&mut controller, 1);
    }
    while controller.tec() > tec {
        own_frame(&mut controller, 0);
    }
    controller
}

fn with_rec(rec: u16) -> Controller {
    let mut controller = normal(0);
    while controller.rec() < rec {
        let step = if controller.rec() + 8 <= rec { 8 } else { 1 };
        assert_eq!(controller.receive_error(2, step).code, 0);
    }
    controller
}

fn idles(controller: &mut Controller, count: u32) {
    for _ in 0..count {
        assert_eq!(controller.idle().code, 0);
    }
}

fn data_frame(identifier: u32, byte: u64) -> Frame {
    Frame { identifier, length: 1, data: byte }
}

#[test]
fn reset_values() {
    let mut controller = Controller::at_reset();
    let expected = [(MCR, 0x0001_0002), (MSR, 0xC02), (TSR, 0x1C00_0000), (BTR, 0x0123_0000), (FMR, 0x2A1C_0E01)];
    for offset in (0..0x400).step_by(4) {
        let answer = controller.read(offset);
        let listed = expected.iter().find(|&&(known, _)| known == offset);
        assert_eq!(answer.word, listed.map_or(0, |&(_, value)| value), "{offset:03X}");
    }
}

#[test]
fn tec_247_and_an_error_is_still_on() {
    let mut controller = with_tec(0, 247);
    own_frame(&mut controller, 1);
    assert_eq!(word(&mut controller, ESR) & 0x00FF_0007, 0x00FF_0003);
    assert!(!controller.is_bus_off());
}

#[test]
fn tec_248_and_an_error_is_bus_off_and_reads_0() {
    let mut controller = with_tec(0, 248);
    own_frame(&mut controller, 1);
    assert_eq!(word(&mut controller, ESR) & 0x00FF_0007, 7);
}

#[test]
fn rec_129_becomes_120_and_128_becomes_127() {
    for (before, after) in [(129, 120), (128, 127), (255, 120), (1, 0), (0, 0)] {
        let mut controller = with_rec(before);
        controller.frame(data_frame(0, 0));
        assert_eq!(controller.rec(), after);
    }
}

#[test]
fn timer_wraps() {
    for (more, expected) in [(1, 0), (65535, 65534)] {
        let mut controller = normal(0x80);
        controller.bit_times(65535);
        controller.bit_times(more);
        write(&mut controller, TI0, 1);
        controller.start();
        assert_eq!(word(&mut controller, TDT0) >> 16, expected);
    }
}

fn first_of(a: u32, b: u32) -> u32 {
    let mut controller = normal(0);
    write(&mut controller, TI0, a | 1);
    write(&mut controller, TI0 + 0x10, b | 1);
    controller.start().word
}

#[test]
fn order_by_identifier() {
    let standard = |id: u32| id << 21;
    let extended = |id: u32| id << 3 | 4;
    assert_eq!(first_of(extended(0x0400_0000), standard(0x100)), 1);
    assert_eq!(first_of(standard(0x002), extended(0x0004_0000)), 1);
    assert_eq!(first_of(standard(5) | 2, standard(5)), 1);
    assert_eq!(first_of(extended(5 << 18), standard(5) | 2), 1);
    assert_eq!(first_of(extended(7) | 2, extended(7)), 1);
    assert_eq!(first_of(standard(5) | 0x1F_FFF8, standard(5)), 0);
}

fn four_frames(options: u32) -> Vec<u32> {
    let mut controller = normal(options);
    write(&mut controller, FMR, 1);
    write(&mut controller, FA1R, 1);
    write(&mut controller, FMR, 0);
    for id in 1..=4 {
        assert_eq!(controller.frame(data_frame(id << 21, 0)).code, 0);
    }
    assert_eq!(word(&mut controller, RF0R), 0x1B);
    let mut seen = Vec::new();
    for _ in 0..3 {
        seen.push(word(&mut controller, RI0) >> 21);
        write(&mut controller, RF0R, 0x20);
    }
    assert_eq!(word(&mut controller, RF0R), 0x18);
    assert_eq!(word(&mut controller, RI0), 0);
    seen
}

#[test]
fn overrun_unlocked_and_locked() {
    assert_eq!(four_frames(0), [1, 2, 4]);
    assert_eq!(four_frames(8), [1, 2, 3]);
}

#[test]
fn last_bank_of_16_bit_lists_is_numbered_52_to_55() {
    let mut controller = normal(0);
    write(&mut controller, FMR, 1);
    write(&mut controller, FM1R, 0x3FFF);
    write(&mut controller, 0x240 + 8 * 13, 1 << 5 | 2 << 21);
    write(&mut controller, 0x244 + 8 * 13, 3 << 5 | 4 << 21);
    write(&mut controller, FA1R, 1 << 13);
    write(&mut controller, FMR, 0);
    for (id, number) in [(1, 52), (2, 53), (3, 54), (4, 55)] {
        controller.frame(data_frame(id << 21, 0));
        assert_eq!(word(&mut controller, RDT0) >> 8, number);
        write(&mut controller, RF0R, 0x20);
    }
}

#[test]
fn recovery_takes_128_idles() {
    let mut controller = with_tec(0x40, 256);
    for _ in 0..127 {
        controller.idle();
    }
    assert_eq!(word(&mut controller, ESR) & 4, 4);
    controller.idle();
    assert_eq!(word(&mut controller, ESR), 0x10);
}

#[test]
fn recovery_by_initialization() {
    let mut controller = with_tec(0, 256);
    idles(&mut controller, 200);
    assert!(controller.is_bus_off());
    write(&mut controller, MCR, 1);
    write(&mut controller, MCR, 0);
    idles(&mut controller, 128);
    assert!(controller.is_bus_off(), "the idle that leads into Normal does not count");
    controller.idle();
    assert!(!controller.is_bus_off());
}

#[test]
fn bus_off_and_initialization_in_one_step() {
    let mut controller = with_tec(0, 248);
    controller.start();
    write(&mut controller, MCR, 1);
    assert_eq!(controller.mode(), Mode::Normal);
    controller.own_end(4);
    assert_eq!(controller.mode(), Mode::Initialization);
    write(&mut controller, MCR, 0);
    idles(&mut controller, 129);
    assert!(!controller.is_bus_off());
}

/// On the bus with these counters.
fn with_counters(tec: u16, rec: u16) -> Controller {
    let mut controller = with_tec(0, tec);
    while controller.rec() < rec {
        let step = if controller.rec() + 8 <= rec { 8 } else { 1 };
        assert_eq!(controller.receive_error(2, step).code, 0);
    }
    controller
}

/// A request of mailbox 0 goes on the wire.
fn send(controller: &mut Controller) {
    if word(controller, TI0) & 1 == 0 {
        write(controller, TI0, 1);
    }
    assert_eq!(controller.start(), Answer { lines: controller.lines(), ..Answer::default() });
}

/// An own end that is refused by this code and changes nothing.
fn refused(controller: &mut Controller, result: u8, code: u8) {
    let before = controller.clone();
    assert_eq!(controller.own_end(result), Answer { code, lines: before.lines(), word: 0 });
    assert_eq!(*controller, before);
}

#[test]
fn a_lone_node_stays_error_passive() {
    let mut controller = normal(0);
    for errors in 1..=16 {
        send(&mut controller);
        refused(&mut controller, 8, 4);
        assert_eq!(controller.own_end(3).code, 0);
        assert_eq!(controller.tec(), 8 * errors);
    }
    assert_eq!(word(&mut controller, ESR), 0x0080_0033);
    for _ in 0..100 {
        own_frame(&mut controller, 8);
        assert_eq!(word(&mut controller, ESR), 0x0080_0033);
        assert_eq!(word(&mut controller, TSR), 0x1900_0008);
        assert_eq!(word(&mut controller, TI0), 1);
    }
    own_frame(&mut controller, 0);
    assert_eq!(word(&mut controller, ESR), 0x007F_0001);
    assert_eq!(word(&mut controller, TSR), 0x1C00_0003);
    send(&mut controller);
    refused(&mut controller, 8, 4);
    assert_eq!(controller.own_end(3).code, 0);
    own_frame(&mut controller, 8);
    assert_eq!(word(&mut controller, ESR), 0x0087_0033);
}

#[test]
fn error_3_raises_tec_while_error_passive_too() {
    let mut controller = normal(0);
    (0..31).for_each(|_| own_frame(&mut controller, 3));
    assert_eq!(word(&mut controller, ESR), 0x00F8_0033);
    own_frame(&mut controller, 8);
    assert_eq!(word(&mut controller, ESR), 0x00F8_0033);
    own_frame(&mut controller, 3);
    assert_eq!(word(&mut controller, ESR), 0x0000_0037);
    assert!(controller.is_bus_off());
}

#[test]
fn rec_alone_makes_own_end_8_possible() {
    let mut controller = normal(0);
    for _ in 0..15 {
        assert_eq!(controller.receive_error(6, 8).code, 0);
    }
    send(&mut controller);
    refused(&mut controller, 8, 4);
    assert_eq!(controller.own_end(7).code, 0);
    assert_eq!(controller.receive_error(6, 8).code, 0);
    assert_eq!(word(&mut controller, ESR), 0x8000_0063);
    for _ in 0..3 {
        own_frame(&mut controller, 8);
        assert_eq!(word(&mut controller, ESR), 0x8000_0033);
    }
}

#[test]
fn own_end_8_goes_by_epvf() {
    let accepted = [(128, 0), (129, 0), (247, 0), (0, 128), (0, 129), (127, 128), (128, 127), (7, 255), (200, 200)];
    let error_active = [(0, 0), (96, 0), (120, 0), (127, 0), (0, 96), (0, 127), (127, 127), (120, 127)];
    for (tec, rec) in accepted {
        let mut controller = with_counters(tec, rec);
        send(&mut controller);
        assert_eq!(controller.own_end(8).code, 0, "TEC {tec}, REC {rec}");
        assert_eq!((controller.tec(), controller.rec()), (tec, rec));
    }
    for (tec, rec) in error_active {
        let mut controller = with_counters(tec, rec);
        send(&mut controller);
        refused(&mut controller, 8, 4);
    }
    let mut controller = with_counters(247, 0);
    own_frame(&mut controller, 3);
    own_frame(&mut controller, 8);
    assert_eq!(word(&mut controller, ESR), 0x00FF_0033);
}

#[test]
fn own_end_8_needs_a_frame_on_the_wire_and_no_loopback() {
    for (silent, rec) in [(0, 0), (1 << 31, 0), (0, 200)] {
        let mut controller = with_counters(128, rec);
        refused(&mut controller, 8, 4);
        refused(&mut controller, 9, 5);
        write(&mut controller, MCR, 1);
        write(&mut controller, BTR, 1 << 30 | silent);
        write(&mut controller, MCR, 0);
        idles(&mut controller, 1);
        refused(&mut controller, 8, 4);
        refused(&mut controller, 9, 5);
        send(&mut controller);
        refused(&mut controller, 8, 4);
        refused(&mut controller, 3, 4);
        refused(&mut controller, 9, 5);
    }
}

#[test]
fn own_ends_above_8_are_out_of_range() {
    for result in 9..=255 {
        for tec in [0, 128] {
            let mut controller = with_counters(tec, 0);
            refused(&mut controller, result, 5);
            send(&mut controller);
            refused(&mut controller, result, 5);
        }
    }
}

#[test]
fn own_end_8_is_a_failed_try() {
    let mut controller = with_tec(0x10, 128);
    own_frame(&mut controller, 8);
    assert_eq!(word(&mut controller, TSR), 0x1C00_0009, "NART ends the request");
    assert_eq!(word(&mut controller, TI0), 0);
    let mut controller = with_tec(0, 128);
    send(&mut controller);
    write(&mut controller, TSR, 0x80);
    assert_eq!(controller.own_end(8).code, 0);
    assert_eq!(word(&mut controller, TSR), 0x1C00_0009, "and so does a remembered abort");
    own_frame(&mut controller, 7);
    assert_eq!(word(&mut controller, TSR), 0x1900_0004);
    own_frame(&mut controller, 8);
    assert_eq!(word(&mut controller, TSR), 0x1900_0008, "TERR in place of ALST");
}

#[test]
fn own_end_8_keeps_the_place_of_the_request() {
    let mut controller = with_tec(0x04, 128);
    write(&mut controller, TSR, 0x80);
    for x in [1, 0, 2] {
        write(&mut controller, TI0 + 0x10 * x, 1);
    }
    for _ in 0..3 {
        assert_eq!(controller.start().word, 1);
        assert_eq!(controller.own_end(8).code, 0);
        assert_eq!(word(&mut controller, TSR), 0x8200_0800);
    }
}

#[test]
fn own_end_8_sets_erri_by_lecie_only() {
    for (enables, lines, status) in [(0x8800, 8, 0xC04), (0x800, 0, 0xC04), (0x8700, 0, 0xC00), (0, 0, 0xC00)] {
        for code in [1, 3] {
            let mut controller = with_tec(0, 120);
            own_frame(&mut controller, code);
            write(&mut controller, MSR, 4);
            write(&mut controller, IER, enables);
            send(&mut controller);
            assert_eq!(controller.own_end(8), Answer { code: 0, lines, word: 0 });
            assert_eq!(word(&mut controller, MSR), status);
        }
    }
}

#[test]
fn own_end_8_leaves_3_in_lec() {
    let mut controller = with_tec(0, 128);
    own_frame(&mut controller, 0);
    own_frame(&mut controller, 6);
    assert_eq!(word(&mut controller, ESR), 0x0087_0063);
    own_frame(&mut controller, 8);
    assert_eq!(word(&mut controller, ESR), 0x0087_0033);
    write(&mut controller, ESR, 0x70);
    own_frame(&mut controller, 8);
    assert_eq!(word(&mut controller, ESR), 0x0087_0033);
}

#[test]
fn a_mode_follows_own_end_8() {
    for (requests, mode) in [(1, Mode::Initialization), (2, Mode::Sleep), (3, Mode::Normal)] {
        let mut controller = with_tec(0, 128);
        send(&mut controller);
        write(&mut controller, MCR, requests);
        assert_eq!(controller.mode(), Mode::Normal);
        assert_eq!(controller.own_end(8).code, 0);
        assert_eq!(controller.mode(), mode);
    }
}

#[test]
fn the_request_book_takes_8_as_a_failure() {
    const MAILBOX_0_REQUESTED: u32 = 0x1800_0000;
    const ALL_EMPTY: u32 = 0x1C00_0000;
    let abort = Step::Write(TSR, 0x80);
    for (more, ended) in [(Step::Idle, 0), (Step::Write(MCR, 0x10), 1), (abort, 1)] {
        let mut book = Requests::default();
        for step in [Step::Write(TI0, 1), Step::Start, more, Step::OwnEnd(8)] {
            assert_eq!(book.feed(0, step, Answer::default()), Ok(()));
        }
        let status = if ended == 0 { MAILBOX_0_REQUESTED } else { ALL_EMPTY };
        assert_eq!((book.ended, book.check_tme(status)), (ended, Ok(())));
    }
}

#[test]
fn whole_script() {
    let script = [1, 0, 0, 2, 2, 0, 0, 0, 2, 2, 0, 4, 0, 2, 2, 0, 0xB0, 2];
    let expected: [[u8; REPLY_LENGTH]; 4] = [
        [0x81, 6, 0, 0, 0, 0, 0, 0, 0],
        [0x81, 6, 0, 0, 0, 2, 0, 1, 0],
        [0x81, 6, 0, 0, 0, 2, 0x0C, 0, 0],
        [0x81, 6, 0, 1, 0, 0, 0, 0, 0],
    ];
    let mut controller = Controller::at_reset();
    let mut place = 0;
    for reply in expected {
        let mut space = [0xAA; 12];
        let progress = step(&mut controller, &script, place, &mut space);
        assert_eq!(space[..REPLY_LENGTH], reply);
        assert_eq!(space[REPLY_LENGTH..], [0xAA; 3]);
        place = progress.place;
    }
    let end = step(&mut controller, &script, place + 100, &mut []);
    assert!(end.at_end);
    assert_eq!((end.place, end.answer), (script.len(), Answer::default()));
}

#[test]
fn unreadable_records_in_order() {
    let cases: [(&[u8], usize, u8); 9] = [
        (&[0x01], 8, 9),
        (&[0x01], 9, 6),
        (&[0xFF, 0x00], 9, 6),
        (&[0xFF, 0x00, 0x00], 9, 7),
        (&[0x00, 0x00, 0x00], 9, 7),
        (&[0x02, 0x03, 0x00], 9, 8),
        (&[0x02, 0x02, 0x01, 0x00, 0x00], 9, 8),
        (&[0x02, 0x02, 0x00, 0x00], 9, 6),
        (&[0x0B, 0x00, 0x00], 9, 7),
    ];
    for (script, space, code) in cases {
        let mut controller = Controller::at_reset();
        let mut reply = [0x55; 9];
        let progress = step(&mut controller, script, 0, &mut reply[..space]);
        assert_eq!((progress.answer.code, progress.place, progress.at_end), (code, 0, false));
        assert_eq!(reply[3], if code == 9 { 0x55 } else { code });
        assert_eq!(controller, Controller::at_reset());
    }
}

#[test]
fn low_and_code_put_the_wire_first() {
    let mut controller = normal(0);
    for x in 0..3 {
        write(&mut controller, TI0 + 0x10 * x, 5 << 21 | 1);
    }
    assert_eq!(word(&mut controller, TSR), 0x8200_0000);
    assert_eq!(controller.start().word, 0);
    write(&mut controller, TSR, 0x0080_0000);
    assert_eq!(word(&mut controller, TSR) >> 24, 0x52);
    assert_eq!(controller.own_end(7).code, 0);
    assert_eq!(word(&mut controller, TSR) >> 24, 0x52);
}

#[test]
fn remembered_abort() {
    let mut controller = normal(0);
    write(&mut controller, TI0, 1);
    controller.start();
    write(&mut controller, TSR, 0x80);
    assert_eq!(word(&mut controller, TSR) & 0xFF, 0x80);
    controller.own_end(7);
    assert_eq!(word(&mut controller, TSR), 0x1C00_0005);
    assert_eq!(word(&mut controller, TI0), 0);
}

#[test]
fn fifo_0_only_breaks_ties_of_numbers() {
    let mut controller = normal(0);
    write(&mut controller, FMR, 1);
    // Bank 0 (FIFO 0) is number 0 and doesn't match; bank 1 (FIFO 0) is number 1; bank 2 (FIFO 1) number 0.
    write(&mut controller, FS1R, 7);
    write(&mut controller, FFA1R, 4);
    write(&mut controller, 0x240, 0xFFFF_FFFF);
    write(&mut controller, 0x244, 0xFFFF_FFFF);
    write(&mut controller, FA1R, 7);
    write(&mut controller, FMR, 0);
    controller.frame(data_frame(9 << 21, 0));
    assert_eq!(word(&mut controller, RF0R), 0);
    assert_eq!(word(&mut controller, RDT0 + 0x10), 1);
}

#[test]
fn activity_with_both_requests_ends_in_initialization() {
    let mut controller = Controller::at_reset();
    write(&mut controller, IER, 0x0003_0000);
    write(&mut controller, MCR, 0x23);
    assert_eq!(controller.mode(), Mode::Sleep);
    assert_eq!(controller.activity(), Answer { code: 0, lines: 8, word: 0 });
    assert_eq!(controller.mode(), Mode::Initialization);
    assert_eq!(word(&mut controller, MCR), 0x21);
}

#[test]
fn generated_scripts_have_their_length_and_are_read_to_the_end() {
    for (_, kind) in KINDS {
        let script = generate(7, 3000, kind);
        let (mut place, mut records) = (0, 0);
        while place < script.len() {
            place += decode(&script[place..]).expect("well-formed").1;
            records += 1;
        }
        assert_eq!(records, 3000);
    }
}

#[test]
fn malformed_scripts_break() {
    for index in 0..2000 {
        let script = broken_script(3, index);
        let mut place = 0;
        let mut broken = script.is_empty();
        while place < script.len() {
            match decode(&script[place..]) {
                Ok((_, length)) => place += length,
                Err(_) => {
                    broken = true;
                    break;
                }
            }
        }
        assert!(broken, "script {index} is read to its end");
    }
}

/// The bits of a frame up to the end of arbitration, as they are on the wire.
fn arbitration_bits(word: u32) -> Vec<u32> {
    let rtr = word >> 1 & 1;
    let mut bits: Vec<u32> = (21..32).rev().map(|place| word >> place & 1).collect();
    if word & 4 == 0 {
        bits.extend([rtr, 0]);
    } else {
        bits.extend([1, 1]);
        bits.extend((3..21).rev().map(|place| word >> place & 1));
        bits.push(rtr);
    }
    bits
}

#[test]
fn order_is_that_of_the_bits_on_the_wire() {
    let mut rng = Rng::new(11);
    let near = |rng: &mut Rng| match rng.below(3) {
        0 => rng.word() & !1,
        1 => rng.pick(&[0x2000_0000, 0x2020_0000]) | rng.word() & 0x0004_000E,
        _ => 0x2000_0000 | rng.word() & 6,
    };
    for _ in 0..20_000 {
        let (a, b) = (near(&mut rng), near(&mut rng));
        let b_first = arbitration_bits(b) < arbitration_bits(a);
        assert_eq!(first_of(a, b), b_first as u32, "{a:08X} {b:08X}");
    }
}

/// Every filter of every active bank, one by one: the best of those that match.
fn plain_search(words: [u32; 4], values: &[[u32; 2]], identifier: u32) -> Option<(u32, u32)> {
    let [mode, scale, assignment, active] = words;
    let narrow =
        (identifier >> 21 << 5) | (identifier >> 1 & 1) << 4 | (identifier >> 2 & 1) << 3 | (identifier >> 18 & 7);
    let mut next = [0, 0];
    let mut hits = Vec::new();
    for bank in 0..14 {
        let bit = |word: u32| word >> bank & 1;
        let [r1, r2] = values[bank];
        let all = u32::MAX;
        let filters: Vec<(u32, u32, u32)> = match (bit(scale), bit(mode)) {
            (1, 0) => vec![(identifier, r1, r2)],
            (1, _) => vec![(identifier, r1, all), (identifier, r2, all)],
            (_, 0) => [r1, r2].map(|r| (narrow, r & 0xFFFF, r >> 16)).to_vec(),
            _ => [r1 & 0xFFFF, r1 >> 16, r2 & 0xFFFF, r2 >> 16].map(|r| (narrow, r, all)).to_vec(),
        };
        let fifo = bit(assignment);
        for (word, value, mask) in filters {
            let number = next[fifo as usize];
            next[fifo as usize] += 1;
            if bit(active) == 1 && (word ^ value) & mask == 0 {
                hits.push((1 - bit(scale), 1 - bit(mode), number, fifo));
            }
        }
    }
    hits.into_iter().min().map(|(_, _, number, fifo)| (number, fifo))
}

/// Words that many of the values of `random_banks` take.
const SOUGHT: [u32; 6] = [0x2000_0000, 0x2000_0002, 0x2000_0004, 0x2010_000C, 0x2004_0004, 0xFFE0_0000];

/// FM1R, FS1R, FFA1R and FA1R, and the values of the banks.
fn random_banks(rng: &mut Rng) -> ([u32; 4], Vec<[u32; 2]>) {
    let words = [rng.word(), rng.word(), rng.word(), rng.word()].map(|word| word & 0x3FFF);
    let narrow = |word: u32| word >> 21 << 5 | (word >> 1 & 1) << 4 | (word >> 2 & 1) << 3 | word >> 18 & 7;
    let mut value = || match rng.below(5) {
        0 => rng.pick(&SOUGHT),
        1 => narrow(rng.pick(&SOUGHT)) | narrow(rng.pick(&SOUGHT)) << 16,
        2 => narrow(rng.pick(&SOUGHT)) | 0xFFE0_0000,
        3 => rng.pick(&[0, 1, u32::MAX, 0xFFE0_0000]),
        _ => rng.word(),
    };
    (words, (0..14).map(|_| [value(), value()]).collect())
}

#[test]
fn filters_take_what_a_plain_search_finds() {
    let mut rng = Rng::new(5);
    for _ in 0..3000 {
        let (words, values) = random_banks(&mut rng);
        let mut controller = normal(0);
        write(&mut controller, FMR, 1);
        for (offset, word) in [FM1R, FS1R, FFA1R, FA1R].into_iter().zip(words) {
            write(&mut controller, offset, word);
        }
        for (bank, value) in values.iter().enumerate() {
            write(&mut controller, 0x240 + 8 * bank as u16, value[0]);
            write(&mut controller, 0x244 + 8 * bank as u16, value[1]);
        }
        write(&mut controller, FMR, 0);
        for identifier in SOUGHT {
            let expected = plain_search(words, &values, identifier);
            controller.frame(data_frame(identifier, 0));
            for fifo in 0..2u16 {
                let stored = word(&mut controller, RF0R + 4 * fifo) & 3 != 0;
                assert_eq!(stored, expected.map_or(false, |(_, taken)| taken == fifo as u32));
                if stored {
                    let number = word(&mut controller, RDT0 + 0x10 * fifo) >> 8 & 0xFF;
                    assert_eq!(Some((number, fifo as u32)), expected);
                    write(&mut controller, RF0R + 4 * fifo, 0x20);
                }
            }
        }
    }
}

fn filters_with([mode, scale, assignment, activation]: [u32; 4], values: &[[u32; 2]]) -> Filters {
    let mut filters = Filters::at_reset();
    filters.set_mode(mode);
    filters.set_scale(scale);
    filters.set_assignment(assignment);
    filters.set_activation(activation);
    for (bank, [r1, r2]) in values.iter().enumerate() {
        filters.set_value(bank, 0, *r1);
        filters.set_value(bank, 1, *r2);
    }
    filters
}

/// The filters that the search compares, counted in its course.
fn walk(filters: &Filters, identifier: u32) -> usize {
    let list = comparisons::in_order(filters, identifier);
    let mut count = 0;
    for class in 0..4 {
        let mut hits = [None, None];
        for filter in list.iter().filter(|filter| filter.class == class) {
            let can_win = hits[0].map_or(true, |number| filter.first_number < number);
            if hits[filter.fifo].is_none() && can_win {
                count += 1;
                hits[filter.fifo] = filter.matches.then_some(filter.number);
            }
        }
        if hits != [None, None] {
            return count;
        }
    }
    count
}

#[test]
fn list_of_comparisons_has_the_winner_of_the_search() {
    let mut rng = Rng::new(6);
    for _ in 0..20_000 {
        let (mut words, values) = random_banks(&mut rng);
        if rng.percent(50) {
            // One class only.
            words[0] = rng.pick(&[0, 0x3FFF]);
            words[1] = rng.pick(&[0, 0x3FFF]);
        }
        let filters = filters_with(words, &values);
        for identifier in SOUGHT {
            let list = comparisons::in_order(&filters, identifier);
            let winner = comparisons::winner(&list);
            let hit = winner.map(|filter| Hit { number: filter.number as u8, fifo: filter.fifo });
            assert_eq!(hit, filters.search(identifier));
            let (compared, bound) = (comparisons::compared(&list), comparisons::bound(&list));
            assert_eq!(compared, walk(&filters, identifier));
            assert!(compared <= bound && bound <= list.len());
            assert!(winner.is_some() || compared == list.len());
        }
    }
}

const SOUGHT_WORD: u32 = 0x2000_0000;
const SOUGHT_HALF: u32 = 0x2000;

/// What is compared, and the bound.
fn counts(filters: &Filters) -> (usize, usize) {
    let list = comparisons::in_order(filters, SOUGHT_WORD);
    (comparisons::compared(&list), comparisons::bound(&list))
}

/// Banks 0 to 3 are of the four classes; a value of ones never matches.
#[test]
fn comparisons_over_the_classes() {
    let ones = [u32::MAX; 2];
    let four = |active, values: [[u32; 2]; 4]| counts(&filters_with([0b0101, 0b0011, 0, active], &values));
    assert_eq!(four(0, [ones; 4]), (0, 0));
    assert_eq!(four(0b1111, [ones; 4]), (9, 9));
    assert_eq!(four(0b1011, [ones; 4]), (5, 5));
    assert_eq!(four(0b1111, [[SOUGHT_WORD, 0], ones, ones, ones]), (1, 1));
    assert_eq!(four(0b1111, [[0, SOUGHT_WORD], ones, ones, ones]), (2, 2));
    assert_eq!(four(0b1111, [ones, [0, 0], ones, ones]), (3, 3));
    assert_eq!(four(0b1111, [ones, ones, [SOUGHT_HALF << 16, 0], ones]), (5, 5));
    assert_eq!(four(0b1101, [ones, ones, [0, SOUGHT_HALF], ones]), (5, 5));
    assert_eq!(four(0b1111, [ones, ones, ones, [u32::MAX, 0]]), (9, 9));
    assert_eq!(four(0b1111, [ones, [0, 0], [SOUGHT_HALF, 0], [0, 0]]), (3, 3));
    assert_eq!(four(0b1000, [[SOUGHT_WORD, 0], ones, ones, [0, 0]]), (1, 1));
}

/// 16-bit lists, the odd banks in FIFO 1, that match in these banks and places.
fn alternating(matching: &[(usize, usize)]) -> Filters {
    let mut values = [[0; 2]; 14];
    for &(bank, place) in matching {
        values[bank][place / 2] |= SOUGHT_HALF << (16 * (place % 2));
    }
    filters_with([0x3FFF, 0, 0x2AAA, 0x3FFF], &values)
}

#[test]
fn comparisons_in_both_fifos() {
    // FIFO 0 has no match: all of its 28, then FIFO 1 up to its match.
    assert_eq!(counts(&alternating(&[])), (56, 56));
    assert_eq!(counts(&alternating(&[(1, 0)])), (29, 29));
    assert_eq!(counts(&alternating(&[(13, 3)])), (56, 56));
    // Number 0 of FIFO 0 matches: no bank of FIFO 1 can win.
    assert_eq!(counts(&alternating(&[(0, 0)])), (1, 29));
    assert_eq!(counts(&alternating(&[(0, 0), (1, 0)])), (1, 2));
    // Number 1: the first bank of FIFO 1 can. Number 4: the second starts at 4 and can't. Number 5: it can.
    assert_eq!(counts(&alternating(&[(0, 1)])), (6, 30));
    assert_eq!(counts(&alternating(&[(2, 0)])), (9, 33));
    assert_eq!(counts(&alternating(&[(2, 1)])), (14, 34));
    // Number 5 against 6, and against 8 in a bank that is left out.
    assert_eq!(counts(&alternating(&[(2, 1), (3, 2)])), (13, 13));
    assert_eq!(counts(&alternating(&[(2, 1), (5, 0)])), (14, 15));
    // FIFO 1 wins with number 2 against 9.
    assert_eq!(counts(&alternating(&[(4, 1), (1, 2)])), (13, 13));
}

#[test]
fn comparisons_in_ties() {
    let tie = |filters: &Filters| (counts(filters), filters.search(SOUGHT_WORD));
    let won = |number| Some(Hit { number, fifo: 0 });
    assert_eq!(tie(&alternating(&[(2, 0), (3, 0)])), ((9, 10), won(4)));
    assert_eq!(tie(&alternating(&[(2, 1), (3, 1)])), ((12, 12), won(5)));
}

/// 32-bit masks in banks 0 to 3.
#[test]
fn comparisons_go_by_filter_numbers() {
    let masks = |assignment, values: [[u32; 2]; 4]| counts(&filters_with([0, 0x3FFF, assignment, 0xF], &values));
    let ones = [u32::MAX; 2];
    // FIFO 0 has bank 3, whose filter is number 0: the lower banks, of FIFO 1, can't win.
    assert_eq!(masks(0b0111, [[0; 2]; 4]), (1, 2));
    // FIFO 1 has bank 3, whose number 0 is below the number 1 of bank 1.
    assert_eq!(masks(0b1000, [ones, [0; 2], ones, ones]), (3, 3));
    assert_eq!(masks(0b1000, [ones, [0; 2], ones, [0; 2]]), (3, 3));
}

/// The records of a script in which the filters are searched, from 0, and what is compared.
fn searches(script: &[u8]) -> Vec<(u64, usize)> {
    let mut searches = Vec::new();
    comparisons::replay(script, |search| searches.push((search.record, search.compared)));
    searches
}

/// Bank 0 takes the frame as it is sent; bank 1 takes every frame.
#[test]
fn loopback_searches_the_word_as_sent() {
    let request = [Step::Write(TI0, SOUGHT_WORD | 0x001F_FFF9), Step::Start, Step::OwnEnd(0)];
    let mut steps = vec![
        Step::Write(FM1R, 1),
        Step::Write(FS1R, 1),
        Step::Write(0x240, u32::MAX),
        Step::Write(0x244, SOUGHT_WORD),
        Step::Write(FA1R, 3),
        Step::Write(MCR, 1),
        Step::Write(BTR, 1 << 30),
        Step::Write(MCR, 0),
        Step::Idle,
    ];
    steps.extend(request);
    steps.push(Step::Write(FMR, 0));
    steps.extend(request);
    steps.extend([Step::OwnEnd(0), Step::Frame(data_frame(SOUGHT_WORD, 0))]);
    let mut script = Vec::new();
    steps.iter().for_each(|step| step.encode(&mut script));
    assert_eq!(searches(&script), [(15, 2)]);
}

#[test]
fn comparisons_of_the_lessons() {
    let expected = [
        ("search-one-first", 1),
        ("search-one-last", 56),
        ("search-one-none", 56),
        ("search-both-first", 1),
        ("search-both-last", 56),
        ("search-both-none", 56),
        ("search-inactive", 0),
    ];
    for (name, compared) in expected {
        let kind = Kind::by_name(name).expect("a kind");
        let searches = searches(&generate(3, 200, kind));
        assert_eq!(searches.len(), 164);
        assert!(searches.iter().all(|&(_, count)| count == compared), "{name}");
    }
}

/// A frame with this identifier word and length code.
fn wide_frame(identifier: u32, length: u32) -> WideStep {
    WideStep::Frame { identifier, length, data: [0xA3A2_A1A0, 0xB3B2_B1B0] }
}

/// A step of every tag and its record.
fn written_records() -> [(WideStep, Vec<u8>); 10] {
    let frame = [0x09, 0x0D, 0, 0x44, 0x33, 0x22, 0x11, 8, 0xA0, 0xA1, 0xA2, 0xA3, 0xB0, 0xB1, 0xB2, 0xB3];
    [
        (WideStep::Reset, vec![0x01, 0, 0]),
        (WideStep::Read(0x21C), vec![0x02, 2, 0, 0x1C, 0x02]),
        (WideStep::Write(0x184, 0x1234_5678), vec![0x03, 6, 0, 0x84, 0x01, 0x78, 0x56, 0x34, 0x12]),
        (WideStep::Idle, vec![0x04, 0, 0]),
        (WideStep::BitTimes(0xABCD), vec![0x05, 2, 0, 0xCD, 0xAB]),
        (WideStep::Activity, vec![0x06, 0, 0]),
        (WideStep::Start, vec![0x07, 0, 0]),
        (WideStep::OwnEnd(7), vec![0x08, 1, 0, 7]),
        (wide_frame(0x1122_3344, 8), frame.to_vec()),
        (WideStep::ReceiveError { code: 6, step: 8 }, vec![0x0A, 2, 0, 6, 8]),
    ]
}

#[test]
fn records_as_they_are_written() {
    for (wide, record) in written_records() {
        for space in 0..=20 {
            let mut buffer = [0xEE; 20];
            let written = write_record(wide, &mut buffer[..space]);
            if space < record.len() {
                assert_eq!(written, Written { code: 9, bytes: 0 });
                assert_eq!(buffer, [0xEE; 20]);
            } else {
                assert_eq!(written, Written { code: 0, bytes: record.len() });
                assert_eq!(buffer[..record.len()], record);
                assert!(buffer[record.len()..].iter().all(|&byte| byte == 0xEE));
            }
        }
    }
}

/// Each field of a record that is narrower than its number, with its limit.
fn narrow_fields() -> [(fn(u32) -> WideStep, u32); 7] {
    [
        (WideStep::Read, 65_535),
        (|offset| WideStep::Write(offset, u32::MAX), 65_535),
        (WideStep::BitTimes, 65_535),
        (WideStep::OwnEnd, 255),
        (|length| wide_frame(u32::MAX, length), 255),
        (|code| WideStep::ReceiveError { code, step: 255 }, 255),
        (|step| WideStep::ReceiveError { code: 255, step }, 255),
    ]
}

#[test]
fn numbers_wider_than_their_field_are_refused() {
    for (step, limit) in narrow_fields() {
        let mut buffer = [0xEE; 20];
        let length = write_record(step(limit), &mut buffer).bytes;
        assert!(length > 3);
        for number in [limit + 1, limit + 2, limit + 256, 1 << 31, u32::MAX] {
            let mut buffer = [0xEE; 20];
            for space in 0..=20 {
                let code = if space < length { 9 } else { 5 };
                assert_eq!(write_record(step(number), &mut buffer[..space]), Written { code, bytes: 0 });
            }
            assert_eq!(buffer, [0xEE; 20]);
        }
    }
}

#[test]
fn what_only_the_controller_refuses_is_written() {
    let steps = [
        (WideStep::Read(0x401), 1),
        (WideStep::Write(65_535, 0), 1),
        (WideStep::BitTimes(0), 5),
        (WideStep::OwnEnd(8), 4),
        (WideStep::OwnEnd(9), 5),
        (WideStep::OwnEnd(200), 5),
        (wide_frame(1, 8), 5),
        (wide_frame(8, 8), 5),
        (wide_frame(0, 255), 5),
        (WideStep::ReceiveError { code: 0, step: 1 }, 5),
        (WideStep::ReceiveError { code: 1, step: 0 }, 5),
    ];
    for (wide, code) in steps {
        let mut record = [0; 20];
        let written = write_record(wide, &mut record);
        assert_eq!(written.code, 0);
        let (step, length) = decode(&record).expect("a record");
        assert_eq!((WideStep::from(step), length), (wide, written.bytes));
        assert_eq!(step.apply(&mut Controller::at_reset()).code, code);
    }
}

/// Writes what was read of a script, which gives its bytes.
fn write_again(script: &[u8]) {
    let (mut place, mut space) = (0, [0; 20]);
    while place < script.len() {
        let (step, length) = decode(&script[place..]).expect("well-formed");
        let written = write_record(step.into(), &mut space);
        assert_eq!(written, Written { code: 0, bytes: length });
        assert_eq!(space[..length], script[place..place + length]);
        assert_eq!(decode(&space), Ok((step, length)));
        place += length;
    }
}

#[test]
fn what_was_read_is_written_again() {
    for (_, kind) in KINDS {
        write_again(&generate(9, 3000, kind));
    }
    let mut rng = Rng::new(21);
    for turn in 0..5000u64 {
        write_again(&whole_record(1 + (turn % 10) as u8, &mut rng));
    }
}

fn number_at(request: &[u8], place: usize) -> u32 {
    crate::script::number_32(&request[4 * place..])
}

#[test]
fn requests_are_answered() {
    let systematic = encode::requests(1, 0).len() / REQUEST_LENGTH;
    assert_eq!(systematic, 10_290);
    assert_eq!(encode::requests(1, 10), encode::requests(2, 0));
    let requests = encode::requests(3, 20_000);
    assert_eq!(requests.len(), 20_000 * REQUEST_LENGTH);
    let mut codes = [0; 10];
    for request in requests.chunks(REQUEST_LENGTH) {
        let answer = encode::answer(request).expect("valid");
        let (code, bytes, space) = (answer[0], answer[1] as usize, number_at(request, 0) as usize);
        codes[code as usize] += 1;
        assert!(bytes <= space && answer[2 + bytes..].iter().all(|&byte| byte == 0xEE));
        if code == 0 {
            assert_eq!(answer[2] as u32, number_at(request, 1));
            assert_eq!(decode(&answer[2..]).map(|(_, length)| length), Ok(bytes));
        } else {
            assert_eq!(bytes, 0);
        }
    }
    assert!([0, 5, 9].iter().all(|&code| codes[code] > 1000) && codes.iter().sum::<u32>() == 20_000);
}

fn request(numbers: [u32; 6]) -> Vec<u8> {
    numbers.iter().flat_map(|number| number.to_le_bytes()).collect()
}

#[test]
fn requests_take_their_numbers_in_the_order_of_the_record() {
    for (wide, record) in written_records() {
        let numbers = match wide {
            WideStep::Read(a) | WideStep::BitTimes(a) | WideStep::OwnEnd(a) => [a, 1 << 16, 1 << 16, 1 << 16],
            WideStep::Write(a, b) | WideStep::ReceiveError { code: a, step: b } => [a, b, 1 << 16, 1 << 16],
            WideStep::Frame { identifier, length, data: [low, high] } => [identifier, length, low, high],
            _ => [1 << 16; 4],
        };
        let [a, b, c, d] = numbers;
        let answer = encode::answer(&request([20, record[0] as u32, a, b, c, d])).expect("valid");
        assert_eq!(answer[..2], [0, record.len() as u8]);
        assert_eq!(answer[2..2 + record.len()], record);
    }
}

#[test]
fn requests_that_cannot_be_answered() {
    for (space, tag) in [(21, 1), (u32::MAX, 1), (20, 0), (20, 11), (20, 0x101), (20, u32::MAX)] {
        assert!(encode::answer(&request([space, tag, 0, 0, 0, 0])).is_err());
    }
    let whole = request([20, 1, 0, 0, 0, 0]);
    assert!((1..REQUEST_LENGTH).all(|cut| encode::answer(&whole[..cut]).is_err()));
}

#[test]
fn replies_are_read_back() {
    for (_, kind) in KINDS {
        let script = generate(4, 500, kind);
        let mut controller = Controller::at_reset();
        let (mut place, mut answers, mut replies) = (0, Vec::new(), Vec::new());
        while place < script.len() {
            let mut reply = [0; REPLY_LENGTH];
            let progress = step(&mut controller, &script, place, &mut reply);
            answers.push(progress.answer);
            replies.extend_from_slice(&reply);
            place = progress.place;
        }
        for (number, answer) in answers.into_iter().enumerate() {
            let place = number * REPLY_LENGTH;
            assert_eq!(read_reply(&replies, place), Ok((answer, place + REPLY_LENGTH)));
        }
    }
}

#[test]
fn every_code_and_lines_are_read() {
    for value in 0..=255 {
        let reply = [0x81, 6, 0, value, !value, 0x78, 0x56, 0x34, 0x12];
        let answer = Answer { code: value, lines: !value, word: 0x1234_5678 };
        assert_eq!(read_reply(&reply, 0), Ok((answer, REPLY_LENGTH)));
    }
}

#[test]
fn unreadable_replies_in_order() {
    let cases: [(&[u8], u8); 15] = [
        (&[], 6),
        (&[0x81], 6),
        (&[0x81, 6], 6),
        (&[0x82, 7], 6),
        (&[0x81, 6, 0], 6),
        (&[0x81, 6, 0, 0, 0, 0, 0, 0], 6),
        (&[0x80, 6, 0, 0, 0, 0, 0, 0, 0], 7),
        (&[0x82, 6, 0], 7),
        (&[0x01, 0, 0], 7),
        (&[0x82, 7, 0, 0], 7),
        (&[0x81, 5, 0, 0, 0, 0, 0, 0, 0], 8),
        (&[0x81, 7, 0, 0, 0, 0, 0, 0, 0, 0], 8),
        (&[0x81, 6, 1, 0, 0, 0, 0, 0, 0], 8),
        (&[0x81, 0, 6, 0, 0, 0, 0, 0, 0], 8),
        (&[0x81, 7, 0], 8),
    ];
    let whole = [0x81, 6, 0, 3, 9, 1, 0, 0, 0];
    for (reply, code) in cases {
        assert_eq!(read_reply(reply, 0).map_err(|unreadable| unreadable.code()), Err(code));
        assert_eq!(read_reply(reply, reply.len() + 4).map_err(|unreadable| unreadable.code()), Err(6));
        let behind = [&whole, reply].concat();
        assert_eq!(read_reply(&behind, 0), Ok((Answer { code: 3, lines: 9, word: 1 }, 9)));
        assert_eq!(read_reply(&behind, 9), read_reply(reply, 0));
    }
}

/// The number of whole replies, and the code of what stands behind them.
fn faults(replies: &[u8]) -> (usize, Option<u8>) {
    let (mut place, mut whole) = (0, 0);
    while place < replies.len() {
        match read_reply(replies, place) {
            Ok((_, next)) => place = next,
            Err(unreadable) => return (whole, Some(unreadable.code())),
        }
        whole += 1;
    }
    (whole, None)
}

#[test]
fn broken_replies_break_in_every_way() {
    let met: std::collections::BTreeSet<_> = (0..600).map(|index| faults(&broken_replies(2, index))).collect();
    for whole in 0..=2 {
        for code in [6, 7, 8] {
            assert!(met.contains(&(whole, Some(code))), "{code} behind {whole}");
        }
    }
    assert!(met.contains(&(0, None)) && met.contains(&(256, None)));
    for turn in 0..24 {
        let cut = broken_replies(5, 8 * turn as u64);
        assert_eq!((cut.len(), faults(&cut)), (turn / 8 * 9 + turn % 8 + 1, (turn / 8, Some(6))));
    }
}

#[test]
fn replies_in_lines() {
    let line = |lines, code, word| replies::line(12, Answer { code, lines, word });
    assert_eq!(replies::heading(), "     reply  code  lines               word\n");
    assert_eq!(line(0, 0, 0x1_0002), "        12     0  -                   0x00010002\n");
    assert_eq!(line(1, 4, 0), "        12     4  TX                  0x00000000\n");
    assert_eq!(line(10, 255, 0), "        12   255  FIFO0 SCE           0x00000000\n");
    assert_eq!(line(14, 0, 0), "        12     0  FIFO0 FIFO1 SCE     0x00000000\n");
    assert_eq!(line(15, 0, 0), "        12     0  TX FIFO0 FIFO1 SCE  0x00000000\n");
    assert_eq!(line(16, 11, u32::MAX), "        12    11  0x10                0xFFFFFFFF\n");
    assert_eq!(line(255, 0, 0), "        12     0  0xFF                0x00000000\n");
}

/// In Sleep with line 3.
fn woken() -> Controller {
    let mut controller = Controller::at_reset();
    write(&mut controller, IER, 0x0001_0000);
    assert_eq!(controller.activity().lines, 8);
    controller
}

#[test]
fn lessons_at_every_place_with_every_space() {
    for lesson in openings() {
        let opens = lesson.len() >= 3 && (lesson[0], lesson[1], lesson[2]) == (1, 0, 0);
        let places = (0..=lesson.len() + 2).chain([usize::MAX]);
        for (place, space) in places.flat_map(|place| (0..=12).map(move |space| (place, space))) {
            let (mut controller, mut reply) = (woken(), [0x55; 12]);
            let progress = lesson::step(&mut controller, &lesson, place, &mut reply[..space]);
            if opens {
                let (mut by_script, mut expected) = (woken(), [0x55; 12]);
                assert_eq!(progress, step(&mut by_script, &lesson, place, &mut expected[..space]));
                assert_eq!((controller, reply), (by_script, expected));
                continue;
            }
            let code = if space < REPLY_LENGTH { 9 } else { 11 };
            assert_eq!(progress.answer, Answer { code, lines: 8, word: 0 });
            assert_eq!((progress.place, progress.at_end), (place, false));
            assert_eq!(controller, woken());
            let refused = [0x81, 6, 0, 11, 8, 0, 0, 0, 0, 0x55, 0x55, 0x55];
            assert_eq!(reply, if code == 11 { refused } else { [0x55; 12] });
        }
    }
}

#[test]
fn lessons_open_with_the_record_that_the_writer_emits() {
    let mut space = [0; 3];
    assert_eq!(write_record(WideStep::Reset, &mut space), Written { code: 0, bytes: 3 });
    assert_eq!(space, RESET_RECORD);
    assert_eq!(RESET_RECORD, *b"\x01\x00\x00");
    assert!([9, 11].iter().all(|&code| lesson::ends_replay(code)) && !lesson::ends_replay(5));
}

#[test]
fn openings_are_of_every_kind() {
    let lessons = openings();
    let count = |opening: &[u8]| lessons.iter().filter(|lesson| lesson.starts_with(opening)).count();
    assert_eq!((lessons.len(), count(&RESET_RECORD)), (110, 37));
    for prefix in [&[][..], &[0x01], &[0x01, 0x00], &RESET_RECORD] {
        assert!(lessons.iter().any(|lesson| lesson == prefix));
    }
    assert!((0x02..=0x0A).all(|tag| count(&[tag]) > 0));
}
