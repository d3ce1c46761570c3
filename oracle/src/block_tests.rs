//! The state block of docs/BLOCK.md and the calls of Q-2.

use crate::block::{self, load, places, read, save, written, Rule, BLOCK_LENGTH, RULES};
use crate::calls::{block_size, call};
use crate::controller::Controller;
use crate::generate::{generate, KINDS};
use crate::random_blocks::{within, SHAPES};
use crate::random_calls::{compare, Itself};
use crate::requests::Requests;
use crate::rng::Rng;
use crate::script::{decode, Step};
use crate::writer::WideStep;

/// Places of docs/BLOCK.md.
const MCR: usize = 3;
const IER: usize = 7;
const BTR: usize = 11;
const TIMER: usize = 15;
const MODE: usize = 17;
const RECOVERY: usize = 18;
const INITIALIZED: usize = 19;
const ERRI: usize = 20;
const WKUI: usize = 21;
const SLAKI: usize = 22;
const TEC: usize = 26;
const REC: usize = 28;
const LEC: usize = 29;
const TI0: usize = 33;
const TDT0: usize = 37;
const RQCP0: usize = 49;
const TXOK0: usize = 50;
const ALST0: usize = 51;
const TERR0: usize = 52;
const ORDER: usize = 102;
const WIRE: usize = 105;
const ABORTS: usize = 106;
const RI0: usize = 112;
const RDT0: usize = 116;
const RDL0: usize = 120;
const FMP0: usize = 160;
const FULL0: usize = 162;
const FOVR0: usize = 163;
const FM1R: usize = 222;
const FS1R: usize = 226;
const FFA1R: usize = 230;
const FA1R: usize = 234;
const FINIT: usize = 238;
const BANKS: usize = 242;

type Block = [u8; BLOCK_LENGTH];

fn reset_block() -> Block {
    let mut block = [0xFF; BLOCK_LENGTH];
    assert_eq!(call(0, &mut block, WideStep::Reset), 0);
    block
}

/// The block of a reset with other bytes at some places.
fn with(changes: &[(usize, &[u8])]) -> Block {
    let mut block = reset_block();
    for &(place, bytes) in changes {
        block[place..place + bytes.len()].copy_from_slice(bytes);
    }
    block
}

/// In Normal, not bus-off, with these bytes too.
fn normal_with(changes: &[(usize, &[u8])]) -> Block {
    let mut all: Vec<(usize, &[u8])> = vec![(MCR, &[0]), (MODE, &[0])];
    all.extend(changes);
    with(&all)
}

fn taken(block: Block) {
    assert!(read(&block).1.is_empty(), "{:?}", read(&block).1);
    let mut after = block;
    assert_eq!(call(0, &mut after, WideStep::Read(0x04)) as u8, 0);
    assert_eq!(after, block);
}

fn refused(block: Block, rule: Rule) {
    assert_eq!(read(&block).1.alone(), Some(rule), "{:?}", read(&block).1);
    let mut after = block;
    assert_eq!(call(0, &mut after, WideStep::Read(0x04)), 10);
    assert_eq!(after, block);
}

#[test]
fn block_of_a_reset() {
    let mut expected = Vec::new();
    let mut field = |tag: u8, body: &[u8]| {
        expected.extend([tag, body.len() as u8, 0]);
        expected.extend(body);
    };
    field(0x40, &[2, 0, 1, 0, 0, 0, 0, 0, 0, 0, 0x23, 1, 0, 0, 2, 0, 0, 0, 0, 0]);
    field(0x41, &[0; 4]);
    (0x42..=0x44).for_each(|tag| field(tag, &[0; 20]));
    field(0x45, &[3, 3, 3, 3, 0, 0, 0]);
    (0x46..=0x47).for_each(|tag| field(tag, &[0; 52]));
    field(0x48, &[0, 0, 0, 0, 0, 0, 0, 0, 0, 0, 0, 0, 0, 0, 0, 0, 1]);
    field(0x49, &[0; 112]);
    assert_eq!(expected.len(), 354);
    assert_eq!(reset_block().to_vec(), expected);
    assert_eq!(save(&Controller::at_reset()).to_vec(), expected);
}

#[test]
fn fields_where_the_page_says() {
    let tags: Vec<usize> = places().iter().filter(|(name, ..)| name.ends_with(" tag")).map(|&(_, at, _)| at).collect();
    assert_eq!(tags, [0, 23, 30, 53, 76, 99, 109, 164, 219, 239]);
    let end = places().iter().map(|&(_, at, bytes)| at + bytes).max();
    assert_eq!(end, Some(BLOCK_LENGTH));
    let headers = 2 * tags.len();
    assert_eq!(places().len() - headers, block::NUMBERS as usize);
}

/// A step on the controller and on its block, which is loaded and saved each
/// time: the same answers, and the same block.
#[test]
fn blocks_of_reached_states() {
    for (_, kind) in KINDS {
        let script = generate(7, 3000, kind);
        let mut controller = Controller::at_reset();
        let mut block = reset_block();
        let mut place = 0;
        while let Some(Ok((step, length))) = (place < script.len()).then(|| decode(&script[place..])) {
            let answer = step.apply(&mut controller);
            let expected = answer.code as u64 | (answer.lines as u64) << 8 | (answer.word as u64) << 32;
            assert_eq!(call(0, &mut block, step.into()), expected, "{step:?}");
            assert_eq!(save(&controller), block, "{step:?}");
            let loaded = load(&block).expect("a state that is reached lies within the ranges");
            assert_eq!(loaded.fields(), controller.fields());
            place += length;
        }
    }
}

#[test]
fn random_states_within_the_ranges() {
    let mut rng = Rng::new(1);
    for number in 0..7000 {
        let fields = within(&mut rng, SHAPES[number % SHAPES.len()]);
        let block = written(fields);
        let (found, rules) = read(&block);
        assert!(rules.is_empty(), "{fields:?}: {rules:?}");
        assert_eq!(found, fields);
        assert_eq!(load(&block).map(|controller| save(&controller)), Ok(block));
        taken(block);
    }
}

#[test]
fn lengths_tags_and_field_lengths() {
    for length in (0..BLOCK_LENGTH).chain([355, 356, 708, 1000]) {
        let mut block = reset_block().to_vec();
        block.resize(length, 0);
        let before = block.clone();
        for step in [WideStep::Read(0x04), WideStep::Reset, WideStep::Read(1), WideStep::OwnEnd(300)] {
            assert_eq!(call(0, &mut block, step), 10);
            assert_eq!(block, before);
        }
    }
    for (index, place) in [0, 23, 30, 53, 76, 99, 109, 164, 219, 239].into_iter().enumerate() {
        let [low, _] = (reset_block()[place + 1] as u16).to_le_bytes();
        refused(with(&[(place, &[0x41 + index as u8])]), Rule::Tag);
        refused(with(&[(place + 1, &[low + 1])]), Rule::FieldLength);
        refused(with(&[(place + 2, &[1])]), Rule::FieldLength);
    }
}

#[test]
fn bits_of_words() {
    let words: [(usize, u32, Rule); 9] = [
        (MCR, 0x0001_00FE, Rule::McrBits),
        (IER, 0x0003_8F7F, Rule::IerBits),
        (BTR, 0xC37F_03FF, Rule::BtrBits),
        (TI0, 0xFFFF_FFFE, Rule::TiBit0),
        (TDT0, 0xFFFF_010F, Rule::TdtBits),
        (FM1R, 0x3FFF, Rule::Fm1rBits),
        (FS1R, 0x3FFF, Rule::Fs1rBits),
        (FFA1R, 0x3FFF, Rule::Ffa1rBits),
        (FA1R, 0x3FFF, Rule::Fa1rBits),
    ];
    for (place, most, rule) in words {
        taken(with(&[(place, &most.to_le_bytes())]));
        for bit in (0..32).filter(|bit| most >> bit & 1 == 0) {
            let block = with(&[(place, &(most | 1 << bit).to_le_bytes())]);
            if rule == Rule::McrBits && bit == 0 {
                taken(block);
            } else {
                refused(block, rule);
            }
        }
    }
    taken(with(&[(BANKS, &[0xFF; 112]), (TDT0 + 4, &[0xFF; 8]), (REC, &[255])]));
}

#[test]
fn flags() {
    let places = [
        (INITIALIZED, Rule::InitializedFlag),
        (ERRI, Rule::ErriFlag),
        (WKUI, Rule::WkuiFlag),
        (SLAKI, Rule::SlakiFlag),
        (RQCP0, Rule::RqcpFlag),
        (TXOK0, Rule::TxokFlag),
        (ALST0, Rule::AlstFlag),
        (TERR0, Rule::TerrFlag),
        (ABORTS, Rule::AbortFlag),
        (ABORTS + 1, Rule::AbortFlag),
        (ABORTS + 2, Rule::AbortFlag),
        (FULL0, Rule::FullFlag),
        (FOVR0, Rule::FovrFlag),
        (FINIT, Rule::FinitFlag),
    ];
    for (place, rule) in places {
        taken(with(&[(place, &[0])]));
        (2..=255).for_each(|value| refused(with(&[(place, &[value])]), rule));
    }
    for place in [ERRI, WKUI, SLAKI, RQCP0, ALST0, TERR0, FULL0, FOVR0, FINIT] {
        taken(with(&[(place, &[1])]));
    }
}

#[test]
fn limits() {
    let bus_off: (usize, &[u8]) = (TEC, &[0, 1]);
    taken(with(&[(TEC, &[7, 1])]));
    refused(with(&[(TEC, &[8, 1])]), Rule::TecRange);
    refused(with(&[(TEC, &[0, 2])]), Rule::TecRange);
    taken(with(&[bus_off, (RECOVERY, &[127])]));
    refused(with(&[bus_off, (RECOVERY, &[128])]), Rule::RecoveryRange);
    taken(with(&[(LEC, &[7])]));
    refused(with(&[(LEC, &[8])]), Rule::LecRange);
    refused(with(&[(MODE, &[3])]), Rule::ModeNumber);
    let one: (usize, &[u8]) = (FMP0, &[1]);
    taken(with(&[one, (RDT0 + 1, &[55])]));
    refused(with(&[one, (RDT0 + 1, &[56])]), Rule::FmiRange);
    taken(with(&[(FMP0, &[3])]));
    refused(with(&[(FMP0, &[4])]), Rule::FmpRange);
    refused(with(&[(FMP0, &[0, 1])]), Rule::FmpRange);
}

#[test]
fn control_and_mailboxes() {
    taken(with(&[(MCR, &[0x82]), (TIMER, &[0xFF, 0xFF])]));
    refused(with(&[(TIMER, &[1])]), Rule::TimerWithoutTtcm);
    refused(with(&[(TIMER, &[0, 1])]), Rule::TimerWithoutTtcm);
    refused(normal_with(&[(SLAKI, &[1])]), Rule::SlakiOutsideSleep);
    taken(with(&[(RQCP0, &[1, 1, 0, 0])]));
    refused(with(&[(RQCP0, &[0, 1, 0, 0])]), Rule::TxokWithoutRqcp);
    for results in [[1, 1, 0], [1, 0, 1], [0, 1, 1], [1, 1, 1]] {
        refused(with(&[(RQCP0, &[1]), (TXOK0, &results)]), Rule::TwoResults);
    }
    taken(with(&[(ORDER, &[0]), (TERR0, &[1])]));
    refused(with(&[(ORDER, &[0]), (RQCP0, &[1])]), Rule::RqcpOfRequest);
}

#[test]
fn requests() {
    for order in 0..5 * 5 * 5 {
        let bytes = [order / 25, order / 5 % 5, order % 5];
        let named: Vec<u8> = bytes.into_iter().take_while(|&x| x < 3).collect();
        let once = (0..3).all(|x| named.iter().filter(|&&y| x == y).count() <= 1);
        let rest = bytes[named.len()..].iter().all(|&x| x == 3);
        assert_eq!(read(&with(&[(ORDER, &bytes)])).1.is_empty(), once && rest, "{bytes:?}");
    }
    refused(with(&[(ORDER, &[4])]), Rule::OrderNumber);
    refused(with(&[(ORDER, &[1, 1])]), Rule::OrderTwice);
    refused(with(&[(ORDER, &[3, 1])]), Rule::OrderGap);
    let sending: [(usize, &[u8]); 2] = [(ORDER, &[2, 0]), (WIRE, &[0])];
    taken(normal_with(&sending));
    for wire in [1, 4, 255] {
        refused(normal_with(&[(ORDER, &[2, 0]), (WIRE, &[wire])]), Rule::WireOutsideOrder);
    }
    taken(normal_with(&[sending[0], sending[1], (ABORTS, &[1, 0, 0])]));
    refused(normal_with(&[sending[0], sending[1], (ABORTS, &[0, 0, 1])]), Rule::AbortOffWire);
    refused(with(&[(ORDER, &[0]), (ABORTS, &[1])]), Rule::AbortOffWire);
    let with_wire = |changes: &[(usize, &[u8])]| normal_with(&[&sending[..], changes].concat());
    for modes in 0..4 {
        taken(with_wire(&[(MCR, &[modes])]));
    }
    taken(with_wire(&[(TEC, &[255, 0])]));
    refused(with_wire(&[(TEC, &[0, 1])]), Rule::WireInBusOff);
    refused(with_wire(&[(MODE, &[1])]), Rule::WireOutsideNormal);
    refused(with_wire(&[(MODE, &[2])]), Rule::WireOutsideNormal);
    taken(with_wire(&[(BTR + 3, &[0x40])]));
    taken(with_wire(&[(BTR + 3, &[0xC0])]));
    refused(with_wire(&[(BTR + 3, &[0x80])]), Rule::WireSilent);
}

#[test]
fn modes_have_followed() {
    for (mode, rule, allowed) in [
        (0, Rule::NormalNotFollowed, [true, false, false, true]),
        (1, Rule::InitializationNotFollowed, [true, true, false, true]),
        (2, Rule::SleepNotFollowed, [true, false, true, true]),
    ] {
        for (modes, allowed) in allowed.into_iter().enumerate() {
            let block = with(&[(MODE, &[mode]), (MCR, &[modes as u8])]);
            if allowed {
                taken(block);
            } else {
                refused(block, rule);
            }
        }
    }
}

#[test]
fn recovery() {
    refused(with(&[(RECOVERY, &[1])]), Rule::CountOutsideBusOff);
    refused(with(&[(TEC, &[255, 0]), (RECOVERY, &[1])]), Rule::CountOutsideBusOff);
    refused(with(&[(INITIALIZED, &[1])]), Rule::InitializedOutsideBusOff);
    let bus_off: (usize, &[u8]) = (TEC, &[0, 1]);
    for initialized in 0..2 {
        taken(with(&[bus_off, (RECOVERY, &[127, initialized])]));
        taken(normal_with(&[bus_off, (RECOVERY, &[1, initialized])]));
    }
    taken(with(&[bus_off, (MODE, &[1, 0, 1]), (MCR, &[1])]));
    refused(with(&[bus_off, (MODE, &[1, 0, 0]), (MCR, &[1])]), Rule::InitializationForgotten);
    refused(with(&[bus_off, (MODE, &[1, 1, 1]), (MCR, &[1])]), Rule::CountInInitialization);
}

#[test]
fn frames() {
    let one = |changes: &[(usize, &[u8])]| with(&[&[(FMP0, &[1_u8][..])], changes].concat());
    refused(with(&[(RI0 + 3, &[1])]), Rule::PlacePastCount);
    refused(one(&[(RI0 + 16, &[4])]), Rule::PlacePastCount);
    refused(one(&[(RI0, &[1])]), Rule::RiBit0);
    taken(one(&[(RI0, &[4, 0, 0x1F, 0])]));
    refused(one(&[(RI0, &[0, 0, 0x10, 0])]), Rule::RiExtendedBits);
    refused(one(&[(RI0, &[8, 0, 0, 0])]), Rule::RiExtendedBits);
    (4..8).for_each(|bit| refused(one(&[(RDT0, &[1 << bit])]), Rule::RdtBits));
    for length in 0..16_u8 {
        for bytes in 0..=8 {
            let block = one(&[(RDT0, &[length]), (RDL0, &[0xFF; 8][..bytes])]);
            if bytes <= length.into() {
                taken(block);
            } else {
                refused(block, Rule::DataPastLength);
            }
        }
        taken(one(&[(RI0, &[2]), (RDT0, &[length])]));
        refused(one(&[(RI0, &[2]), (RDT0, &[length]), (RDL0 + 7, &[1])]), Rule::DataOfRemote);
    }
}

#[test]
fn every_rule_has_its_name() {
    for (place, &(rule, ..)) in RULES.iter().enumerate() {
        assert_eq!(rule as usize, place);
    }
}

#[test]
fn boards() {
    assert_eq!(block_size(0), 354);
    for board in [1, 2, 256, 65_536, u32::MAX] {
        assert_eq!(block_size(board), 0);
        for step in [WideStep::Reset, WideStep::Read(0), WideStep::OwnEnd(300)] {
            let mut block = reset_block();
            block[IER] = 1;
            let before = block;
            assert_eq!(call(board, &mut block, step), 10);
            assert_eq!(block, before);
            assert_eq!(call(board, &mut [], step), 10);
        }
    }
}

#[test]
fn a_refused_block_comes_first() {
    let broken = with(&[(LEC, &[8])]);
    let steps = [
        WideStep::Read(1),
        WideStep::Read(0x1_0000),
        WideStep::Write(0x1B0, 0),
        WideStep::Write(0x1C, 0),
        WideStep::BitTimes(0),
        WideStep::OwnEnd(8),
        WideStep::OwnEnd(9),
        WideStep::Start,
    ];
    for step in steps {
        let mut block = broken;
        assert_eq!(call(0, &mut block, step), 10);
        assert_eq!(block, broken);
    }
    let mut block = broken;
    assert_eq!(call(0, &mut block, WideStep::Reset), 0);
    assert_eq!(block, reset_block());
    let mut block = [0; BLOCK_LENGTH];
    assert_eq!(call(0, &mut block, WideStep::Reset), 0);
    assert_eq!(block, reset_block());
}

#[test]
fn wide_numbers() {
    let mut block = reset_block();
    let before = block;
    let frame = |length: u32| WideStep::Frame { identifier: 0, length, data: [0; 2] };
    let error = |code: u32, step: u32| WideStep::ReceiveError { code, step };
    for more in [0x1_0000, 0x10_0000, 0x8000_0000] {
        assert_eq!(call(0, &mut block, WideStep::Read(more)), 1);
        assert_eq!(call(0, &mut block, WideStep::Write(more | 0x1B0, 0)), 1);
        assert_eq!(call(0, &mut block, WideStep::BitTimes(more | 1)), 5);
        assert_eq!(call(0, &mut block, WideStep::OwnEnd(more)), 5);
        assert_eq!(call(0, &mut block, frame(more)), 5);
        assert_eq!(call(0, &mut block, error(more | 1, 1)), 5);
        assert_eq!(call(0, &mut block, error(1, more | 8)), 5);
    }
    assert_eq!(call(0, &mut block, WideStep::OwnEnd(0x100)), 5);
    assert_eq!(call(0, &mut block, WideStep::OwnEnd(0x108)), 5);
    assert_eq!(call(0, &mut block, frame(0x108)), 5);
    assert_eq!(call(0, &mut block, error(0x101, 1)), 5);
    assert_eq!(call(0, &mut block, error(1, 0x108)), 5);
    assert_eq!(block, before);
}

#[test]
fn answers() {
    let mut block = reset_block();
    assert_eq!(call(0, &mut block, WideStep::Read(0)), 0x0001_0002_0000_0000);
    assert_eq!(call(0, &mut block, WideStep::Read(0x200)), 0x2A1C_0E01_0000_0000);
    assert_eq!(call(0, &mut block, WideStep::Write(0x14, 0x0001_0000)), 0);
    assert_eq!(call(0, &mut block, WideStep::Activity), 0x0800);
    assert_eq!(call(0, &mut block, WideStep::Read(0x04)), 0x0000_0C0A_0000_0800);
    assert_eq!(call(0, &mut block, WideStep::Start), 0x0804);
    assert_eq!(call(0, &mut block, WideStep::Write(0x1C, 0)), 0x0802);
}

#[test]
fn a_frame_by_words() {
    let mut block = normal_with(&[(FA1R, &[1]), (FINIT, &[0])]);
    let frame = WideStep::Frame { identifier: 0x0020_0004, length: 5, data: [0x0403_0201, 0x0807_0605] };
    assert_eq!(call(0, &mut block, frame), 0);
    assert_eq!(block[RI0..RI0 + 16], [4, 0, 0x20, 0, 5, 0, 0, 0, 1, 2, 3, 4, 5, 0, 0, 0]);
    assert_eq!(block[FMP0..=FOVR0], [1, 0, 0, 0]);
}

/// Own end 8 on blocks whose frame of mailbox 0 is on the wire: TEC and REC
/// stay, LEC becomes 3, TERR is set, and the request waits on.
#[test]
fn own_end_8_by_block() {
    for (tec, rec) in [(128, 0), (0, 128), (127, 128), (128, 127), (255, 255), (0, 255)] {
        let sending = normal_with(&[(TEC, &[tec, 0]), (REC, &[rec]), (LEC, &[7]), (ORDER, &[0]), (WIRE, &[0])]);
        let mut block = sending;
        assert_eq!(call(0, &mut block, WideStep::OwnEnd(8)), 0);
        let mut expected = sending;
        (expected[LEC], expected[TERR0], expected[WIRE]) = (3, 1, 3);
        assert_eq!(block, expected);
        assert_eq!(call(0, &mut block, WideStep::OwnEnd(8)), 4);
        assert_eq!(call(0, &mut block, WideStep::OwnEnd(9)), 5);
        assert_eq!(block, expected);
    }
    for (tec, rec) in [(127, 127), (0, 0), (127, 0), (0, 127)] {
        let sending = normal_with(&[(TEC, &[tec, 0]), (REC, &[rec]), (ORDER, &[0]), (WIRE, &[0])]);
        let mut block = sending;
        assert_eq!(call(0, &mut block, WideStep::OwnEnd(8)), 4);
        assert_eq!(call(0, &mut block, WideStep::OwnEnd(9)), 5);
        assert_eq!(block, sending);
    }
}

/// Demand 3 from a loaded block: its requests count as accepted at loading.
#[test]
fn request_book_of_a_loaded_block() {
    let mut rng = Rng::new(3);
    let (mut accepted, mut ended) = (0, 0);
    for number in 0..3000 {
        let fields = within(&mut rng, SHAPES[number % 3]);
        let mut controller = Controller::with_fields(&fields);
        let mut book = Requests::loaded(&fields);
        for record in 1..60 {
            let step = request_step(&mut rng);
            let answer = step.apply(&mut controller);
            book.feed(record, step, answer).unwrap();
            book.check_tme(controller.tsr()).unwrap();
        }
        accepted += book.accepted;
        ended += book.ended;
    }
    assert!(accepted > 10_000 && ended > 10_000);
}

fn request_step(rng: &mut Rng) -> Step {
    match rng.below(12) {
        0..=2 => Step::Write(0x180 + 0x10 * rng.below(3) as u16, rng.word() | 1),
        3..=6 => Step::Start,
        7..=9 => Step::OwnEnd(rng.pick(&[0, 0, 0, 1, 7, 8])),
        10 => Step::Write(0x08, 0x80 << (8 * rng.below(3))),
        _ => Step::Write(0, rng.pick(&[0x04, 0x04, 0x14, 0x00])),
    }
}

#[test]
fn random_calls_meet_everything() {
    let tally = compare(1, 20_000, &mut Itself).unwrap_or_else(|difference| panic!("{}", difference.in_words()));
    assert_eq!(tally.missing(), Vec::<String>::new());
    assert!(tally.calls >= 20_000);
}
