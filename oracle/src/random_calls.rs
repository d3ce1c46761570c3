//! Random calls: a library against `calls`, answer by answer and byte by byte.

use crate::block::{self, BLOCK_LENGTH};
use crate::call_difference::{CallDifference, Difference, Outcome};
use crate::call_tally::Tally;
use crate::calls::{self, BOARD, CODE_BLOCK};
use crate::fields::registers;
use crate::generate::{generate, Kind, PARTS};
use crate::random_blocks::{beside, within, SENDING, SHAPES};
use crate::registers::identifier;
use crate::rng::Rng;
use crate::script::decode;
use crate::writer::WideStep;

/// The calls under test.
pub trait Library {
    fn block_size(&mut self, board: u32) -> usize;
    fn call(&mut self, board: u32, block: &mut [u8], step: WideStep) -> u64;
}

/// The second implementation itself.
#[cfg(any(coverage, test))]
pub struct Itself;

#[cfg(any(coverage, test))]
impl Library for Itself {
    fn block_size(&mut self, board: u32) -> usize {
        calls::block_size(board)
    }

    fn call(&mut self, board: u32, block: &mut [u8], step: WideStep) -> u64 {
        calls::call(board, block, step)
    }
}

const SCRIPT_RECORDS: u64 = 500;
/// With every so many scripts a block is changed at every place to every value,
/// or one at the places of small numbers.
const ALL_VALUES: u64 = 40;
const ALL_SMALL_VALUES: u64 = 2;
const MSR: u32 = 0x04;
const GUARD: usize = 16;
const UNTOUCHED: u8 = 0xA5;
const LONGEST: usize = 1000;

/// The kinds of scripts whose steps are called, beside those of `mix`.
const MORE: [Kind; 2] = [Kind::MixInterrupts, Kind::Any];

/// Boards that don't exist.
const OTHER_BOARDS: [u32; 9] = [1, 2, 3, 28, 256, 65_536, 0x0100_0000, 1 << 31, u32::MAX];

type Same = Result<(), Difference>;

/// Compares, and says what came of it; the last line has the numbers.
#[cfg(linked)]
pub fn report(seed: u64, count: u64, library: &mut dyn Library) -> Result<u8, String> {
    let tally = match compare(seed, count, library) {
        Ok(tally) => tally,
        Err(difference) => {
            println!("seed {seed}: the library differs from the second implementation");
            difference.lines(library).iter().for_each(|line| println!("  {line}"));
            println!("calls: 0 passed, 1 failed");
            return Ok(1);
        }
    };
    let missing = tally.missing();
    missing.iter().for_each(|text| println!("seed {seed}: never met: {text}"));
    let Tally { calls, accepted, refused, .. } = tally;
    let [passed, failed] = if missing.is_empty() { [1, 0] } else { [0, 1] };
    let changed = format!("{} blocks changed, {accepted} accepted, {refused} refused", accepted + refused);
    println!("calls: {calls} calls, {changed}: {passed} passed, {failed} failed");
    Ok(failed)
}

/// Scripts and random blocks until `count` calls are made; blocks taken on the
/// way are changed.
pub fn compare(seed: u64, count: u64, library: &mut dyn Library) -> Result<Tally, Difference> {
    compare_sizes(library)?;
    let mut run = Run {
        rng: Rng::new(seed ^ 0x1F83_D9AB_FB41_BD6B),
        library,
        tally: Tally::new(),
        space: vec![UNTOUCHED; LONGEST + 4 * GUARD],
        before: Vec::new(),
        registers: registers().into_iter().map(|(offset, _)| offset as u32).collect(),
        small: small_numbers(),
    };
    let mut block = vec![0; BLOCK_LENGTH];
    for number in 0.. {
        if run.tally.calls >= count {
            break;
        }
        let kinds = [&PARTS[..], &MORE].concat();
        let kind = kinds[number as usize % kinds.len()];
        let script = generate(run.rng.next(), SCRIPT_RECORDS, kind);
        let taken = run.script(&mut block, &script)?;
        run.change_bytes(&taken, |_| number % ALL_VALUES == 0)?;
        run.cut_and_extend(&taken)?;
        run.random_blocks(number)?;
    }
    Ok(run.tally)
}

fn compare_sizes(library: &mut dyn Library) -> Same {
    for board in OTHER_BOARDS.into_iter().chain([BOARD]) {
        let (ours, theirs) = (calls::block_size(board), library.block_size(board));
        if ours != theirs {
            return Err(Difference::BlockSize { board, ours, theirs });
        }
    }
    Ok(())
}

/// The places of numbers of one and two bytes.
fn small_numbers() -> Vec<bool> {
    let mut small = vec![false; BLOCK_LENGTH];
    let header = |name: &str| name.ends_with(" tag") || name.ends_with(" length");
    for (_, place, bytes) in block::places().into_iter().filter(|(name, _, bytes)| *bytes < 4 && !header(name)) {
        small[place..place + bytes].fill(true);
    }
    small
}

struct Run<'a> {
    rng: Rng,
    library: &'a mut dyn Library,
    tally: Tally,
    /// The library's block lies in it, with guards before and behind it.
    space: Vec<u8>,
    before: Vec<u8>,
    registers: Vec<u32>,
    small: Vec<bool>,
}

impl Run<'_> {
    /// One call on both sides; gives its code.
    fn call(&mut self, board: u32, block: &mut [u8], step: WideStep) -> Result<u8, Difference> {
        self.before.clear();
        self.before.extend_from_slice(block);
        // The block lies anywhere, as a caller's does.
        let start = GUARD + self.rng.below(8) as usize;
        let end = start + block.len();
        self.space[start - GUARD..start].fill(UNTOUCHED);
        self.space[end..end + GUARD].fill(UNTOUCHED);
        self.space[start..end].copy_from_slice(block);
        let theirs = self.library.call(board, &mut self.space[start..end], step);
        let ours = calls::call(board, block, step);
        let guards = [&self.space[start - GUARD..start], &self.space[end..end + GUARD]];
        let outside = guards.iter().any(|guard| guard.iter().any(|&byte| byte != UNTOUCHED));
        if ours != theirs || *block != self.space[start..end] || outside {
            return Err(Difference::Call(Box::new(CallDifference {
                board,
                step,
                before: self.before.clone(),
                ours: Outcome { answer: ours, block: block.to_vec() },
                theirs: Outcome { answer: theirs, block: self.space[start..end].to_vec() },
                outside,
            })));
        }
        self.note(board, block, step, ours as u8);
        Ok(ours as u8)
    }

    fn note(&mut self, board: u32, block: &[u8], step: WideStep, code: u8) {
        self.tally.note_code(step, code);
        if code == CODE_BLOCK && board == BOARD && step != WideStep::Reset {
            if let Some(rule) = block::read(block).1.alone() {
                self.tally.note_rule(rule);
            }
        }
        if let (WideStep::OwnEnd(result), false) = (step, code == CODE_BLOCK) {
            self.tally.note_end(&block::read(&self.before).0, result, code);
        }
    }

    /// A call that counts. What it leaves lies within the ranges.
    fn random_call(&mut self, board: u32, block: &mut [u8], step: WideStep) -> Same {
        self.tally.calls += 1;
        let code = self.call(board, block, step)?;
        let rules = block::read(block).1;
        assert!(code == CODE_BLOCK || rules.is_empty(), "{step:?} leaves a block that is refused: {rules:?}");
        Ok(())
    }

    /// Calls the steps of a script, with others beside them. Gives the block
    /// as it was somewhere on the way.
    fn script(&mut self, block: &mut [u8], script: &[u8]) -> Result<Vec<u8>, Difference> {
        let chosen = self.rng.below(SCRIPT_RECORDS);
        let mut taken = block.to_vec();
        let mut rest = script;
        for number in 0.. {
            let (step, length) = match decode(rest) {
                Ok(read) => read,
                Err(_) => break,
            };
            rest = &rest[length..];
            self.random_call(BOARD, block, step.into())?;
            if self.rng.percent(25) {
                self.beside_the_script(block)?;
            }
            if number == chosen {
                taken = block.to_vec();
            }
        }
        Ok(taken)
    }

    /// Calls on a copy of the block: wild numbers, other boards and lengths, or
    /// another way on.
    fn beside_the_script(&mut self, block: &[u8]) -> Same {
        let mut copy = block.to_vec();
        match self.rng.below(16) {
            0 => {
                let board = self.other_board();
                let length = self.rng.pick(&[BLOCK_LENGTH, BLOCK_LENGTH, BLOCK_LENGTH, 0, 1, LONGEST]);
                copy.resize(length, UNTOUCHED);
                let step = self.step_or_reset();
                self.random_call(board, &mut copy, step)
            }
            1 => {
                let length = self.other_length();
                copy.resize(length, 0);
                let step = self.step_or_reset();
                self.random_call(BOARD, &mut copy, step)
            }
            2 => self.go_on(&mut copy, 8),
            _ => {
                let step = self.wild_step();
                self.random_call(BOARD, &mut copy, step)
            }
        }
    }

    fn go_on(&mut self, block: &mut [u8], most: u64) -> Same {
        for _ in 0..self.rng.within(1, most) {
            let step = self.any_step();
            self.random_call(BOARD, block, step)?;
        }
        Ok(())
    }

    fn other_board(&mut self) -> u32 {
        if self.rng.percent(20) {
            return self.rng.word() | 1;
        }
        self.rng.pick(&OTHER_BOARDS)
    }

    fn other_length(&mut self) -> usize {
        let [below, above] = [self.rng.below(354), self.rng.within(355, LONGEST as u64)];
        self.rng.pick(&[0, 1, 353, 355, 356, LONGEST, below as usize, above as usize])
    }
}

/// Changed blocks.
impl Run<'_> {
    /// Every place with other bytes: all of them, or three.
    fn change_bytes(&mut self, block: &[u8], all_values: impl Fn(usize) -> bool) -> Same {
        let mut changed = block.to_vec();
        for place in 0..block.len() {
            let old = block[place];
            if all_values(place) {
                for more in 1..=255 {
                    changed[place] = old.wrapping_add(more);
                    self.changed(&mut changed, 1024)?;
                }
            } else {
                let bit = old ^ 1 << self.rng.below(8);
                let random = old.wrapping_add(self.rng.within(1, 255) as u8);
                for value in [old.wrapping_add(1), bit, random] {
                    changed[place] = value;
                    self.changed(&mut changed, 64)?;
                }
            }
            changed[place] = old;
        }
        Ok(())
    }

    /// Every length below, and up to 16 bytes more.
    fn cut_and_extend(&mut self, block: &[u8]) -> Same {
        let mut changed = block.to_vec();
        for more in 1..=16 {
            changed.extend((0..more).map(|_| self.rng.pick(&[0, 0x40, 0x4A, 0xFF])));
            self.changed(&mut changed, 64)?;
            changed.truncate(block.len());
        }
        for length in (0..block.len()).rev() {
            changed.truncate(length);
            self.changed(&mut changed, 64)?;
        }
        Ok(())
    }

    /// A read, which must leave the bytes; once in `seldom` times calls from
    /// there on, on a copy.
    fn changed(&mut self, block: &mut [u8], seldom: u64) -> Same {
        let code = self.call(BOARD, block, WideStep::Read(MSR))?;
        assert!(*block == *self.before, "a read has changed a block");
        if code == CODE_BLOCK {
            self.tally.refused += 1;
        } else {
            self.tally.accepted += 1;
        }
        if self.rng.below(seldom) == 0 {
            return self.go_on(&mut block.to_vec(), 4);
        }
        Ok(())
    }

    /// Blocks that no call has made.
    fn random_blocks(&mut self, number: u64) -> Same {
        let shape = SHAPES[number as usize % SHAPES.len()];
        for _ in 0..8 {
            let mut block = block::written(within(&mut self.rng, shape));
            self.taken(&mut block)?;
            self.go_on(&mut block, 8)?;
        }
        for _ in 0..8 {
            let mut block = block::written(within(&mut self.rng, SENDING));
            self.taken(&mut block)?;
            self.own_ends(&block)?;
        }
        for _ in 0..64 {
            let mut block = block::written(beside(&mut self.rng, shape));
            self.changed(&mut block, 4)?;
        }
        let block = block::written(within(&mut self.rng, shape));
        let small = if number % ALL_SMALL_VALUES == 0 { self.small.clone() } else { vec![false; BLOCK_LENGTH] };
        self.change_bytes(&block, |place| small[place] || number % ALL_VALUES == 0)
    }

    /// Every result of an own end and the first out of range, on copies.
    fn own_ends(&mut self, block: &[u8]) -> Same {
        for result in 0..=9 {
            self.random_call(BOARD, &mut block.to_vec(), WideStep::OwnEnd(result))?;
        }
        Ok(())
    }

    /// A block within the ranges.
    fn taken(&mut self, block: &mut [u8]) -> Same {
        self.tally.calls += 1;
        let code = self.call(BOARD, block, WideStep::Read(MSR))?;
        let fields = block::read(block).0;
        assert!(code != CODE_BLOCK, "a block within the ranges is refused: {fields:?}");
        self.tally.note_taken(&fields);
        Ok(())
    }
}

/// Numbers.
impl Run<'_> {
    fn step_or_reset(&mut self) -> WideStep {
        if self.rng.percent(25) {
            return WideStep::Reset;
        }
        self.any_step()
    }

    fn any_step(&mut self) -> WideStep {
        if self.rng.percent(25) {
            return self.wild_step();
        }
        let (word, offset) = (self.rng.word(), self.register());
        match self.rng.below(16) {
            0..=1 => WideStep::Read(offset),
            2..=4 => WideStep::Write(offset, word),
            5 => WideStep::Write(0, word & 0xFF),
            6..=7 => WideStep::Idle,
            8 => WideStep::BitTimes(self.rng.within(1, 65_535) as u32),
            9 => WideStep::Activity,
            10..=11 => WideStep::Start,
            12 => WideStep::OwnEnd(self.rng.below(9) as u32),
            13..=14 => self.frame(),
            _ if self.rng.percent(20) => WideStep::Reset,
            _ => WideStep::ReceiveError { code: self.rng.within(1, 6) as u32, step: self.rng.pick(&[1, 8]) },
        }
    }

    fn register(&mut self) -> u32 {
        let place = self.rng.below(self.registers.len() as u64) as usize;
        self.registers[place]
    }

    fn frame(&mut self) -> WideStep {
        let word = self.rng.word() & !1;
        let stray = if word & identifier::IDE == 0 { identifier::LOW } else { 0 };
        let data = [self.rng.word(), self.rng.word()];
        WideStep::Frame { identifier: word & !stray, length: self.rng.below(16) as u32, data }
    }

    /// Calls with numbers in and out of range.
    fn wild_step(&mut self) -> WideStep {
        let [a, b] = [(); 2].map(|()| self.wild_number());
        let offset = self.wild_offset();
        let frame = self.frame();
        match (self.rng.below(12), frame) {
            (0..=1, _) => WideStep::Read(offset),
            (2..=3, _) => WideStep::Write(offset, a),
            (4..=5, _) => WideStep::BitTimes(a),
            (6..=7, _) => WideStep::OwnEnd(a),
            (8, WideStep::Frame { identifier, data, .. }) => WideStep::Frame { identifier, length: a, data },
            (9, WideStep::Frame { length, data, .. }) => WideStep::Frame { identifier: self.rng.word(), length, data },
            (10, _) => WideStep::ReceiveError { code: a, step: self.rng.pick(&[1, 8]) },
            _ => WideStep::ReceiveError { code: self.rng.pick(&[1, 6, a]), step: b },
        }
    }

    /// Around the limits, or such a number with a bit above them.
    fn wild_number(&mut self) -> u32 {
        let near = self.rng.pick(&[0, 1, 2, 3, 6, 7, 8, 9, 15, 16, 254, 255]);
        match self.rng.below(6) {
            0..=1 => near,
            2 => near | 0x100 << self.rng.below(24),
            3 => self.rng.pick(&[65_534, 65_535, 65_536, 65_537, 65_544, u32::MAX]),
            4 => self.rng.below(512) as u32,
            _ => self.rng.word(),
        }
    }

    fn wild_offset(&mut self) -> u32 {
        let register = self.register();
        match self.rng.below(4) {
            0 => register | 0x1_0000 << self.rng.below(16),
            1 => register + self.rng.within(1, 3) as u32,
            2 => self.wild_number(),
            _ => self.rng.below(0x400) as u32,
        }
    }
}
