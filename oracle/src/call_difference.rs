//! Where a library differs from `calls`, in words.

use crate::block::{self, BLOCK_LENGTH, RULES};
use crate::call_tally::{call_number, CALLS};
use crate::calls::{self, BOARD};
use crate::commands::hex;
use crate::random_calls::Library;
use crate::writer::WideStep;

/// What a library does otherwise.
pub enum Difference {
    BlockSize { board: u32, ours: usize, theirs: usize },
    Call(Box<CallDifference>),
}

/// A call that is answered otherwise, or leaves another block.
pub struct CallDifference {
    pub board: u32,
    pub step: WideStep,
    pub before: Vec<u8>,
    pub ours: Outcome,
    pub theirs: Outcome,
    /// The library has written bytes beside the block.
    pub outside: bool,
}

pub struct Outcome {
    pub answer: u64,
    pub block: Vec<u8>,
}

impl Difference {
    /// The call as C has it.
    pub fn in_words(&self) -> String {
        match self {
            Difference::BlockSize { board, .. } => format!("bxcan_block_size({board})"),
            Difference::Call(call) => call.in_words(),
        }
    }

    /// The call, with as few numbers of the block as it takes, and both answers.
    pub fn lines(self, library: &mut dyn Library) -> Vec<String> {
        let name = self.in_words();
        match self {
            Difference::BlockSize { ours, theirs, .. } => {
                vec![format!("{name} is {theirs}, by the second implementation {ours}")]
            }
            Difference::Call(call) => call.simplified(library).lines(),
        }
    }
}

fn reset_block() -> [u8; BLOCK_LENGTH] {
    let mut block = [0; BLOCK_LENGTH];
    calls::call(BOARD, &mut block, WideStep::Reset);
    block
}

impl CallDifference {
    fn in_words(&self) -> String {
        let numbers = match self.step {
            WideStep::Read(a) | WideStep::BitTimes(a) | WideStep::OwnEnd(a) => vec![a],
            WideStep::Write(a, b) | WideStep::ReceiveError { code: a, step: b } => vec![a, b],
            WideStep::Frame { identifier, length, data: [low, high] } => vec![identifier, length, low, high],
            _ => vec![],
        };
        let numbers: String = numbers.iter().map(|number| format!(", 0x{number:X}")).collect();
        format!("{}({}, block, {}{numbers})", CALLS[call_number(self.step)].0, self.board, self.before.len())
    }

    /// As many numbers of the block as at a reset as leave a difference.
    fn simplified(mut self, library: &mut dyn Library) -> CallDifference {
        if self.before.len() != BLOCK_LENGTH || self.outside {
            return self;
        }
        let reset = reset_block();
        loop {
            let before = self.before.clone();
            for (_, place, bytes) in block::places() {
                let mut block = self.before.clone();
                block[place..place + bytes].copy_from_slice(&reset[place..place + bytes]);
                self = self.on(block, library);
            }
            if self.before == before {
                return self;
            }
        }
    }

    /// The same call on another block, if there is a difference too.
    fn on(self, before: Vec<u8>, library: &mut dyn Library) -> CallDifference {
        let CallDifference { board, step, .. } = self;
        let (mut block, mut other) = (before.clone(), before.clone());
        let ours = Outcome { answer: calls::call(board, &mut block, step), block };
        let theirs = Outcome { answer: library.call(board, &mut other, step), block: other };
        if ours.answer == theirs.answer && ours.block == theirs.block {
            return self;
        }
        CallDifference { board, step, before, ours, theirs, outside: false }
    }

    fn lines(&self) -> Vec<String> {
        let mut lines = vec![format!("the call: {}", self.in_words())];
        if self.outside {
            lines.push("the library writes beside the block".into());
            return lines;
        }
        let whole = self.before.len() == BLOCK_LENGTH;
        if whole {
            lines.push("the block before it, where it isn't that of a reset:".into());
            let numbers = differing(&reset_block(), &self.before).into_iter();
            lines.extend(numbers.map(|(name, _, bytes)| format!("  {name}: {bytes}")));
        }
        let rules = block::read(&self.before).1;
        let broken = RULES.iter().filter(|&&(rule, ..)| rules.has(rule));
        lines.extend(broken.map(|(.., text)| format!("the second implementation finds in it: {text}")));
        lines.push(format!("the library answers        {}", answer_in_words(self.theirs.answer)));
        lines.push(format!("the second implementation  {}", answer_in_words(self.ours.answer)));
        if whole {
            let numbers = differing(&self.theirs.block, &self.ours.block).into_iter();
            lines.extend(numbers.map(|(name, theirs, ours)| {
                format!("the block after it, {name}: the library {theirs}, the second implementation {ours}")
            }));
        } else if self.theirs.block != self.ours.block {
            lines.push("the library writes to the block".into());
        }
        lines
    }
}

/// Name, and the bytes in both, of each number that differs.
fn differing(a: &[u8], b: &[u8]) -> Vec<(String, String, String)> {
    let mut differing = Vec::new();
    for (name, place, bytes) in block::places() {
        let [a, b] = [a, b].map(|block| &block[place..place + bytes]);
        if a != b {
            differing.push((format!("{name} (at byte {place})"), hex(a), hex(b)));
        }
    }
    differing
}

fn answer_in_words(answer: u64) -> String {
    let (code, lines, word) = (answer as u8, (answer >> 8) as u8, (answer >> 32) as u32);
    format!("0x{answer:016X}: code {code}, lines {lines}, word 0x{word:08X}")
}
