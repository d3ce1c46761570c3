//! A whole lesson's text: its steps, expectations and repeats.

use crate::here;
use crate::probe::{made, Mistake};
use crate::text_reader::{read_line, Expectation, Line};
use crate::words::{fault, LineFault};

const DEEPEST_REPEAT: usize = 8;
/// How many bytes the lines of an outermost repeat may have, with their line
/// feeds, those of `repeat` and `done` not counted.
const LONGEST_REPEAT: usize = 60_000;

/// Where a text is not of the grammar.
#[derive(Clone, PartialEq, Eq, Debug)]
pub struct Fault {
    /// From 1.
    pub line: u64,
    /// In bytes, from 1.
    pub column: usize,
    pub message: String,
}

#[derive(Clone, PartialEq, Eq, Debug)]
pub enum Part {
    /// Bytes of the script.
    Bytes(Vec<u8>),
    /// Of the record that the bytes before it end in, or begin; with its line.
    Expect(u64, Expectation),
    Repeat(u32, Vec<Part>),
}

/// Reads a text line by line. The repeats that are open have their parts here.
#[derive(Default)]
struct Reader {
    parts: Vec<Part>,
    open: Vec<(u32, Vec<Part>)>,
    /// Bytes of the lines of the outermost repeat so far.
    held: usize,
}

/// The parts of a text, or its first fault.
pub fn read(text: &[u8]) -> Result<Vec<Part>, Fault> {
    let mut reader = Reader::default();
    let mut lines: Vec<&[u8]> = text.split(|&byte| byte == b'\n').collect();
    // Behind the last line feed there is no line.
    if lines.last().map_or(false, |line| line.is_empty()) || made(Mistake::LastLineNeedsLineFeed) {
        lines.pop();
    }
    let mut number = 0;
    for line in &lines {
        number += 1;
        let read = reader.take(number, line);
        read.map_err(|LineFault { column, message }| located(number, column, message))?;
        if made(Mistake::LinesOfNoWordNotCounted) && read_line(line) == Ok(Line::Nothing) {
            number -= 1;
        }
    }
    if reader.open.is_empty() || made(Mistake::RepeatWithoutDoneTaken) {
        while !reader.open.is_empty() {
            reader.close();
        }
        return Ok(reader.parts);
    }
    here!();
    let end = fault(0, "the end of the text", "done, for each repeat");
    Err(located(number + 1, end.column, end.message))
}

fn located(line: u64, column: usize, message: String) -> Fault {
    let line = if made(Mistake::LinesCountedFrom0) { line - 1 } else { line };
    let column = if made(Mistake::ColumnsCountedFrom0) { column - 1 } else { column };
    Fault { line, column, message }
}

impl Reader {
    fn take(&mut self, number: u64, line: &[u8]) -> Result<(), LineFault> {
        let read = read_line(line)?;
        if !self.open.is_empty() && !(read == Line::Done && self.open.len() == 1) {
            self.hold(line)?;
        }
        match read {
            Line::Nothing => {}
            Line::Step(step) => step.encode(self.bytes()),
            Line::Bytes(bytes) => self.bytes().extend(bytes),
            Line::Expect(expectation) => self.inner().push(Part::Expect(number, expectation)),
            Line::Repeat(count) => self.open(line, count)?,
            Line::Done if self.open.is_empty() => {
                here!();
                let allowed = "done behind the lines of a repeat";
                if !made(Mistake::DoneWithoutRepeatTaken) {
                    return Err(fault(first_place(line), "done without repeat", allowed));
                }
            }
            Line::Done => self.close(),
        }
        Ok(())
    }

    fn hold(&mut self, line: &[u8]) -> Result<(), LineFault> {
        self.held += line.len() + 1;
        let limit = if made(Mistake::RepeatNotLimited) { usize::MAX } else { LONGEST_REPEAT };
        if self.held > limit {
            here!();
            return Err(fault(0, "a longer repeat", "60,000 bytes in the lines of a repeat"));
        }
        Ok(())
    }

    fn open(&mut self, line: &[u8], count: u32) -> Result<(), LineFault> {
        let deepest = match () {
            () if made(Mistake::SevenRepeatsDeep) => DEEPEST_REPEAT - 1,
            () if made(Mistake::NineRepeatsDeep) => DEEPEST_REPEAT + 1,
            () => DEEPEST_REPEAT,
        };
        if self.open.len() == deepest {
            here!();
            return Err(fault(first_place(line), "a repeat too deep", "eight repeats in each other"));
        }
        if self.open.is_empty() {
            self.held = 0;
        }
        self.open.push((count, Vec::new()));
        Ok(())
    }

    /// A repeat of nothing is left out, however often.
    fn close(&mut self) {
        match self.open.pop() {
            Some((count, parts)) if rounds(count) > 0 && !parts.is_empty() => {
                self.inner().push(Part::Repeat(count, parts));
            }
            _ => {}
        }
    }

    /// The parts of the innermost repeat, or of the text.
    fn inner(&mut self) -> &mut Vec<Part> {
        match self.open.last_mut() {
            Some((_, parts)) => parts,
            None => &mut self.parts,
        }
    }

    /// The bytes at the end of these parts, for more.
    fn bytes(&mut self) -> &mut Vec<u8> {
        let parts = self.inner();
        if !matches!(parts.last(), Some(Part::Bytes(_))) {
            parts.push(Part::Bytes(Vec::new()));
        }
        match parts.last_mut() {
            Some(Part::Bytes(bytes)) => bytes,
            _ => unreachable!("bytes were put there"),
        }
    }
}

/// Where the first word of a line begins, from 0.
fn first_place(line: &[u8]) -> usize {
    line.iter().position(|byte| !b" \t\r".contains(byte)).unwrap_or(0)
}

/// Goes through the parts in order, repeats written out, until a false.
pub fn each(parts: &[Part], take: &mut impl FnMut(&Part) -> bool) -> bool {
    parts.iter().all(|part| match part {
        Part::Repeat(count, inner) => (0..rounds(*count)).all(|_| each(inner, take)),
        part => take(part),
    })
}

fn rounds(count: u32) -> u64 {
    let count = count as u64;
    match () {
        () if made(Mistake::RepeatZeroOnce) => count.max(1),
        () if made(Mistake::RepeatOnceMore) => count + 1,
        () if made(Mistake::RepeatOnceLess) => count.saturating_sub(1),
        () => count,
    }
}

/// The bytes of a text, or the line and the column of its fault.
#[cfg(any(test, wrong))]
pub type Script = Result<Vec<u8>, (u64, usize)>;

#[cfg(any(test, wrong))]
pub fn script_of(text: &[u8]) -> Script {
    let parts = read(text).map_err(|fault| (fault.line, fault.column))?;
    let mut script = Vec::new();
    each(&parts, &mut |part| {
        if let Part::Bytes(bytes) = part {
            script.extend_from_slice(bytes);
        }
        true
    });
    Ok(script)
}
