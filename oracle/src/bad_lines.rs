//! Lines that are not of the grammar of lessons, and texts at its edges.

use crate::lesson_lines::{systematic_lines, LineWords, Scribe};
use crate::rng::Rng;
use crate::text_reader::{read_line, Line};
use crate::words::{Words, LONGEST_LINE};
use std::fs;

/// `count` bad lines, each with its line feed. The first ones are the same for
/// each seed and go through every rule; the others are good lines with a change.
pub fn bad_lines(seed: u64, count: u64) -> Vec<u8> {
    let mut rng = Rng::new(seed ^ 0x5BE0_CD19_137E_2179);
    let mut scribe = Scribe::new(seed);
    let good = systematic_lines();
    let mut lines = handwritten();
    while (lines.len() as u64) < count {
        let words = match rng.below(4) {
            0 => scribe.random_step(),
            1 => scribe.expectation(),
            2 => scribe.bytes_words(&[1, 0, 0]),
            _ => good[rng.below(good.len() as u64) as usize].clone(),
        };
        let line = changed(&mut rng, &mut scribe, words);
        if is_bad(&line) {
            lines.push(line);
        }
    }
    lines.truncate(count as usize);
    lines.iter().flat_map(|line| line.iter().copied().chain([b'\n'])).collect()
}

/// In a file of its own, by one fault. A `repeat` that is alone there lacks only
/// `done`; a `done` with more words would have two faults.
fn is_bad(line: &[u8]) -> bool {
    let starts_with_done =
        Words::of(line).map_or(false, |mut words| words.next().map_or(false, |word| word.is("done")));
    match read_line(line) {
        _ if line.contains(&b'\n') => false,
        Ok(line) => line == Line::Done,
        Err(_) => !starts_with_done,
    }
}

/// A line with one change, to a word or to a byte.
fn changed(rng: &mut Rng, scribe: &mut Scribe, mut words: LineWords) -> Vec<u8> {
    let any = rng.below(words.len() as u64) as usize;
    let other = rng.pick(&STRANGERS).to_string();
    match rng.below(10) {
        0 => _ = words.remove(any),
        1 => words.insert(any, words[any].clone()),
        2 => words.insert(any, other),
        3 => words[any] = other,
        4 => words.push(other),
        5 if any > 0 => words.swap(any, any - 1),
        _ => return changed_byte(rng, scribe.laid_out(&words)),
    }
    scribe.laid_out(&words)
}

fn changed_byte(rng: &mut Rng, mut line: Vec<u8>) -> Vec<u8> {
    let place = rng.below(line.len() as u64) as usize;
    let near = b"0123456789abcdefABCDEFxXR#_ \t\r.-+grs\"";
    let byte = if rng.percent(80) { rng.pick(near) } else { rng.below(256) as u8 };
    match rng.below(3) {
        0 => _ = line.remove(place),
        1 => line.insert(place, byte),
        _ => line[place] = byte,
    }
    line
}

/// Words that may stand nowhere, or only elsewhere.
const STRANGERS: [&str; 23] = [
    "0", "1", "2", "256", "65536", "0x", "-1", "1.5", "MCR", "F14R1", "TI3R", "INRQ", "STID", "BRP", "good", "alone",
    "none", "TX", "lines", "refused", "reset", "123#11", "zz",
];

/// Every rule, at least once.
pub fn handwritten() -> Vec<Vec<u8>> {
    let listed = include_str!("bad_lines.txt").lines().filter(|line| !line.is_empty() && !line.starts_with('#'));
    let mut lines: Vec<Vec<u8>> =
        listed.chain(UNSEEN_LINES.iter().copied()).map(|line| line.as_bytes().to_vec()).collect();
    lines.push([&b"frame "[..], b"123#\xFF"].concat());
    lines.push(b"reset\xC2\xA0".to_vec());
    for start in [&b"idle #"[..], b"#", b"", b"nonsense "] {
        let mut line = start.to_vec();
        line.resize(LONGEST_LINE + 1, if start.is_empty() { b' ' } else { b'.' });
        lines.push(line);
    }
    lines
}

/// Those that a list of lines would not show as they are.
const UNSEEN_LINES: &[&str] = &[
    "\tbad",
    "\r bad",
    " \t\r bad # with a comment",
    "reset\u{b}",
    "reset\u{c}",
    "\u{b}reset",
    "\tdone # alone",
    "repeat ",
    "repeat\t# how often?",
    "end ",
    "bits \t",
    "error 1 ",
    "write MCR ",
    "write MCR \r",
    "expect ",
    "expect\r",
    "write BTR BRP ",
    "frame\t\t12x#",
    "expect lines ",
    "expect 5 lines\t",
];

/// Writes the texts at the grammar's edges into a folder.
pub fn write_files(folder: &str) -> Result<u8, String> {
    fs::create_dir_all(folder).map_err(|error| error.to_string())?;
    for (index, text) in edge_texts().iter().enumerate() {
        let name = format!("{folder}/edge-{index:03}.lesson");
        fs::write(name, text).map_err(|error| error.to_string())?;
    }
    Ok(0)
}

const SMALL_TEXTS: &[&str] = &[
    "",
    "\n",
    "\n\n\n",
    "# only a comment",
    "reset",
    "reset\n",
    "reset\r\n",
    "reset\r\nidle",
    "\n\nreset",
    "#\n\n  \t\n # x\nbad\n",
    "reset\n\n# a comment\n\n  read\n",
    "reset\n\n\n\nidle\nbits\t\n",
    "reset\nidle\nbad",
    "reset\n  frame 123#1\n",
    "bad\nworse\n",
    "repeat 3\nidle\ndone\n",
    "repeat 0\nidle\ndone\nstart\n",
    "repeat 1\nidle\ndone",
    "repeat 2\ndone\nidle\n",
    "repeat 0\nbad\ndone\n",
    "repeat 2\nrepeat 3\nidle\ndone\nstart\ndone\nreset\n",
    "repeat 2\nidle\nrepeat 0\nstart\ndone\ndone\n",
    "repeat 2\nbytes 01\nbytes 00\nbytes 00\ndone\n",
    "repeat 3\nbytes 04 00 00 04\ndone\nbytes 0000 0000\n",
    "done\n",
    "reset\ndone\n",
    "repeat 2\nidle\ndone\n  done\n",
    "repeat 2\nidle\ndone\ndone\ndone\n",
    "repeat 2\nidle\nbad\ndone\n",
    "repeat 2\nidle\n",
    "repeat 2\nrepeat 2\nidle\ndone\n",
    "repeat 2\nidle",
    "repeat 0\n",
    "repeat 2\n\n\n",
    "idle\nrepeat 2 # no end",
    "reset\nexpect 0\nexpect lines none\nrepeat 2\nread MSR\nexpect 0x00000C02 lines none\ndone\nexpect 0x00000C02\n",
    "bytes 02 02\nexpect 0\nbytes 00 04 00\n",
    "write BTR BRP 5\tTS1 12\r\n",
    "idle\r\r\n\t\r\nstart\n",
    "reset\0\n",
    "reset # \0\n",
    "\u{feff}reset\n",
];

/// Whole texts, good and bad, whose fault is in how lines stand together.
pub fn edge_texts() -> Vec<Vec<u8>> {
    let mut texts: Vec<Vec<u8>> = SMALL_TEXTS.iter().map(|text| text.as_bytes().to_vec()).collect();
    for depth in [7, 8, 9, 12] {
        texts.push(nested(depth).into_bytes());
    }
    for length in [LONGEST_LINE - 1, LONGEST_LINE, LONGEST_LINE + 1, 5 * LONGEST_LINE] {
        texts.extend(long_lines(length));
    }
    texts.push(repeat_of(50_000));
    texts
}

fn nested(depth: usize) -> String {
    let open: String = (0..depth).map(|level| format!("{}repeat 2\n", " ".repeat(level))).collect();
    format!("{open}idle\n{}start\n", "done\n".repeat(depth))
}

/// A line of this length between two others: words, a comment, blanks.
fn long_lines(length: usize) -> [Vec<u8>; 4] {
    [("bytes", " 04 00 00"), ("idle #", "."), ("", " "), ("bad", "d")].map(|(start, more)| {
        let mut line = start.to_string();
        while line.len() + more.len() <= length {
            line += more;
        }
        line += &" ".repeat(length - line.len());
        format!("reset\n{line}\nstart\n").into_bytes()
    })
}

/// A repeat whose lines have so many bytes with their line feeds.
pub fn repeat_of(bytes: usize) -> Vec<u8> {
    let line = "idle # and so on\n";
    let rest = "\n".repeat(bytes % line.len());
    format!("reset\nrepeat 2\n{}{rest}done\nstart\n", line.repeat(bytes / line.len())).into_bytes()
}
