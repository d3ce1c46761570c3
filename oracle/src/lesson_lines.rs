//! Lessons as text by seed, all of the grammar.

use crate::fields::{fields, registers, Field};
use crate::malformed::{needed, whole_record};
use crate::registers::Register;
use crate::replies::NAMES_OF_LINES;
use crate::rng::Rng;
use crate::text_reader::RESULTS;
use crate::words::LONGEST_LINE;

/// The words of a line.
pub type LineWords = Vec<String>;

/// A lesson of about `count` lines. The first ones say the same for each seed,
/// with every verb, register, field and form; behind them are random ones.
pub fn lesson_lines(seed: u64, count: u64) -> Vec<u8> {
    let mut scribe = Scribe::new(seed);
    for words in systematic_lines() {
        scribe.line(&words);
    }
    while scribe.lines < count {
        scribe.random_lines();
    }
    scribe.end()
}

fn split(line: &str) -> LineWords {
    line.split(' ').map(String::from).collect()
}

/// Each form of the grammar once or more.
pub fn systematic_lines() -> Vec<LineWords> {
    let mut lines: Vec<LineWords> = plain_lines().iter().map(|line| split(line)).collect();
    lines.extend(RESULTS.iter().map(|result| split(&format!("end {result}"))));
    lines.extend((0..=9).chain([0xFF]).map(|result| split(&format!("end {result}"))));
    for (offset, register) in registers() {
        lines.extend(lines_of_register(offset, register));
    }
    lines
}

fn plain_lines() -> Vec<&'static str> {
    let text = "reset/idle/activity/start/bits 0/bits 1/bits 65535/bits 0xFFFF/bits 0xabc/bits 007/end 0xFf/error 0 0\
        /error 255 255/error 1 8/error 0x6 0x01/read 0/read 0x0/read 2/read 65535/read 0xffff/read 0x2B0\
        /write 0x20 0/write 65535 4294967295/write 0x2b0 0xFFFFFFFF/write 0x3 00000000000000000000000000000001\
        /frame 123#/frame 000#/frame 7FF#00/frame 7ff#1122334455667788/frame 00000000#\
        /frame 1FFFFFFF#0102030405060708/frame 0aBcDeF1#aAbB/frame 123#R/frame 123#R0/frame 123#R5/frame 123#R8\
        /frame 12345678#R/frame 12345678#R8/frame 123#R8_9/frame 123#R8_f/frame 12345678#R8_B\
        /frame 123#1122334455667788_9/frame 00000123#1122334455667788_f/frame 123#1122334455667788_F\
        /frame 123#0000000000000000/frame 000007FF#11/frame 3bc#/frame 5ea#R8_a/bytes 01 00 00/bytes 010000\
        /bytes 04 0000/bytes 0202001c00/bytes 02 02 00 1C 00/bytes 0a 02 00 Ff fF/expect 0/expect 3073\
        /expect 0x00000C01/expect 0xffffffff/expect refused 1/expect refused 255/expect refused 0x0b\
        /expect lines none/expect lines TX/expect lines FIFO0/expect lines FIFO1/expect lines SCE\
        /expect lines SCE FIFO1 FIFO0 TX/expect 0x1 lines none/expect 5 lines TX FIFO1/expect refused 2 lines SCE\
        /expect refused 11 lines none/repeat 3/idle/expect 0/done/repeat 0/idle/done/repeat 2/repeat 0x2/start/done\
        /end good/done/repeat 1/done";
    text.split('/').collect()
}

/// Reads by name and offset; writes of a number, of each field, of all fields
/// and of a number with them.
fn lines_of_register(offset: u16, register: Register) -> Vec<LineWords> {
    let name = register.name();
    let mut lines = vec![
        format!("read {name}"),
        format!("read {offset}"),
        format!("read 0x{offset:x}"),
        format!("write {name} 0"),
        format!("write 0x{offset:04X} 0x{:08X}", 0x0102_0304 * (1 + offset as u32 % 7)),
    ];
    for field in fields(register) {
        lines.push(format!("write {name} {} {}", field.name, field.limit()));
        lines.push(format!("write {name} {} 0x{:X}", field.name, field.limit() / 2));
        lines.push(format!("write {name} {} 0", field.name));
        lines.push(format!("write {name} 0xFFFFFFFF {} {}", field.name, field.limit()));
        if field.is_flag() {
            lines.push(format!("write {name} {}", field.name));
            lines.push(format!("write {offset} {} {}", field.mask(), field.name));
        }
    }
    let all = apart(fields(register), 0);
    if !all.is_empty() {
        let named: Vec<String> = all.iter().map(|field| format!("{} {}", field.name, field.limit())).collect();
        lines.push(format!("write {name} {}", named.join(" ")));
        lines.push(format!("write {name} 0xFFFFFFFF {}", named.join(" ")));
    }
    lines.iter().map(|line| split(line)).collect()
}

/// Those of the fields that share no bits with each other, from the front on.
fn apart(fields: Vec<Field>, given: u32) -> Vec<Field> {
    let mut given = given;
    let mut free = |field: &Field| {
        let is_free = given & field.mask() == 0;
        given |= field.mask();
        is_free
    };
    fields.into_iter().filter(|field| free(field)).collect()
}

/// Writes lines with blanks and comments.
pub struct Scribe {
    rng: Rng,
    text: Vec<u8>,
    lines: u64,
    /// The counts of the repeats that are open.
    open: Vec<u32>,
    /// Where the outermost repeat begins in the text.
    opened: usize,
}

/// Repeats are written out to at most so many rounds in all.
const MOST_ROUNDS: u32 = 40;
/// An outermost repeat is closed from here on.
const LONG_REPEAT: usize = 20_000;

/// Lines and what is between their words.
impl Scribe {
    pub fn new(seed: u64) -> Scribe {
        Scribe { rng: Rng::new(seed ^ 0x1F83_D9AB_FB41_BD6B), text: Vec::new(), lines: 0, open: Vec::new(), opened: 0 }
    }

    fn blanks(&mut self, most: u64) -> String {
        let count = self.rng.below(most + 1);
        (0..count).map(|_| self.rng.pick(&[' ', ' ', ' ', '\t', '\r'])).collect()
    }

    /// The words as a line without its line feed.
    pub fn laid_out(&mut self, words: &[String]) -> Vec<u8> {
        let mut line = if self.rng.percent(15) { self.blanks(4) } else { String::new() };
        for (index, word) in words.iter().enumerate() {
            if index > 0 {
                line.push(self.rng.pick(&[' ', ' ', ' ', ' ', '\t', '\r']));
                line += &if self.rng.percent(10) { self.blanks(3) } else { String::new() };
            }
            line += word;
        }
        let mut line = line.into_bytes();
        match self.rng.below(20) {
            0..=3 => self.add_comment(&mut line, 20),
            4 => line.extend(self.blanks(5).bytes()),
            5 => line.push(b'\r'),
            6 if self.rng.percent(5) => {
                let room = LONGEST_LINE - line.len().min(LONGEST_LINE - 2);
                self.add_comment(&mut line, room as u64);
                line.resize(LONGEST_LINE, b'.');
            }
            _ => {}
        }
        line
    }

    /// A blank and `#` behind words, and up to so many bytes of anything.
    fn add_comment(&mut self, line: &mut Vec<u8>, most: u64) {
        if !line.is_empty() {
            line.push(self.rng.pick(b" \t"));
        }
        line.push(b'#');
        for _ in 0..self.rng.below(most) {
            let byte = if self.rng.percent(90) { self.rng.within(0x20, 0x7E) } else { self.rng.below(256) } as u8;
            if line.len() < LONGEST_LINE && byte != b'\n' {
                line.push(byte);
            }
        }
    }

    fn line(&mut self, words: &[String]) {
        let line = self.laid_out(words);
        self.text.extend_from_slice(&line);
        self.text.push(b'\n');
        self.lines += 1;
    }

    fn line_of(&mut self, text: &str) {
        self.line(&split(text));
    }

    fn empty_line(&mut self) {
        let mut line = self.blanks(3).into_bytes();
        if self.rng.percent(60) {
            self.add_comment(&mut line, 40);
        }
        self.text.extend_from_slice(&line);
        self.text.push(b'\n');
        self.lines += 1;
    }

    /// Closes the repeats; some texts end inside a record, some without a line feed.
    fn end(mut self) -> Vec<u8> {
        while !self.open.is_empty() {
            self.close();
        }
        if self.rng.percent(30) {
            self.line_of("bytes 03 06 00 1C");
        }
        if self.rng.percent(30) {
            self.text.pop();
        }
        self.text
    }

    fn open(&mut self) {
        if self.open.is_empty() {
            self.opened = self.text.len();
        }
        let rounds: u32 = self.open.iter().map(|&count| count.max(1)).product();
        let count = if self.rng.percent(5) { 0 } else { self.rng.within(1, 4) as u32 };
        let count = if rounds * count.max(1) > MOST_ROUNDS { 1 } else { count };
        let number = self.spelled(count);
        self.line_of(&format!("repeat {number}"));
        self.open.push(count);
    }

    fn close(&mut self) {
        self.line_of("done");
        self.open.pop();
    }
}

/// What a line says.
impl Scribe {
    fn random_lines(&mut self) {
        let depth = self.open.len();
        let long = depth > 0 && self.text.len() - self.opened > LONG_REPEAT;
        match self.rng.below(100) {
            _ if long => self.close(),
            0..=3 if depth < 8 => self.open(),
            4 if depth == 0 => (0..8).for_each(|_| self.open()),
            5..=5 | 7..=13 if depth > 0 => self.close(),
            14..=20 => self.empty_line(),
            21..=28 => self.bytes_lines(),
            _ => {
                let words = self.random_step();
                self.line(&words);
                for _ in 0..self.rng.pick(&[0, 0, 0, 1, 1, 2]) {
                    let words = self.expectation();
                    self.line(&words);
                }
            }
        }
    }

    /// A number in one of its spellings.
    fn spelled(&mut self, number: u32) -> String {
        match self.rng.below(8) {
            0..=3 => number.to_string(),
            4 => format!("0x{number:X}"),
            5 => format!("0x{number:08x}"),
            6 => self.mixed(&format!("0x{number:x}")),
            _ => format!("{}{number}", "0".repeat(self.rng.below(12) as usize)),
        }
    }

    /// Hex digits of either case.
    fn mixed(&mut self, digits: &str) -> String {
        let turned = |digit: char, up: bool| if up && digit != 'x' { digit.to_ascii_uppercase() } else { digit };
        digits.chars().map(|digit| turned(digit, self.rng.percent(50))).collect()
    }

    fn small_or_any(&mut self, limit: u32) -> u32 {
        match self.rng.below(6) {
            0 => limit,
            1 => 0,
            2 => self.rng.below(limit.min(9) as u64 + 1) as u32,
            _ => self.rng.below(limit as u64 + 1) as u32,
        }
    }

    fn number(&mut self, limit: u32) -> String {
        let number = self.small_or_any(limit);
        self.spelled(number)
    }

    pub fn random_step(&mut self) -> LineWords {
        match self.rng.below(24) {
            0 => split(self.rng.pick(&["reset", "idle", "activity", "start"])),
            1..=3 => {
                let (register, _) = self.register();
                vec!["read".into(), register]
            }
            4..=13 => self.write(),
            14 => vec!["bits".into(), self.number(65_535)],
            15 => vec!["error".into(), self.number(255), self.number(255)],
            16 => vec!["end".into(), self.number(255)],
            17 => vec!["end".into(), self.rng.pick(&RESULTS).into()],
            18 => split(self.rng.pick(&["idle", "start", "end good", "end lost"])),
            _ => vec!["frame".into(), self.frame()],
        }
    }

    /// A register by name, as its offset, or an offset of none.
    fn register(&mut self) -> (String, Option<Register>) {
        let all = registers();
        let (offset, register) = all[self.rng.below(all.len() as u64) as usize];
        match self.rng.below(10) {
            0..=7 => (register.name(), Some(register)),
            8 => (self.spelled(offset as u32), Some(register)),
            _ => {
                let offset = self.small_or_any(65_535);
                (self.spelled(offset), Register::at(offset as u16))
            }
        }
    }

    fn write(&mut self) -> LineWords {
        let (name, register) = self.register();
        let mut words = vec!["write".into(), name];
        let fields = self.some_fields(register);
        if fields.is_empty() || self.rng.percent(25) {
            words.push(self.number(u32::MAX));
        } else if self.rng.percent(60) {
            for field in fields {
                let number = self.small_or_any(field.limit());
                self.add_field(&mut words, &field, number);
            }
        } else {
            let word = self.small_or_any(u32::MAX);
            words.push(self.spelled(word));
            for field in fields {
                let number = field.of(word);
                self.add_field(&mut words, &field, number);
            }
        }
        words
    }

    /// In any order, without common bits.
    fn some_fields(&mut self, register: Option<Register>) -> Vec<Field> {
        let mut left = register.map(fields).unwrap_or_default();
        let count = if self.rng.percent(15) { left.len() as u64 } else { self.rng.within(1, 5) };
        let mut chosen = Vec::new();
        while (chosen.len() as u64) < count && !left.is_empty() {
            let index = self.rng.below(left.len() as u64) as usize;
            chosen.push(left.remove(index));
        }
        apart(chosen, 0)
    }

    fn add_field(&mut self, words: &mut LineWords, field: &Field, number: u32) {
        words.push(field.name.clone());
        if !field.is_flag() || number == 0 || self.rng.percent(20) {
            words.push(self.spelled(number));
        }
    }

    fn frame(&mut self) -> String {
        let identifier = match self.rng.percent(50) {
            true => format!("{:03x}", self.small_or_any(0x7FF)),
            false => format!("{:08x}", self.small_or_any(0x1FFF_FFFF)),
        };
        let code = self.rng.within(9, 15);
        let bytes =
            |rng: &mut Rng, count: u64| (0..count).map(|_| format!("{:02x}", rng.below(256))).collect::<String>();
        let content = match self.rng.below(10) {
            0 => "R".into(),
            1 => format!("R{}", self.rng.below(9)),
            2 => format!("R8_{code:x}"),
            3 => format!("{}_{code:x}", bytes(&mut self.rng, 8)),
            _ => {
                let count = self.rng.below(9);
                bytes(&mut self.rng, count)
            }
        };
        let data = self.mixed(&content);
        format!("{}#{data}", self.mixed(&identifier))
    }

    /// A whole record as bytes, on one line or two; what is expected of it may
    /// stand between them.
    fn bytes_lines(&mut self) {
        let tag = self.rng.within(0x01, 0x0A) as u8;
        let record = whole_record(tag, &mut self.rng);
        let cut = if self.rng.percent(70) { record.len() } else { self.rng.within(1, needed(tag) as u64 + 2) as usize };
        let words = self.bytes_words(&record[..cut]);
        self.line(&words);
        if self.rng.percent(40) {
            let words = self.expectation();
            self.line(&words);
        }
        if cut < record.len() {
            let words = self.bytes_words(&record[cut..]);
            self.line(&words);
        }
    }

    /// One pair or more to a word.
    pub fn bytes_words(&mut self, bytes: &[u8]) -> LineWords {
        let mut words = vec![String::from("bytes")];
        for (index, byte) in bytes.iter().enumerate() {
            let pair = self.mixed(&format!("{byte:02x}"));
            match words.last_mut() {
                Some(word) if index > 0 && self.rng.percent(20) => *word += &pair,
                _ => words.push(pair),
            }
        }
        words
    }

    pub fn expectation(&mut self) -> LineWords {
        let mut words = vec!["expect".into()];
        let form = self.rng.below(5);
        match form {
            0 | 1 => words.push(self.number(u32::MAX)),
            2 | 3 => {
                let code = 1 + self.small_or_any(254);
                words.extend(["refused".into(), self.spelled(code)]);
            }
            _ => {}
        }
        if form == 4 || self.rng.percent(50) {
            words.push("lines".into());
            let mut left = NAMES_OF_LINES.to_vec();
            for _ in 0..self.rng.below(5) {
                let index = self.rng.below(left.len() as u64) as usize;
                words.push(left.remove(index).into());
            }
            if left.len() == NAMES_OF_LINES.len() {
                words.push("none".into());
            }
        }
        words
    }
}
