//! The lines of a lesson's text, their words, and what is wrong with one.

use crate::here;
use crate::probe::{made, Mistake};

/// How many bytes a line may have, its line feed not counted.
pub const LONGEST_LINE: usize = 1000;

/// Where a line is not of the grammar, and what is wrong there.
#[derive(Clone, PartialEq, Eq, Debug)]
pub struct LineFault {
    /// In bytes, from 1.
    pub column: usize,
    pub message: String,
}

/// A word and the place of its first byte in the line, from 0.
#[derive(Clone, Copy, PartialEq, Eq, Debug)]
pub struct Word<'a> {
    pub bytes: &'a [u8],
    pub place: usize,
}

impl Word<'_> {
    pub fn is(&self, text: &str) -> bool {
        self.bytes == text.as_bytes()
    }

    /// Does it stand where a number may?
    pub fn is_number(&self) -> bool {
        self.bytes[0].is_ascii_digit()
    }

    /// The fault of a word that stands where only something else is allowed.
    pub fn refuse(&self, allowed: &str) -> LineFault {
        self.refuse_at(0, allowed)
    }

    /// The same from a byte of the word on, or behind its last one.
    pub fn refuse_at(&self, byte: usize, allowed: &str) -> LineFault {
        let rest = &self.bytes[byte..];
        let found = if rest.is_empty() { "the end of the word".into() } else { format!("\"{}\"", rest.escape_ascii()) };
        fault(self.place + byte, &found, allowed)
    }
}

/// `place` is from 0.
pub fn fault(place: usize, found: &str, allowed: &str) -> LineFault {
    LineFault { column: place + 1, message: format!("found {found}; allowed: {allowed}") }
}

fn is_blank(byte: u8) -> bool {
    match byte {
        b'\t' => !made(Mistake::TabIsNoBlank),
        b'\r' => !made(Mistake::CarriageReturnIsNoBlank),
        _ => byte == b' ',
    }
}

/// A line, read word by word.
pub struct Words<'a> {
    line: &'a [u8],
    place: usize,
}

impl<'a> Words<'a> {
    /// Refuses a line that is too long.
    pub fn of(line: &'a [u8]) -> Result<Words<'a>, LineFault> {
        let most = match () {
            () if made(Mistake::LineOf1000BytesRefused) => LONGEST_LINE - 1,
            () if made(Mistake::LineOf1001BytesTaken) => LONGEST_LINE + 1,
            () => LONGEST_LINE,
        };
        if line.len() > most {
            here!();
            return Err(fault(LONGEST_LINE, "a longer line", "1000 bytes to a line"));
        }
        Ok(Words { line, place: 0 })
    }

    /// The next word. At a comment there is none, as at the line's end.
    pub fn next(&mut self) -> Option<Word<'a>> {
        let line = self.line;
        self.place += line[self.place..].iter().take_while(|&&byte| is_blank(byte)).count();
        let place = self.place;
        let inside = |byte: u8| !is_blank(byte) && !(made(Mistake::CommentInsideWord) && byte == b'#');
        match line.get(place) {
            None | Some(b'#') => {
                here!();
                None
            }
            Some(_) => {
                here!();
                let length = line[place..].iter().take_while(|&&byte| inside(byte)).count();
                self.place += length;
                Some(Word { bytes: &line[place..place + length], place })
            }
        }
    }

    /// The next word without going on.
    pub fn peek(&self) -> Option<Word<'a>> {
        Words { ..*self }.next()
    }

    /// The next word, or the fault that it is missing.
    pub fn needed(&mut self, allowed: &str) -> Result<Word<'a>, LineFault> {
        let before = self.place;
        self.next().ok_or_else(|| {
            let place = if made(Mistake::MissingWordBehindLastOne) { before } else { self.place };
            fault(place, "the end of the line", allowed)
        })
    }

    /// The fault of a word behind a line that is whole.
    pub fn end(&mut self, allowed: &str) -> Result<(), LineFault> {
        match self.next() {
            Some(_) if made(Mistake::WordsBehindALineIgnored) => Ok(()),
            Some(word) => {
                here!();
                Err(word.refuse(allowed))
            }
            None => Ok(()),
        }
    }
}

/// Decimal digits, or 0x and hex digits, up to 4294967295.
pub fn number(word: &[u8]) -> Option<u32> {
    let hex = match *word {
        [b'0', b'x', ref digits @ ..] => Some(digits),
        [b'0', b'X', ref digits @ ..] if made(Mistake::CapitalXTaken) => Some(digits),
        _ => None,
    };
    if made(Mistake::CapitalDigitsOnly) && word.iter().any(|byte| (b'a'..=b'f').contains(byte)) {
        return None;
    }
    match hex {
        Some(digits) => value(digits, 16),
        None if made(Mistake::NumbersAreHex) => value(word, 16),
        None if made(Mistake::LeadingZeroIsOctal) && word.len() > 1 && word[0] == b'0' => value(word, 8),
        None => value(word, 10),
    }
}

fn value(digits: &[u8], base: u32) -> Option<u32> {
    let most = if made(Mistake::NumbersOfTenDigits) { 10 } else { digits.len() };
    if digits.is_empty() || digits.len() > most {
        return None;
    }
    let mut value: u32 = 0;
    for &byte in digits {
        let digit = (byte as char).to_digit(base)?;
        value = match value.checked_mul(base).and_then(|value| value.checked_add(digit)) {
            None if made(Mistake::NumbersWrap) => value.wrapping_mul(base).wrapping_add(digit),
            sum => sum?,
        };
    }
    Some(value)
}

/// How many hex digits a word begins with.
pub fn hex_digits(word: &[u8]) -> usize {
    word.iter().take_while(|byte| byte.is_ascii_hexdigit()).count()
}

/// The bytes of pairs of hex digits.
pub fn pairs(digits: &[u8]) -> Vec<u8> {
    let digit = |byte: u8| (byte as char).to_digit(16).unwrap_or(0) as u8;
    digits.chunks(2).map(|pair| pair.iter().fold(0, |byte, &next| byte << 4 | digit(next))).collect()
}
