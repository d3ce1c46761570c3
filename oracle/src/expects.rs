//! What a lesson expects, against what the controller answers.

use crate::controller::{Answer, Controller};
use crate::lesson_text::{each, Part};
use crate::replies::lines_in_words;
use crate::script::{decode, CODE_SHORT, REPLY_LENGTH};
use crate::text_reader::Expectation;
use crate::writer::RESET_RECORD;
use crate::{lesson, script};

/// An expectation that was not met, or could not be asked.
#[derive(Clone, PartialEq, Eq, Debug)]
pub struct Unmet {
    pub line: u64,
    pub message: String,
}

/// A lesson that is replayed as its bytes come.
struct Replay {
    controller: Controller,
    /// Bytes of a record that isn't whole yet.
    rest: Vec<u8>,
    /// The answer to the last whole record.
    last: Option<Answer>,
    /// The record before ended the replay.
    ended: bool,
    /// What is expected of the record that the rest begins.
    waiting: Option<(u64, Expectation)>,
    unmet: Vec<Unmet>,
}

/// Replays a lesson and checks each expectation. An error is a lesson that
/// does not open with a reset.
pub fn check(parts: &[Part]) -> Result<Vec<Unmet>, String> {
    if !opens_with_reset(parts) {
        return Err("a lesson opens with a reset".into());
    }
    let mut replay = Replay {
        controller: Controller::at_reset(),
        rest: Vec::new(),
        last: None,
        ended: false,
        waiting: None,
        unmet: Vec::new(),
    };
    each(parts, &mut |part| {
        match part {
            Part::Bytes(bytes) => replay.feed(bytes),
            Part::Expect(line, expectation) => replay.expect(*line, *expectation),
            Part::Repeat(..) => {}
        }
        true
    });
    replay.end();
    Ok(replay.unmet)
}

fn opens_with_reset(parts: &[Part]) -> bool {
    let mut opening = Vec::new();
    each(parts, &mut |part| {
        if let Part::Bytes(bytes) = part {
            opening.extend(bytes.iter().take(RESET_RECORD.len()));
        }
        opening.len() < RESET_RECORD.len()
    });
    let mut reply = [0; REPLY_LENGTH];
    lesson::step(&mut Controller::at_reset(), &opening, 0, &mut reply).answer.code != lesson::CODE_OPENING
}

impl Replay {
    /// Does the records that are whole now.
    fn feed(&mut self, bytes: &[u8]) {
        if self.ended {
            self.last = None;
            return;
        }
        self.rest.extend_from_slice(bytes);
        let mut place = 0;
        while place < self.rest.len() {
            match decode(&self.rest[place..]) {
                Err(unreadable) if unreadable.code() == CODE_SHORT => break,
                _ => place += self.step(place),
            }
            if self.ended {
                self.rest.clear();
                return;
            }
        }
        self.rest.drain(..place);
    }

    /// One record, or what can't be read; gives its length.
    fn step(&mut self, place: usize) -> usize {
        let mut reply = [0; REPLY_LENGTH];
        let progress = script::step(&mut self.controller, &self.rest, place, &mut reply);
        self.ended = progress.answer.code >= CODE_SHORT;
        self.last = Some(progress.answer);
        if let Some((line, expectation)) = self.waiting.take() {
            self.compare(line, expectation, progress.answer);
        }
        progress.place - place
    }

    fn expect(&mut self, line: u64, expectation: Expectation) {
        if self.rest.is_empty() {
            match self.last {
                Some(answer) => self.compare(line, expectation, answer),
                None if self.ended => self.note(line, "the replay has ended before the step above".into()),
                None => self.note(line, "there is no step above".into()),
            }
        } else if self.waiting.is_some() {
            self.note(line, "a second expect behind bytes that are no whole record".into());
        } else {
            self.waiting = Some((line, expectation));
        }
    }

    /// A record that is still cut short at the end is answered so.
    fn end(&mut self) {
        if !self.rest.is_empty() {
            self.step(0);
        }
    }

    fn compare(&mut self, line: u64, expectation: Expectation, answer: Answer) {
        let said = expectation.answer.map_or(true, |said| said == (answer.code, answer.word));
        let lines = expectation.lines.map_or(true, |lines| lines == answer.lines);
        if !said || !lines {
            let came = in_words(Some((answer.code, answer.word)), Some(answer.lines));
            self.note(line, format!("expected {}, came {came}", in_words(expectation.answer, expectation.lines)));
        }
    }

    fn note(&mut self, line: u64, message: String) {
        self.unmet.push(Unmet { line, message });
    }
}

fn in_words(answer: Option<(u8, u32)>, lines: Option<u8>) -> String {
    let lines = lines.map(|lines| match lines {
        0 => "lines none".into(),
        _ => format!("lines {}", lines_in_words(lines)),
    });
    let answer = answer.map(|(code, word)| match code {
        0 => format!("0x{word:08X}"),
        _ => format!("refused {code}"),
    });
    let words: Vec<String> = answer.into_iter().chain(lines).collect();
    words.join(" ")
}
