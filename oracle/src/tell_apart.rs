//! Shows for each wrong variant a script on which its replies differ from
//! the right ones, or its request book finds a violation, or how many filters
//! it says that a search compares, or another answer of the writer, the reply
//! reader or the lesson reader, or other bytes, another fault or another text
//! of a lesson, or a call on a block that it answers otherwise.

use crate::bad_lines::{bad_lines, edge_texts, repeat_of};
use crate::broken_replies::broken_replies;
use crate::calls;
use crate::comparisons;
use crate::controller::{Answer, Controller};
use crate::encode::{self, ANSWER_LENGTH, REQUEST_LENGTH};
use crate::generate::{generate, Kind, KINDS};
use crate::lesson::{self, CODE_OPENING};
use crate::lesson_lines::lesson_lines;
use crate::lesson_text::{script_of, Script};
use crate::malformed::broken_script;
use crate::openings::openings;
use crate::probe::{current, switch_to, MISTAKES};
use crate::random_calls::{self, Library};
use crate::replies::read_reply;
use crate::requests::Requests;
use crate::script::{decode, step, Progress, Unreadable, CODE_SHORT, REPLY_LENGTH};
use crate::text_writer;
use crate::writer::WideStep;

/// Enough to pass 65,536 requests.
const REQUEST_RECORDS: u64 = 140_000;
const MALFORMED: u64 = 600;
const REQUESTS: u64 = 12_000;
const BROKEN_REPLIES: u64 = 600;
const LESSON_LINES: u64 = 2000;
const BAD_LINES: u64 = 1000;
const WORDED_RECORDS: u64 = 3000;
const RANDOM_CALLS: u64 = 20_000;

/// Something that a wrong variant may answer otherwise.
trait Case {
    /// Where the present variant does, in words.
    fn difference(&self) -> Option<String>;
}

/// A script and its replies.
struct ScriptCase {
    name: String,
    script: Vec<u8>,
    right: Vec<u8>,
}

impl ScriptCase {
    fn new(name: String, script: Vec<u8>) -> ScriptCase {
        let mut right = Vec::new();
        replay(&script, |_, reply| {
            right.extend_from_slice(reply);
            true
        });
        ScriptCase { name, script, right }
    }

    /// The first record whose reply is another one now.
    fn first_difference(&self) -> Option<u64> {
        let mut different = None;
        let records = replay(&self.script, |record, reply| {
            let from = record as usize * REPLY_LENGTH;
            let same = self.right.get(from..from + REPLY_LENGTH) == Some(&reply[..]);
            if !same {
                different = Some(record);
            }
            same
        });
        let right_records = (self.right.len() / REPLY_LENGTH) as u64;
        different.or((records < right_records).then_some(records))
    }
}

impl Case for ScriptCase {
    fn difference(&self) -> Option<String> {
        self.first_difference().map(|record| format!("{}, record {record}", self.name))
    }
}

/// An input and a list of answers to it.
struct ListCase<T> {
    name: String,
    input: Vec<u8>,
    ask: fn(&[u8]) -> Vec<T>,
    right: Vec<T>,
    /// An answer in words, by its place in the list.
    numbered: fn(usize, &T) -> String,
}

impl<T: PartialEq> ListCase<T> {
    fn new(name: String, input: Vec<u8>, ask: fn(&[u8]) -> Vec<T>, numbered: fn(usize, &T) -> String) -> Self {
        let right = ask(&input);
        ListCase { name, input, ask, right, numbered }
    }
}

impl<T: PartialEq> Case for ListCase<T> {
    fn difference(&self) -> Option<String> {
        let now = (self.ask)(&self.input);
        let most = self.right.len().max(now.len());
        let place = (0..most).find(|&place| self.right.get(place) != now.get(place))?;
        let answer = self.right.get(place).or(now.get(place))?;
        Some(format!("{}, {}", self.name, (self.numbered)(place, answer)))
    }
}

/// The record of each search, and how many filters it compares.
fn searches(script: &[u8]) -> Vec<(u64, usize)> {
    let mut searches = Vec::new();
    comparisons::replay(script, |search| searches.push((search.record, search.compared)));
    searches
}

/// The record of the first violation that the request book finds, if any.
fn violations(script: &[u8]) -> Vec<u64> {
    let mut controller = Controller::at_reset();
    let mut requests = Requests::default();
    let (mut record, mut rest) = (0, script);
    while !rest.is_empty() {
        let (step, length) = match decode(rest) {
            Ok(read) => read,
            Err(_) => break,
        };
        let answer = step.apply(&mut controller);
        if requests.feed(record, step, answer).and_then(|()| requests.check_tme(controller.tsr())).is_err() {
            return vec![record];
        }
        record += 1;
        rest = &rest[length..];
    }
    Vec::new()
}

/// The writer's answers to requests.
fn records(requests: &[u8]) -> Vec<Result<[u8; ANSWER_LENGTH], String>> {
    requests.chunks(REQUEST_LENGTH).map(encode::answer).collect()
}

/// Replies up to one that can't be read; that of nothing is the last one.
fn answers(replies: &[u8]) -> Vec<Result<(Answer, usize), Unreadable>> {
    let mut answers = Vec::new();
    let mut place = 0;
    loop {
        let read = read_reply(replies, place);
        answers.push(read);
        match read {
            Ok((_, next)) if next > place => place = next,
            _ => return answers,
        }
    }
}

/// One call of the lesson reader.
#[derive(PartialEq)]
struct LessonCall {
    place: usize,
    space: usize,
    progress: Progress,
    reply: [u8; SPACES],
    after: Controller,
}

/// Reply spaces are shorter than this.
const SPACES: usize = 13;

/// The lesson read at places up to past its end, with every reply space, from
/// a state with lines.
fn lesson_calls(lesson: &[u8]) -> Vec<LessonCall> {
    let before = woken();
    let mut calls = Vec::new();
    for place in (0..=lesson.len() + 1).chain([lesson.len() + 100]) {
        for space in 0..SPACES {
            let (mut after, mut reply) = (before.clone(), [0x55; SPACES]);
            let progress = lesson::step(&mut after, lesson, place, &mut reply[..space]);
            calls.push(LessonCall { place, space, progress, reply, after });
        }
    }
    calls
}

/// In Sleep with line 3.
fn woken() -> Controller {
    let mut controller = Controller::at_reset();
    controller.write(0x14, 0x0003_0000);
    controller.activity();
    controller
}

type Reader = fn(&mut Controller, &[u8], usize, &mut [u8]) -> Progress;

/// The replies of a whole lesson. Behind a refused opening that doesn't end it
/// the rest is read as a script.
fn lesson_replies(lesson: &[u8]) -> Vec<[u8; REPLY_LENGTH]> {
    let mut controller = Controller::at_reset();
    let mut reply = [0; REPLY_LENGTH];
    let (mut replies, mut place) = (Vec::new(), 0);
    let mut read: Reader = lesson::step;
    loop {
        let progress = read(&mut controller, lesson, place, &mut reply);
        if progress.at_end {
            return replies;
        }
        replies.push(reply);
        if lesson::ends_replay(progress.answer.code) {
            return replies;
        }
        if progress.answer.code == CODE_OPENING {
            read = step;
        }
        place = progress.place;
    }
}

/// Each line as a text of its own.
fn scripts_of_lines(lines: &[u8]) -> Vec<Script> {
    lines.split_inclusive(|&byte| byte == b'\n').map(script_of).collect()
}

/// Replays until the end, an unreadable record or a false from `take`.
fn replay(script: &[u8], mut take: impl FnMut(u64, &[u8; REPLY_LENGTH]) -> bool) -> u64 {
    let mut controller = Controller::at_reset();
    let mut reply = [0; REPLY_LENGTH];
    let (mut record, mut place) = (0, 0);
    loop {
        let progress = step(&mut controller, script, place, &mut reply);
        if progress.at_end || !take(record, &reply) {
            return record;
        }
        record += 1;
        if progress.answer.code >= CODE_SHORT {
            return record;
        }
        place = progress.place;
    }
}

/// Random calls, the wrong variant being the library.
struct CallsCase {
    seed: u64,
}

impl Case for CallsCase {
    fn difference(&self) -> Option<String> {
        let mut variant = Variant(current());
        switch_to(0);
        let difference = random_calls::compare(self.seed, RANDOM_CALLS, &mut variant).err()?;
        Some(format!("calls seed {}, {}", self.seed, difference.in_words()))
    }
}

/// A wrong variant, switched on for its own calls only.
struct Variant(u32);

impl Library for Variant {
    fn block_size(&mut self, board: u32) -> usize {
        switch_to(self.0);
        let size = calls::block_size(board);
        switch_to(0);
        size
    }

    fn call(&mut self, board: u32, block: &mut [u8], step: WideStep) -> u64 {
        switch_to(self.0);
        let answer = calls::call(board, block, step);
        switch_to(0);
        answer
    }
}

pub fn tell_apart(seeds: u64, records: u64) -> Result<u8, String> {
    switch_to(0);
    let mix: Vec<ScriptCase> = (1..=seeds).map(|seed| generated("mix", Kind::Mix, seed, records)).collect();
    let others = other_cases(seeds, records);
    let mut never = 0;
    for (index, (name, text)) in MISTAKES.iter().enumerate() {
        let number = index + 1;
        let by_mix: Vec<String> = mix.iter().filter_map(|case| difference(case, number)).collect();
        let told = by_mix.len();
        let first = by_mix.into_iter().next();
        match first.or_else(|| others.iter().find_map(|case| difference(&**case, number))) {
            Some(place) => println!("{number:3}  {name}: {place} ({told} of {seeds} mix scripts)"),
            None => {
                never += 1;
                println!("{number:3}  {name}: NEVER TOLD APART ({text})");
            }
        }
    }
    println!("{} variants, {never} never told apart", MISTAKES.len());
    Ok((never > 0) as u8)
}

fn difference(case: &dyn Case, number: usize) -> Option<String> {
    switch_to(number as u32);
    let difference = case.difference();
    switch_to(0);
    difference
}

fn generated(name: &str, kind: Kind, seed: u64, records: u64) -> ScriptCase {
    ScriptCase::new(format!("{name} seed {seed}"), generate(seed, records, kind))
}

/// The quick ones first.
fn other_cases(seeds: u64, records: u64) -> Vec<Box<dyn Case>> {
    let broken = |index| ScriptCase::new(format!("malformed seed 1 file {index}"), broken_script(1, index));
    let mut cases: Vec<Box<dyn Case>> = (0..MALFORMED).map(|index| Box::new(broken(index)) as Box<dyn Case>).collect();
    cases.push(writer_case());
    cases.extend((0..BROKEN_REPLIES).map(reply_case));
    cases.extend(openings().into_iter().enumerate().flat_map(|(index, lesson)| lesson_cases(index, lesson)));
    cases.extend(text_cases());
    cases.extend((1..=seeds).map(|seed| observer_case(seed, records)));
    cases.push(Box::new(CallsCase { seed: 1 }));
    cases.extend(special_cases(seeds, records));
    cases.extend(count_cases(seeds, records));
    cases
}

/// The other kinds, and many requests.
fn special_cases(seeds: u64, records: u64) -> Vec<Box<dyn Case>> {
    let mut cases = Vec::new();
    let left_out = |kind: Kind| matches!(kind, Kind::Mix | Kind::Requests | Kind::Search(_));
    for (name, kind) in KINDS.into_iter().filter(|&(_, kind)| !left_out(kind)) {
        cases.extend((1..=seeds).map(|seed| generated(name, kind, seed, records)));
    }
    cases.push(generated("requests", Kind::Requests, 1, REQUEST_RECORDS));
    cases.into_iter().map(|case| Box::new(case) as Box<dyn Case>).collect()
}

fn observer_case(seed: u64, records: u64) -> Box<dyn Case> {
    let numbered = |_, record: &u64| format!("record {record}");
    let script = generate(seed, records, Kind::Errors);
    Box::new(ListCase::new(format!("errors seed {seed} checked"), script, violations, numbered))
}

fn writer_case() -> Box<dyn Case> {
    let numbered = |place: usize, _: &_| format!("request {place}");
    Box::new(ListCase::new("encode-requests seed 1".into(), encode::requests(1, REQUESTS), records, numbered))
}

fn reply_case(index: u64) -> Box<dyn Case> {
    let numbered = |place: usize, _: &_| format!("reply {place}");
    let name = format!("broken-replies seed 1 file {index}");
    Box::new(ListCase::new(name, broken_replies(1, index), answers, numbered))
}

/// The single calls of a lesson, and its replay.
fn lesson_cases(index: usize, lesson: Vec<u8>) -> [Box<dyn Case>; 2] {
    let called = |_, call: &LessonCall| format!("place {}, space {}", call.place, call.space);
    let replied = |place: usize, _: &_| format!("record {place}");
    [
        Box::new(ListCase::new(format!("openings file {index}"), lesson.clone(), lesson_calls, called)),
        Box::new(ListCase::new(format!("openings file {index} replayed"), lesson, lesson_replies, replied)),
    ]
}

/// Texts to bytes, and bytes to texts.
fn text_cases() -> Vec<Box<dyn Case>> {
    let line = |place: usize, _: &_| format!("line {place}");
    let read = |name: String, text: Vec<u8>| {
        let whole = |_, _: &_| "whole".into();
        Box::new(ListCase::new(name, text, |text| vec![script_of(text)], whole)) as Box<dyn Case>
    };
    let write = |name: String, script: Vec<u8>| {
        let line = |place: usize, _: &_| format!("line {place}");
        Box::new(ListCase::new(name, script, text_writer::write, line)) as Box<dyn Case>
    };
    let bad = ListCase::new("bad-lines seed 1".into(), bad_lines(1, BAD_LINES), scripts_of_lines, line);
    let mut cases: Vec<Box<dyn Case>> = vec![Box::new(bad)];
    let edges = edge_texts().into_iter().enumerate();
    cases.extend(edges.map(|(index, text)| read(format!("edge-texts file {index}"), text)));
    cases.push(read("a repeat of 60,001 bytes".into(), repeat_of(60_001)));
    cases.push(read("lesson-lines seed 1".into(), lesson_lines(1, LESSON_LINES)));
    cases.push(write("any seed 1 as text".into(), generate(1, WORDED_RECORDS, Kind::Any)));
    cases.extend((0..16).map(|index| write(format!("malformed seed 1 file {index} as text"), broken_script(1, index))));
    cases
}

/// Filters of all kinds by every seed, the lessons by one.
fn count_cases(seeds: u64, records: u64) -> Vec<Box<dyn Case>> {
    let case = |name: &str, kind: Kind, seed: u64| {
        let numbered = |_, &(record, _): &(u64, usize)| format!("record {record}");
        let name = format!("{name} seed {seed} compared");
        Box::new(ListCase::new(name, generate(seed, records, kind), searches, numbered)) as Box<dyn Case>
    };
    let filters = (1..=seeds).map(|seed| case("filters", Kind::Filters, seed));
    let lessons = KINDS.into_iter().filter(|(_, kind)| matches!(kind, Kind::Search(_)));
    filters.chain(lessons.map(|(name, kind)| case(name, kind, 1))).collect()
}
