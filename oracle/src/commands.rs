//! The subcommands.

use crate::bad_lines;
use crate::broken_replies;
use crate::comparisons::{self, Search};
use crate::controller::Controller;
use crate::encode::{self, REQUEST_LENGTH};
use crate::expects::{self, Unmet};
use crate::generate::{generate, Kind, KINDS};
use crate::lesson::{self, CODE_OPENING};
use crate::lesson_lines::lesson_lines;
use crate::lesson_text::{self, each, Fault, Part};
use crate::malformed;
use crate::openings;
use crate::probe::MISTAKES;
use crate::race;
use crate::replies::{self, read_reply};
use crate::requests::Requests;
use crate::script::{self, decode, Step, CODE_SHORT, REPLY_LENGTH};
use crate::shrink;
use crate::text_writer;
use crate::writer::RESET_RECORD;
use crate::USAGE;
use std::fs::File;
use std::io::{self, Read, Write};
use std::os::unix::io::AsFd;

const READ_TO_THE_END: u8 = 0;
const DEMAND_VIOLATED: u8 = 1;
const UNMET: u8 = 1;
const UNREADABLE: u8 = 2;
/// Scripts are read, and replies written, in pieces of about this size.
const PIECE: usize = 1 << 16;

type Status = Result<u8, String>;

pub fn run(words: &[&str]) -> Status {
    match words {
        ["replay", "--lesson", options @ ..] => {
            choose_variant(options)?;
            replay_lesson()
        }
        ["replay", options @ ..] => {
            choose_variant(options)?;
            replay(&[])
        }
        ["check", options @ ..] => {
            choose_variant(options)?;
            check()
        }
        ["compared", "--bound", options @ ..] => {
            choose_variant(options)?;
            list_searches(|search| search.bound)
        }
        ["compared", options @ ..] => {
            choose_variant(options)?;
            list_searches(|search| search.compared)
        }
        ["encode", options @ ..] => {
            choose_variant(options)?;
            write_records()
        }
        ["replies", options @ ..] => {
            choose_variant(options)?;
            list_replies()
        }
        ["write", options @ ..] => {
            choose_variant(options)?;
            write_script()
        }
        ["text", "--wrong", variant] => {
            choose_variant(&["--wrong", variant])?;
            write_text(&[])
        }
        ["text", files @ ..] => write_text(files),
        ["expects", options @ ..] => {
            choose_variant(options)?;
            check_expectations()
        }
        ["generate", seed, records] => write_generated(seed, records, "mix"),
        ["generate", seed, records, kind] => write_generated(seed, records, kind),
        ["malformed", seed, count, folder] => malformed::write_files(number(seed)?, number(count)?, folder),
        ["encode-requests", seed, count] => write_requests(seed, count),
        ["broken-replies", seed, count, folder] => broken_replies::write_files(number(seed)?, number(count)?, folder),
        ["openings", folder] => openings::write_files(folder),
        ["lesson-lines", seed, count] => write_bytes(&lesson_lines(number(seed)?, number(count)?)),
        ["bad-lines", seed, count] => write_bytes(&bad_lines::bad_lines(number(seed)?, number(count)?)),
        ["edge-texts", folder] => bad_lines::write_files(folder),
        ["shrink", a, b, file] => shrink::shrink(a, b, file),
        ["race", a, b, file, rounds] => race::race(a, b, file, number(rounds)?),
        ["words"] => print_words(),
        ["wrong-list"] => list_mistakes(),
        #[cfg(wrong)]
        ["tell-apart", seeds, records] => crate::tell_apart::tell_apart(number(seeds)?, number(records)?),
        #[cfg(coverage)]
        ["coverage", seeds, records] => crate::coverage::report(number(seeds)?, number(records)?, None),
        #[cfg(coverage)]
        ["coverage", seeds, records, kind] => {
            crate::coverage::report(number(seeds)?, number(records)?, Some(kind_named(kind)?))
        }
        #[cfg(linked)]
        ["calls", seed, count] => {
            crate::random_calls::report(number(seed)?, number(count)?, &mut crate::linked::Linked)
        }
        ["calls", ..] => Err("calls is in the binary built with --cfg linked and an archive".into()),
        ["tell-apart", ..] => Err("tell-apart is in the binary built with --cfg wrong".into()),
        ["coverage", ..] => Err("coverage is in the binary built with --cfg coverage".into()),
        _ => Err(USAGE.into()),
    }
}

fn number(word: &str) -> Result<u64, String> {
    word.parse().map_err(|_| format!("{word:?} is not a number"))
}

fn kind_named(name: &str) -> Result<Kind, String> {
    let names: Vec<&str> = KINDS.iter().map(|&(name, _)| name).collect();
    Kind::by_name(name).ok_or(format!("kinds are: {}", names.join(", ")))
}

fn choose_variant(options: &[&str]) -> Result<(), String> {
    match options {
        [] => Ok(()),
        #[cfg(wrong)]
        ["--wrong", variant] => {
            let variant = number(variant)?;
            if variant > MISTAKES.len() as u64 {
                return Err(format!("there are {} wrong variants", MISTAKES.len()));
            }
            crate::probe::switch_to(variant as u32);
            Ok(())
        }
        #[cfg(not(wrong))]
        ["--wrong", _] => Err("wrong variants are in the binary built with --cfg wrong".into()),
        _ => Err(USAGE.into()),
    }
}

fn standard_input() -> Result<Vec<u8>, String> {
    let mut bytes = Vec::new();
    io::stdin().lock().read_to_end(&mut bytes).map_err(|error| error.to_string())?;
    Ok(bytes)
}

/// Standard output, past the line buffer of `io::stdout`. A reader that goes
/// away early is no error.
struct Output(File);

impl Output {
    fn new() -> Result<Output, String> {
        let out = io::stdout().as_fd().try_clone_to_owned().map_err(|error| error.to_string())?;
        Ok(Output(File::from(out)))
    }

    fn write(&mut self, bytes: &[u8]) {
        if self.0.write_all(bytes).is_err() {
            std::process::exit(0);
        }
    }
}

/// Replays standard input a piece at a time, behind what was read of it before.
fn replay(start: &[u8]) -> Status {
    let mut input = io::stdin().lock();
    let mut output = Output::new()?;
    let mut controller = Controller::at_reset();
    let mut space = vec![0; PIECE];
    let mut replies = vec![0; PIECE];
    space[..start.len()].copy_from_slice(start);
    let (mut record, mut bytes, mut held, mut filled) = (0u64, 0, start.len(), 0);
    loop {
        let got = input.read(&mut space[held..]).map_err(|error| error.to_string())?;
        let script = &space[..held + got];
        let mut place = 0;
        loop {
            let progress = script::step(&mut controller, script, place, &mut replies[filled..]);
            if progress.at_end {
                break;
            }
            if progress.answer.code >= CODE_SHORT {
                // The rest of a record that is cut short may come with the next piece.
                if progress.answer.code == CODE_SHORT && got > 0 {
                    break;
                }
                output.write(&replies[..filled + REPLY_LENGTH]);
                say_unreadable(&script[place..], record, bytes + place);
                return Ok(UNREADABLE);
            }
            filled += REPLY_LENGTH;
            if replies.len() - filled < REPLY_LENGTH {
                output.write(&replies[..filled]);
                filled = 0;
            }
            record += 1;
            place = progress.place;
        }
        if got == 0 {
            output.write(&replies[..filled]);
            return Ok(READ_TO_THE_END);
        }
        held = script.len() - place;
        bytes += place;
        space.copy_within(place..place + held, 0);
    }
}

/// Asks the lesson reader about the opening; the replay itself begins with it again.
fn replay_lesson() -> Status {
    let mut opening = Vec::new();
    read_at_most(RESET_RECORD.len(), &mut io::stdin().lock(), &mut opening)?;
    let mut reply = [0; REPLY_LENGTH];
    let code = lesson::step(&mut Controller::at_reset(), &opening, 0, &mut reply).answer.code;
    if code == CODE_OPENING {
        Output::new()?.write(&reply);
        say_opening(&opening);
        if lesson::ends_replay(code) {
            return Ok(UNREADABLE);
        }
    }
    replay(&opening)
}

fn say_opening(opening: &[u8]) {
    let right = hex(&RESET_RECORD);
    let begins = if opening.is_empty() { "is empty".into() } else { format!("begins with {}", hex(opening)) };
    eprintln!("lesson: it does not open with {right}, it {begins} (code {CODE_OPENING})");
}

/// Up to `count` bytes; fewer only where the input ends.
fn read_at_most(count: usize, input: &mut impl Read, bytes: &mut Vec<u8>) -> Result<(), String> {
    bytes.clear();
    input.take(count as u64).read_to_end(bytes).map_err(|error| error.to_string())?;
    Ok(())
}

/// Answers the requests on standard input to write a record.
fn write_records() -> Status {
    let mut input = io::stdin().lock();
    let mut output = Output::new()?;
    let (mut request, mut answers) = (Vec::new(), Vec::new());
    for number in 0u64.. {
        read_at_most(REQUEST_LENGTH, &mut input, &mut request)?;
        if request.is_empty() {
            break;
        }
        match encode::answer(&request) {
            Ok(answer) => answers.extend_from_slice(&answer),
            Err(reason) => {
                output.write(&answers);
                eprintln!("encode: request {} at byte {}: {reason}", number + 1, number * REQUEST_LENGTH as u64);
                return Ok(UNREADABLE);
            }
        }
        if answers.len() >= PIECE {
            output.write(&answers);
            answers.clear();
        }
    }
    output.write(&answers);
    Ok(READ_TO_THE_END)
}

/// One line for each reply on standard input, with its number from 1.
fn list_replies() -> Status {
    let mut input = io::stdin().lock();
    let mut output = Output::new()?;
    let mut lines = replies::heading();
    let mut space = vec![0; PIECE];
    let (mut reply, mut bytes, mut held) = (0u64, 0, 0);
    loop {
        let got = input.read(&mut space[held..]).map_err(|error| error.to_string())?;
        let piece = &space[..held + got];
        let mut place = 0;
        while place < piece.len() {
            match read_reply(piece, place) {
                Ok((answer, next)) => {
                    reply += 1;
                    lines += &replies::line(reply, answer);
                    place = next;
                }
                // The rest of a reply that is cut short may come with the next piece.
                Err(unreadable) if unreadable.code() == CODE_SHORT && got > 0 => break,
                Err(unreadable) => {
                    output.write(lines.as_bytes());
                    let (number, code, reason) = (reply + 1, unreadable.code(), unreadable.in_words());
                    eprintln!("replies: reply {number} at byte {}: malformed {code}: {reason}", bytes + place);
                    return Ok(UNREADABLE);
                }
            }
        }
        output.write(lines.as_bytes());
        lines.clear();
        if got == 0 {
            return Ok(READ_TO_THE_END);
        }
        held = piece.len() - place;
        bytes += place;
        space.copy_within(place..place + held, 0);
    }
}

/// `record` is the number of records before this one.
fn say_unreadable(rest: &[u8], record: u64, byte: usize) {
    if let Err(unreadable) = decode(rest) {
        let (number, code, reason) = (record + 1, unreadable.code(), unreadable.in_words());
        eprintln!("record {number} at byte {byte}: {reason} (code {code})");
    }
}

fn check() -> Status {
    let script = standard_input()?;
    let mut output = Output::new()?;
    let mut replies = Vec::new();
    let mut controller = Controller::at_reset();
    let mut requests = Requests::default();
    let mut reply = [0; REPLY_LENGTH];
    let (mut record, mut place) = (0u64, 0);
    let status = loop {
        let progress = script::step(&mut controller, &script, place, &mut reply);
        if progress.at_end {
            break READ_TO_THE_END;
        }
        replies.extend_from_slice(&reply);
        if progress.answer.code >= CODE_SHORT {
            say_unreadable(&script[place..], record, place);
            break UNREADABLE;
        }
        let step = match decode(&script[place..]) {
            Ok((step, _)) => step,
            Err(_) => break UNREADABLE,
        };
        let kept = requests.feed(record, step, progress.answer).and_then(|()| requests.check_tme(controller.tsr()));
        if let Err(violation) = kept {
            eprintln!("record {} at byte {place} ({}): {violation}", record + 1, step.in_words());
            break DEMAND_VIOLATED;
        }
        record += 1;
        place = progress.place;
    };
    output.write(&replies);
    eprintln!("{record} records, {} requests accepted, {} ended", requests.accepted, requests.ended);
    Ok(status)
}

/// One line for each search, with its record's number from 1.
fn list_searches(count: impl Fn(Search) -> usize) -> Status {
    let script = standard_input()?;
    let mut lines = format!("{:>11}{:>11}\n", "record", "compared");
    let (mut searches, mut sum, mut most) = (0, 0, 0);
    let stop = comparisons::replay(&script, |search| {
        let compared = count(search);
        lines += &format!("{:>11}{:>11}\n", search.record + 1, compared);
        searches += 1;
        sum += compared;
        most = most.max(compared);
    });
    lines += &format!("{searches} searches, {sum} filters compared, {most} at most\n");
    Output::new()?.write(lines.as_bytes());
    match stop {
        Some((record, place)) => {
            say_unreadable(&script[place..], record, place);
            Ok(UNREADABLE)
        }
        None => Ok(READ_TO_THE_END),
    }
}

fn write_generated(seed: &str, records: &str, kind: &str) -> Status {
    let kind = kind_named(kind)?;
    Output::new()?.write(&generate(number(seed)?, number(records)?, kind));
    Ok(0)
}

fn write_requests(seed: &str, count: &str) -> Status {
    write_bytes(&encode::requests(number(seed)?, number(count)?))
}

fn write_bytes(bytes: &[u8]) -> Status {
    Output::new()?.write(bytes);
    Ok(0)
}

/// The parts of the lesson on standard input; a fault is told.
fn read_lesson(command: &str) -> Result<Option<Vec<Part>>, String> {
    match lesson_text::read(&standard_input()?) {
        Ok(parts) => Ok(Some(parts)),
        Err(Fault { line, column, message }) => {
            eprintln!("{command}: line {line}, column {column}: {message}");
            Ok(None)
        }
    }
}

/// The bytes of the lesson on standard input, none where it has a fault.
fn write_script() -> Status {
    let parts = match read_lesson("write")? {
        Some(parts) => parts,
        None => return Ok(UNREADABLE),
    };
    let mut output = Output::new()?;
    let mut script = Vec::new();
    each(&parts, &mut |part| {
        if let Part::Bytes(bytes) = part {
            script.extend_from_slice(bytes);
        }
        if script.len() >= PIECE {
            output.write(&script);
            script.clear();
        }
        true
    });
    output.write(&script);
    Ok(READ_TO_THE_END)
}

/// The text of each file, or of standard input.
fn write_text(files: &[&str]) -> Status {
    let mut scripts = Vec::new();
    for file in files {
        scripts.push(std::fs::read(file).map_err(|error| format!("{file}: {error}"))?);
    }
    if files.is_empty() {
        scripts.push(standard_input()?);
    }
    let mut lines = String::new();
    for line in scripts.iter().flat_map(|script| text_writer::write(script)) {
        lines += &line;
        lines.push('\n');
    }
    Output::new()?.write(lines.as_bytes());
    Ok(READ_TO_THE_END)
}

/// Each expectation that is not met is a line on standard error.
fn check_expectations() -> Status {
    let parts = match read_lesson("expects")? {
        Some(parts) => parts,
        None => return Ok(UNREADABLE),
    };
    match expects::check(&parts) {
        Ok(unmet) => {
            unmet.iter().for_each(|Unmet { line, message }| eprintln!("line {line}: {message}"));
            Ok(if unmet.is_empty() { READ_TO_THE_END } else { UNMET })
        }
        Err(message) => {
            eprintln!("expects: {message}");
            Ok(UNREADABLE)
        }
    }
}

fn print_words() -> Status {
    let script = standard_input()?;
    let mut lines = Vec::new();
    let mut place = 0;
    while place < script.len() {
        let line = match decode(&script[place..]) {
            Ok((step, length)) => {
                let bytes = &script[place..place + length];
                place += length;
                record_line(bytes, step)
            }
            Err(unreadable) => {
                place = script.len();
                format!("# {}", unreadable.in_words())
            }
        };
        lines.extend_from_slice(line.as_bytes());
        lines.push(b'\n');
    }
    Output::new()?.write(&lines);
    Ok(0)
}

/// A record as hex, with a comment in words.
pub fn record_line(bytes: &[u8], step: Step) -> String {
    format!("{:<48} # {}", hex(bytes), step.in_words())
}

pub fn hex(bytes: &[u8]) -> String {
    let words: Vec<String> = bytes.iter().map(|byte| format!("{byte:02X}")).collect();
    words.join(" ")
}

fn list_mistakes() -> Status {
    for (index, (name, text)) in MISTAKES.iter().enumerate() {
        println!("{:3}  {name}: {text}", index + 1);
    }
    Ok(0)
}
