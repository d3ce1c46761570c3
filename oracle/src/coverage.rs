//! What the generated scripts, requests, replies, lessons and texts reach: the
//! branches marked `here!()`, and the meetings of a step with the state it
//! finds, seen from outside.

use crate::bad_lines::{bad_lines, edge_texts, repeat_of};
use crate::broken_replies::broken_replies;
use crate::controller::{Answer, Controller, Mode};
use crate::encode::{self, REQUEST_LENGTH};
use crate::generate::{generate, Kind, KINDS};
use crate::lesson;
use crate::lesson_lines::lesson_lines;
use crate::lesson_text;
use crate::malformed::broken_script;
use crate::openings::openings;
use crate::random_calls::{self, Itself};
use crate::registers::{esr, ier, mcr, msr, tsr, Register, FIFOS};
use crate::replies::read_reply;
use crate::script::{decode, step, Step, CODE_SHORT, REPLY_LENGTH};
use crate::text_writer;
use std::collections::BTreeMap;
use std::sync::atomic::{AtomicU64, Ordering::Relaxed};

/// The sources that carry marks.
const SOURCES: [(&str, &str); 16] = [
    ("controller.rs", include_str!("controller.rs")),
    ("mailbox.rs", include_str!("mailbox.rs")),
    ("fifo.rs", include_str!("fifo.rs")),
    ("filter.rs", include_str!("filter.rs")),
    ("registers.rs", include_str!("registers.rs")),
    ("script.rs", include_str!("script.rs")),
    ("writer.rs", include_str!("writer.rs")),
    ("replies.rs", include_str!("replies.rs")),
    ("lesson.rs", include_str!("lesson.rs")),
    ("words.rs", include_str!("words.rs")),
    ("can_frame.rs", include_str!("can_frame.rs")),
    ("text_reader.rs", include_str!("text_reader.rs")),
    ("lesson_text.rs", include_str!("lesson_text.rs")),
    ("text_writer.rs", include_str!("text_writer.rs")),
    ("block.rs", include_str!("block.rs")),
    ("calls.rs", include_str!("calls.rs")),
];

const MOST_LINES: usize = 2048;
#[allow(clippy::declare_interior_mutable_const)]
const NO_PASS: AtomicU64 = AtomicU64::new(0);
#[allow(clippy::declare_interior_mutable_const)]
const NO_PASSES: [AtomicU64; MOST_LINES] = [NO_PASS; MOST_LINES];
static PASSES: [[AtomicU64; MOST_LINES]; SOURCES.len()] = [NO_PASSES; SOURCES.len()];

/// Called by `here!()`.
pub fn pass(file: &str, line: u32) {
    let index = SOURCES.iter().position(|&(name, _)| file.rsplit('/').next() == Some(name));
    PASSES[index.expect("a source with marks is listed")][line as usize].fetch_add(1, Relaxed);
}

/// Runs scripts of all kinds, or of one, and some broken ones; then what the
/// writer and the readers are given.
pub fn report(seeds: u64, records: u64, only: Option<Kind>) -> Result<u8, String> {
    let mut meetings = Meetings::expected();
    let left_out = |kind: Kind| matches!(kind, Kind::Requests | Kind::Search(_));
    let chosen = |kind: Kind| only.map_or(!left_out(kind), |only| only == kind);
    for (_, kind) in KINDS.into_iter().filter(|&(_, kind)| chosen(kind)) {
        for seed in 1..=seeds {
            run(&generate(seed, records, kind), &mut meetings);
        }
    }
    (0..400).for_each(|index| run(&broken_script(1, index), &mut meetings));
    encode::requests(1, 0).chunks(REQUEST_LENGTH).for_each(|request| meetings.note_request(request));
    (0..400).for_each(|index| meetings.note_replies(&broken_replies(1, index)));
    openings().iter().for_each(|lesson| meetings.note_lesson(lesson));
    run_texts();
    let unmet = run_calls();
    let branches = report_branches();
    let missing = meetings.report();
    Ok((branches + missing + unmet > 0) as u8)
}

/// Replays a script, noting what each step meets. Every seventh call has too
/// little reply space first, as a caller of the library might.
fn run(script: &[u8], meetings: &mut Meetings) {
    let mut controller = Controller::at_reset();
    let mut reply = [0; REPLY_LENGTH];
    let (mut record, mut place) = (0, 0);
    loop {
        if record % 7 == 0 {
            step(&mut controller, script, place, &mut reply[..REPLY_LENGTH - 1]);
        }
        let before = controller.clone();
        let progress = step(&mut controller, script, place, &mut reply);
        if progress.at_end {
            return;
        }
        if progress.answer.code >= CODE_SHORT {
            return meetings.note(format!("script: unreadable, code {}", progress.answer.code));
        }
        if let Ok((step, _)) = decode(&script[place..]) {
            meetings.note_step(step, &before, &controller, progress.answer);
        }
        record += 1;
        place = progress.place;
    }
}

/// Reads texts and bad lines, and writes texts.
fn run_texts() {
    let mut texts = edge_texts();
    texts.extend([lesson_lines(1, 3000), repeat_of(60_001)]);
    let lines = bad_lines(1, 1000);
    texts.extend(lines.split_inclusive(|&byte| byte == b'\n').map(Vec::from));
    texts.iter().for_each(|text| _ = lesson_text::read(text));
    text_writer::write(&generate(1, 3000, Kind::Any));
    (0..400).for_each(|index| _ = text_writer::write(&broken_script(1, index)));
}

/// Random calls; gives how much of what they must meet they don't.
fn run_calls() -> usize {
    let missing = match random_calls::compare(1, 20_000, &mut Itself) {
        Ok(tally) => tally.missing(),
        Err(difference) => vec![format!("the same answer to {}", difference.in_words())],
    };
    missing.iter().for_each(|text| println!("never met by calls: {text}"));
    missing.len()
}

fn report_branches() -> usize {
    let (mut marks, mut missed) = (0, 0);
    for (index, (name, text)) in SOURCES.iter().enumerate() {
        let lines: Vec<&str> = text.lines().collect();
        for (at, line) in lines.iter().enumerate().filter(|(_, line)| line.trim() == "here!();") {
            marks += 1;
            if PASSES[index][at + 1].load(Relaxed) == 0 {
                missed += 1;
                println!("never reached: {name}:{}: {} {}", at + 1, lines[at - 1].trim(), line.trim());
            }
        }
    }
    println!("branches: {marks} marked, {missed} never reached");
    missed
}

/// Counters by a description in words.
struct Meetings(BTreeMap<String, u64>);

const MODES: [Mode; 3] = [Mode::Normal, Mode::Initialization, Mode::Sleep];

impl Meetings {
    /// All that is expected to be met, still at 0.
    fn expected() -> Meetings {
        let mut meetings = Meetings(BTreeMap::new());
        let mut expect = |text: String| _ = meetings.0.insert(text, 0);
        for code in 6..=8 {
            expect(format!("script: unreadable, code {code}"));
        }
        expect_registers(&mut expect);
        for reason in ["mode", "bus-off", "wire", "loopback", "FINIT"] {
            expect(format!("frame refused only by {reason}"));
            expect(format!("receive error refused only by {reason}"));
        }
        for reason in ["mode", "bus-off", "wire", "silent", "nothing pending"] {
            expect(format!("start refused only by {reason}"));
        }
        for reason in ["bit 0", "extended bits", "length"] {
            expect(format!("frame out of range only by {reason}"));
        }
        for reason in ["code", "step"] {
            expect(format!("receive error out of range only by {reason}"));
        }
        for mode in MODES {
            for requests in 0..4 {
                expect(format!("idle in {mode:?} with requests {requests:02b}"));
            }
        }
        expect_impossible(&mut meetings.0);
        expect_modes(&mut meetings);
        expect_fifos(&mut meetings);
        expect_own_ends(&mut meetings);
        expect_writer(&mut meetings);
        expect_readers(&mut meetings);
        meetings
    }

    fn note(&mut self, text: String) {
        *self.0.entry(text).or_insert(0) += 1;
    }

    fn report(&self) -> usize {
        let missing: Vec<&String> = self.0.iter().filter(|(_, &count)| count == 0).map(|(text, _)| text).collect();
        missing.iter().for_each(|text| println!("never met: {text}"));
        println!("meetings: {} expected or seen, {} never met", self.0.len(), missing.len());
        missing.len()
    }

    fn note_step(&mut self, step: Step, before: &Controller, after: &Controller, answer: Answer) {
        self.note_mode(step, before, after);
        match step {
            Step::Read(offset) => self.note_access("read", offset, answer.code),
            Step::Write(offset, _) => self.note_access("write", offset, answer.code),
            Step::Idle => {
                let requests = before.mcr() & (mcr::INRQ | mcr::SLEEP);
                self.note(format!("idle in {:?} with requests {requests:02b}", before.mode()));
            }
            Step::Frame(_) | Step::ReceiveError { .. } => self.note_reception(step, before, after, answer.code),
            Step::Start if answer.code == 4 => {
                let silent = before.is_silent() && !before.is_loopback();
                let pending = before.transmitter().first(true).is_some();
                let reasons = [
                    ("mode", before.mode() != Mode::Normal),
                    ("bus-off", before.is_bus_off()),
                    ("wire", before.on_wire()),
                    ("silent", silent),
                    ("nothing pending", !pending),
                ];
                self.note_only("start refused", &reasons);
            }
            Step::OwnEnd(result) => self.note_own_end(result, before, after, answer.code),
            _ => {}
        }
    }

    fn note_mode(&mut self, step: Step, before: &Controller, after: &Controller) {
        if before.mode() != after.mode() {
            let word = step.in_words();
            let by = word.split([' ', ',']).next().unwrap_or_default();
            self.note(format!("{:?} to {:?} by {by}", before.mode(), after.mode()));
        }
        let name = |controller: &Controller| controller.clone().read(0x04).word >> 2 & 7;
        let (flags, later) = (name(before), name(after));
        for (bit, flag) in ["ERRI", "WKUI", "SLAKI"].iter().enumerate() {
            match (flags >> bit & 1, later >> bit & 1) {
                (0, 1) => self.note(format!("{flag} rises")),
                (1, 0) => self.note(format!("{flag} falls")),
                _ => {}
            }
        }
    }

    fn note_access(&mut self, access: &str, offset: u16, code: u8) {
        match Register::at(offset) {
            Some(register) => self.note(format!("{access} {}, code {code}", register.name())),
            None if offset % 4 != 0 => self.note(format!("{access} unaligned, code {code}")),
            None => self.note(format!("{access} outside the map, code {code}")),
        }
    }

    fn note_reception(&mut self, step: Step, before: &Controller, after: &Controller, code: u8) {
        let name = if matches!(step, Step::Frame(_)) { "frame" } else { "receive error" };
        match (step, code) {
            (_, 4) => {
                let reasons = [
                    ("mode", before.mode() != Mode::Normal),
                    ("bus-off", before.is_bus_off()),
                    ("wire", before.on_wire()),
                    ("loopback", before.is_loopback()),
                    ("FINIT", before.filters().initializing),
                ];
                self.note_only(&format!("{name} refused"), &reasons);
            }
            (Step::Frame(frame), 5) => {
                let stray = frame.identifier & 4 == 0 && frame.identifier & 0x001F_FFF8 != 0;
                let reasons =
                    [("bit 0", frame.identifier & 1 != 0), ("extended bits", stray), ("length", frame.length > 15)];
                self.note_only("frame out of range", &reasons);
            }
            (Step::ReceiveError { code, step }, 5) => {
                let reasons = [("code", !(1..=6).contains(&code)), ("step", step != 1 && step != 8)];
                self.note_only("receive error out of range", &reasons);
            }
            (Step::Frame(_), _) => self.note_storing("frame", before, after),
            _ => {}
        }
    }

    /// Into which FIFO, onto how many, locked or not.
    fn note_storing(&mut self, from: &str, before: &Controller, after: &Controller) {
        let locked = before.mcr() & mcr::RFLM != 0;
        for x in 0..FIFOS {
            if before.fifo(x) != after.fifo(x) {
                let pending = before.fifo(x).pending();
                let lock = if pending < 3 {
                    ""
                } else if locked {
                    ", locked"
                } else {
                    ", unlocked"
                };
                self.note(format!("{from} stored in FIFO {x} holding {pending}{lock}"));
            }
        }
    }

    fn note_own_end(&mut self, result: u8, before: &Controller, after: &Controller, code: u8) {
        if result == 3 && code == 0 {
            self.note(format!("own end 3, EPVF {}", before.is_error_passive()));
        }
        if result == 8 {
            self.note_alone(before, code);
        }
        let x = match (before.transmitter().on_wire(), code) {
            (Some(x), 0) => x,
            _ => {
                let place = if before.is_loopback() { "loopback" } else { "no loopback" };
                let wire = if before.on_wire() { "on the wire" } else { "none on the wire" };
                return self.note(format!("own end {} refused by {code}, {wire}, {place}", result.min(9)));
            }
        };
        let ended = after.transmitter().mailbox(x).is_empty();
        let nart = before.mcr() & mcr::NART != 0;
        let aborted = before.clone().read(0x08).word >> (8 * x + 7) & 1 != 0;
        self.note(format!("own end {result}, NART {nart}, abort {aborted}: ended {ended}"));
        if before.is_loopback() && result == 0 {
            self.note_storing("loopback", before, after);
            self.note(format!("loopback end, FINIT {}", before.filters().initializing));
        }
    }

    /// Own end 8: by which counter it is accepted, or why it is refused.
    fn note_alone(&mut self, before: &Controller, code: u8) {
        if code == 0 {
            let by = match (before.tec() > 127, before.rec() > 127) {
                (true, true) => "both",
                (true, false) => "TEC alone",
                _ => "REC alone",
            };
            self.note(format!("own end 8 accepted by {by}"));
            self.note_accepted_alone(before);
        } else {
            let loopback = if before.is_silent() { "silent loopback" } else { "loopback" };
            let reasons = [
                ("EPVF", !before.is_error_passive()),
                (loopback, before.is_loopback()),
                ("none on the wire", !before.on_wire()),
            ];
            self.note_only("own end 8 refused", &reasons);
        }
        let counters = [before.tec(), before.rec()];
        let near = NEAR_PASSIVE.iter().any(|&(near, _)| near == counters);
        if near && before.on_wire() && !before.is_loopback() {
            self.note(format!("own end 8 with TEC {}, REC {}, code {code}", before.tec(), before.rec()));
        }
    }

    fn note_accepted_alone(&mut self, before: &Controller) {
        let word = |offset: u16| before.clone().read(offset).word;
        let lecie = word(0x14) & ier::LECIE != 0;
        let erri = word(0x04) & msr::ERRI != 0;
        self.note(format!("own end 8, LECIE {lecie}, ERRI {erri} before"));
        self.note(format!("own end 8, LEC {} before", word(0x18) >> esr::LEC_PLACE & 7));
        let others = before.transmitter().pending_count();
        self.note(format!("own end 8, {others} more pending, TXFP {}", before.mcr() & mcr::TXFP != 0));
        self.note(format!("own end 8 with requests {:02b}", before.mcr() & (mcr::INRQ | mcr::SLEEP)));
        if let Some(x) = before.transmitter().on_wire() {
            let flags = word(0x08) >> (8 * x) & (tsr::ALST | tsr::TERR);
            let earlier = match flags {
                0 => "none",
                tsr::ALST => "lost",
                _ => "an error",
            };
            self.note(format!("own end 8, the try before: {earlier}"));
        }
    }

    fn note_request(&mut self, request: &[u8]) {
        if let Ok(answer) = encode::answer(request) {
            self.note(format!("record of tag {:02X} written, code {}", request[4], answer[0]));
        }
    }

    fn note_replies(&mut self, replies: &[u8]) {
        let mut place = 0;
        while let Ok((_, next)) = read_reply(replies, place) {
            self.note("reply read".into());
            place = next;
        }
        if let Err(unreadable) = read_reply(replies, place) {
            let what = if place == replies.len() { "no reply" } else { "reply" };
            self.note(format!("{what}: unreadable, code {}", unreadable.code()));
        }
    }

    /// Reads a lesson at every place, without and with reply space.
    fn note_lesson(&mut self, lesson: &[u8]) {
        for place in 0..=lesson.len() + 1 {
            for space in [0, REPLY_LENGTH - 1, REPLY_LENGTH] {
                let mut reply = [0; REPLY_LENGTH];
                let progress = lesson::step(&mut Controller::at_reset(), lesson, place, &mut reply[..space]);
                let at = match place {
                    0 => "at its start",
                    place if place < lesson.len() => "inside",
                    place if place == lesson.len() => "at its end",
                    _ => "past its end",
                };
                self.note(format!("lesson read {at}, code {}", progress.answer.code));
            }
        }
    }

    /// Notes the reason if there is just one.
    fn note_only(&mut self, what: &str, reasons: &[(&str, bool)]) {
        let mut given = reasons.iter().filter(|(_, given)| *given);
        if let (Some((reason, _)), None) = (given.next(), given.next()) {
            self.note(format!("{what} only by {reason}"));
        }
    }
}

/// Every register read, written, and refused where it can be.
fn expect_registers(expect: &mut impl FnMut(String)) {
    for offset in (0..0x400).step_by(4) {
        let register = match Register::at(offset) {
            Some(register) => register,
            None => continue,
        };
        let name = register.name();
        expect(format!("read {name}, code 0"));
        match register {
            Register::FifoOutput(..) => expect(format!("write {name}, code 3")),
            Register::Btr
            | Register::Mailbox(..)
            | Register::Fm1r
            | Register::Fs1r
            | Register::Ffa1r
            | Register::Bank(..) => {
                expect(format!("write {name}, code 0"));
                expect(format!("write {name}, code 2"));
            }
            _ => expect(format!("write {name}, code 0")),
        }
    }
    for access in ["read", "write"] {
        expect(format!("{access} unaligned, code 1"));
        expect(format!("{access} outside the map, code 1"));
    }
}

/// What no script can make: outside Normal a lone mode request is followed in
/// the very step that makes it, so no later idle finds SLEEP alone in
/// Initialization, or INRQ alone in Sleep. (In Normal a frame on the wire
/// delays it, and the idle that finds it so is refused.)
fn expect_impossible(expected: &mut BTreeMap<String, u64>) {
    expected.remove("idle in Initialization with requests 10");
    expected.remove("idle in Sleep with requests 01");
}

fn expect_modes(meetings: &mut Meetings) {
    let lines = [
        "Normal to Initialization by write",
        "Normal to Initialization by own",
        "Normal to Sleep by write",
        "Normal to Sleep by own",
        "Normal to Sleep by hardware",
        "Initialization to Sleep by write",
        "Initialization to Sleep by hardware",
        "Initialization to Normal by idle",
        "Sleep to Normal by idle",
        "Sleep to Initialization by write",
        "Sleep to Initialization by activity",
        "ERRI rises",
        "ERRI falls",
        "WKUI rises",
        "WKUI falls",
        "SLAKI rises",
        "SLAKI falls",
    ];
    meetings.0.extend(lines.map(|line| (line.to_string(), 0)));
}

fn expect_fifos(meetings: &mut Meetings) {
    for x in 0..FIFOS {
        for from in ["frame", "loopback"] {
            for holding in ["0", "1", "2", "3, locked", "3, unlocked"] {
                meetings.0.insert(format!("{from} stored in FIFO {x} holding {holding}"), 0);
            }
        }
    }
    for finit in [false, true] {
        meetings.0.insert(format!("loopback end, FINIT {finit}"), 0);
    }
}

fn expect_own_ends(meetings: &mut Meetings) {
    for result in 0..=8 {
        for nart in [false, true] {
            for aborted in [false, true] {
                let ended = result == 0 || nart || aborted;
                meetings.0.insert(format!("own end {result}, NART {nart}, abort {aborted}: ended {ended}"), 0);
            }
        }
        for place in ["loopback", "no loopback"] {
            meetings.0.insert(format!("own end {result} refused by 4, none on the wire, {place}"), 0);
        }
    }
    for place in ["loopback", "no loopback"] {
        meetings.0.insert(format!("own end 8 refused by 4, on the wire, {place}"), 0);
        for wire in ["on the wire", "none on the wire"] {
            meetings.0.insert(format!("own end 9 refused by 5, {wire}, {place}"), 0);
        }
    }
    meetings.0.insert("own end 3 refused by 4, on the wire, loopback".into(), 0);
    expect_alone(&mut |text| _ = meetings.0.insert(text, 0));
}

/// TEC and REC around 128 with a frame on the wire, and the code of own end 8.
const NEAR_PASSIVE: [([u16; 2], u8); 9] = [
    ([128, 0], 0),
    ([127, 0], 4),
    ([120, 0], 4),
    ([129, 0], 0),
    ([255, 0], 0),
    ([0, 128], 0),
    ([127, 128], 0),
    ([128, 127], 0),
    ([127, 127], 4),
];

fn expect_alone(expect: &mut impl FnMut(String)) {
    for by in ["TEC alone", "REC alone", "both"] {
        expect(format!("own end 8 accepted by {by}"));
    }
    for reason in ["EPVF", "loopback", "silent loopback", "none on the wire"] {
        expect(format!("own end 8 refused only by {reason}"));
    }
    for ([tec, rec], code) in NEAR_PASSIVE {
        expect(format!("own end 8 with TEC {tec}, REC {rec}, code {code}"));
    }
    for set in [false, true] {
        expect(format!("own end 3, EPVF {set}"));
        [false, true].iter().for_each(|erri| expect(format!("own end 8, LECIE {set}, ERRI {erri} before")));
        (0..=2).for_each(|others| expect(format!("own end 8, {others} more pending, TXFP {set}")));
    }
    (0..=7).for_each(|lec| expect(format!("own end 8, LEC {lec} before")));
    (0..=3).for_each(|requests| expect(format!("own end 8 with requests {requests:02b}")));
    ["none", "lost", "an error"].iter().for_each(|earlier| expect(format!("own end 8, the try before: {earlier}")));
}

/// Every record written and without space, and too wide where it has a narrow field.
fn expect_writer(meetings: &mut Meetings) {
    for tag in 0x01..=0x0A {
        let codes: &[u8] = if [0x02, 0x03, 0x05, 0x08, 0x09, 0x0A].contains(&tag) { &[0, 5, 9] } else { &[0, 9] };
        for code in codes {
            meetings.0.insert(format!("record of tag {tag:02X} written, code {code}"), 0);
        }
    }
}

fn expect_readers(meetings: &mut Meetings) {
    let mut expect = |text: String| _ = meetings.0.insert(text, 0);
    expect("reply read".into());
    expect("no reply: unreadable, code 6".into());
    (6..=8).for_each(|code| expect(format!("reply: unreadable, code {code}")));
    for at in ["at its start", "inside", "at its end", "past its end"] {
        [0, 9, 11].iter().for_each(|code| expect(format!("lesson read {at}, code {code}")));
    }
    (6..=8).for_each(|code| expect(format!("lesson read inside, code {code}")));
}
