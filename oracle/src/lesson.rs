//! The lesson reader: a script that must open with the record of a reset.

use crate::controller::{Answer, Controller};
use crate::here;
use crate::probe::{made, Mistake};
use crate::script::{self, Progress, CODE_NO_REPLY_SPACE, REPLY_LENGTH};
use crate::writer::RESET_RECORD;

pub const CODE_OPENING: u8 = 11;

/// Does the record at `place` as `script::step` does, where the lesson opens
/// with the record of a reset. Any other opening is refused at every place.
pub fn step(controller: &mut Controller, lesson: &[u8], place: usize, reply: &mut [u8]) -> Progress {
    match refusal(controller, lesson, place, reply) {
        Some(refused) => {
            if made(Mistake::RefusedOpeningResets) {
                controller.hardware_reset();
            }
            refused
        }
        None => {
            here!();
            script::step(controller, lesson, place, reply)
        }
    }
}

/// The answer to a lesson that opens otherwise, before the end rule and every
/// other code: 9 without reply space, else 11 with its reply. The place stays.
fn refusal(controller: &Controller, lesson: &[u8], place: usize, reply: &mut [u8]) -> Option<Progress> {
    if opens_with_reset(lesson, place) || passed_by_mistake(lesson, place, reply.len()) {
        return None;
    }
    let refused = |code| Progress { answer: Answer { code, lines: controller.lines(), word: 0 }, place, at_end: false };
    if reply.len() < REPLY_LENGTH {
        here!();
        let forgotten = made(Mistake::SpaceForgottenAtOpening);
        return Some(refused(if forgotten { CODE_OPENING } else { CODE_NO_REPLY_SPACE }));
    }
    here!();
    let mut progress = refused(CODE_OPENING);
    script::write_reply(&mut reply[..REPLY_LENGTH], progress.answer);
    if made(Mistake::PlaceBehindRefusedOpening) {
        progress.place += RESET_RECORD.len();
    }
    Some(progress)
}

fn opens_with_reset(lesson: &[u8], place: usize) -> bool {
    if made(Mistake::OpeningByFirstByte) {
        return lesson.starts_with(&RESET_RECORD[..1]);
    }
    if made(Mistake::OpeningByTwoBytes) {
        return lesson.starts_with(&RESET_RECORD[..2]);
    }
    if made(Mistake::OpeningComparedAtPlace) {
        return lesson.get(place..).unwrap_or_default().starts_with(&RESET_RECORD);
    }
    lesson.starts_with(&RESET_RECORD)
}

/// Another opening that a mistake lets pass to the script's rules.
fn passed_by_mistake(lesson: &[u8], place: usize, space: usize) -> bool {
    let at_end = place >= lesson.len();
    made(Mistake::EndBeforeOpening) && at_end
        || made(Mistake::EndBeforeSpaceAtOpening) && at_end && space < REPLY_LENGTH
        || made(Mistake::OpeningAtPlaceZeroOnly) && place > 0
        || made(Mistake::EmptyLessonIsTheEnd) && lesson.is_empty()
        || made(Mistake::ShortOpeningKeepsItsCode) && lesson.len() < RESET_RECORD.len()
        || made(Mistake::UnreadableOpeningKeepsItsCode) && !at_end && script::decode(lesson).is_err()
}

/// Does a replay of a lesson end at this code?
pub fn ends_replay(code: u8) -> bool {
    let goes_on = made(Mistake::ReplayGoesOnAfterRefusedOpening) && code == CODE_OPENING;
    code >= script::CODE_SHORT && !goes_on
}
