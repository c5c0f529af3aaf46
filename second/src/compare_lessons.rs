//! Gives lessons to two models and says where they first differ: every answer, every lent byte, the chip after a replay.

use crate::chip::BUFFER;
use crate::compare::{is_written, lend, shorten, Difference, Other, Second, GUARD};
use crate::flips::with_flip;
use crate::lesson::{self, LessonAnswer, ReplayAnswer};
use crate::runs::{file_of, Parts, Timed, Trial};
use crate::Chip;

/// A replay's answer without the record.
#[derive(Clone, Copy, Debug, PartialEq, Eq)]
pub struct Played {
    pub refusal: u8,
    pub pin: u8,
    pub found: usize,
    pub count: usize,
}

/// A model of lessons.
pub trait OtherLessons: Other {
    fn check_lesson(&self, file: &[u8]) -> LessonAnswer;
    fn write_lesson(&self, parts: &Parts, file: &mut [u8]) -> LessonAnswer;
    fn replay(&self, file: &[u8], output: &mut [u8]) -> (Self::Chip, Played);
    fn elapsed(&self, from: u32, to: u32) -> u32;
}

impl OtherLessons for Second {
    fn check_lesson(&self, file: &[u8]) -> LessonAnswer {
        with_flip(self.flip, || lesson::check(file))
    }

    fn write_lesson(&self, parts: &Parts, file: &mut [u8]) -> LessonAnswer {
        let Parts { kinds, ticks, lengths, bodies } = parts;
        with_flip(self.flip, || lesson::write(kinds, ticks, lengths, bodies, file))
    }

    fn replay(&self, file: &[u8], output: &mut [u8]) -> (Chip, Played) {
        let ReplayAnswer { chip, refusal, pin, found, count } = with_flip(self.flip, || lesson::replay(file, output));
        (chip, Played { refusal, pin, found, count })
    }

    fn elapsed(&self, from: u32, to: u32) -> u32 {
        with_flip(self.flip, || lesson::elapsed(from, to))
    }
}

/// What a model makes of a file or of parts with this room: the answer, the chip as it is observed (none where there is none), the
/// lent bytes with `GUARD` more behind them.
#[derive(PartialEq, Eq)]
struct Seen {
    answer: Played,
    chip: Vec<u8>,
    lent: Vec<u8>,
}

impl Seen {
    /// What breaks a rule for every call: bytes beyond the count, a refused replay's record that is not power-on's.
    fn fault<M: Other>(&self, model: &M) -> Option<&'static str> {
        let Played { refusal, count, .. } = self.answer;
        if is_written(&self.lent, count) {
            Some("bytes are written beyond the count")
        } else if refusal != 0 && count != 0 {
            Some("a refused call counts bytes")
        } else if refusal != 0 && !self.chip.is_empty() && self.chip != model.observe(&model.power_on()) {
            Some("a refused replay does not hand back the power-on record")
        } else {
            None
        }
    }
}

fn played<M: OtherLessons>(model: &M, file: &[u8], room: usize) -> Seen {
    let mut lent = Vec::new();
    lend(&mut lent, room + GUARD);
    let (chip, answer) = model.replay(file, &mut lent[..room]);
    Seen { answer, chip: model.observe(&chip), lent }
}

fn written<M: OtherLessons>(model: &M, parts: &Parts, room: usize) -> Seen {
    let mut lent = Vec::new();
    lend(&mut lent, room + GUARD);
    let LessonAnswer { refusal, found, count } = model.write_lesson(parts, &mut lent[..room]);
    Seen { answer: Played { refusal, pin: 0, found, count }, chip: Vec::new(), lent }
}

/// In what two models differ, if they do.
fn differ<L: Other, R: Other>(left: (&L, &Seen), right: (&R, &Seen), room: usize) -> Option<String> {
    let ((one, l), (other, r)) = (left, right);
    let what = if l.answer != r.answer {
        format!("the answers: {:?} against {:?}", l.answer, r.answer)
    } else if let Some(fault) = l.fault(one).or(r.fault(other)) {
        fault.to_string()
    } else if l.lent != r.lent {
        format!("byte {:?} of the output", l.lent.iter().zip(&r.lent).position(|(l, r)| l != r))
    } else if l.chip != r.chip {
        "the record".to_string()
    } else {
        return None;
    };
    Some(format!("{what}, with room for {room} bytes"))
}

/// Room to spare, then just enough, a byte too little and none.
fn with_each_room(spare: usize, differ: impl Fn(usize) -> (Option<String>, usize)) -> Option<String> {
    let (difference, count) = differ(spare);
    let rooms = [Some(count), count.checked_sub(1), Some(0)];
    difference.or_else(|| rooms.into_iter().flatten().find_map(|room| differ(room).0))
}

fn compare_file<L: OtherLessons, R: OtherLessons>(left: &L, right: &R, file: &[u8]) -> Option<String> {
    let (l, r) = (left.check_lesson(file), right.check_lesson(file));
    if l != r {
        return Some(format!("what checking answers: {l:?} against {r:?}"));
    }
    let n = file.get(1).map_or(0, |n| usize::from(*n));
    with_each_room(file.len() + BUFFER * n + 7, |room| {
        let (l, r) = (played(left, file, room), played(right, file, room));
        (differ((left, &l), (right, &r), room), l.answer.count)
    })
}

fn compare_parts<L: OtherLessons, R: OtherLessons>(left: &L, right: &R, parts: &Parts) -> Option<String> {
    let spare = 2 + 11 * parts.kinds.len() + parts.bodies.len() + 7;
    with_each_room(spare, |room| {
        let (l, r) = (written(left, parts, room), written(right, parts, room));
        (differ((left, &l), (right, &r), room), l.answer.count)
    })
}

/// In what two models differ on a trial.
pub fn compare_trial<L: OtherLessons, R: OtherLessons>(left: &L, right: &R, trial: &Trial) -> Option<String> {
    match trial {
        Trial::File(file) => compare_file(left, right, file),
        Trial::Parts(parts) => compare_parts(left, right, parts),
        Trial::Ticks(from, to) => {
            let (l, r) = (left.elapsed(*from, *to), right.elapsed(*from, *to));
            (l != r).then(|| format!("the ticks: {l} against {r}"))
        }
    }
}

/// A trial that still differs, and in what: a lesson's file with the entries that are needed, else the trial itself.
pub fn shortest_trial<L: OtherLessons, R: OtherLessons>(left: &L, right: &R, trial: &Trial) -> Option<(Trial, String)> {
    let whole = (trial.clone(), compare_trial(left, right, trial)?);
    let Trial::File(file) = trial else { return Some(whole) };
    let Ok(entries) = lesson::read(file) else { return Some(whole) };
    let entries: Vec<Timed> = entries.map(Timed::from).collect();
    let differ = |list: &[Timed]| {
        compare_file(left, right, &file_of(list)).map(|what| Difference { at: list.len().saturating_sub(1), what })
    };
    let (short, difference) = shorten(&entries, differ)?;
    Some((Trial::File(file_of(&short)), difference.what))
}
