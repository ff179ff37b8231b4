//! What a call leaves, by the second program and by the library, and where the two differ.

use crate::capture::capture_of;
use crate::chance::Chance;
use crate::guarded::Guarded;
use crate::lines::{write_asked, write_left};
use crate::outcome::run_checked;
use crate::raw;
use crate::refusals::{judge_call, Call};
use crate::second_calls;
use crate::smaller_maps::question_of;

/// Every number and every byte that a call leaves.
#[derive(Clone, Debug, PartialEq, Eq)]
pub struct Left {
    pub numbers: raw::Outcome,
    pub log: Vec<u8>,
    pub paths: Vec<u8>,
    pub cut: Vec<u8>,
}

/// What the second program says. An error is one of its own checks that failed; M found by
/// flow, and for few radios by cuts, is among them.
fn expected(call: &Call) -> Result<Left, String> {
    let lengths = call.lengths;
    let question = match judge_call(call) {
        Ok(question) => question,
        Err(refusal) => {
            return Ok(Left {
                numbers: raw::Outcome {
                    refusal: refusal.number(),
                    place: refusal.place(),
                    paths: 0,
                    rounds: 0,
                    messages: 0,
                },
                log: vec![0; lengths.log],
                paths: vec![0; lengths.paths],
                cut: vec![0; lengths.cut],
            })
        }
    };
    let outcome = run_checked(&question)?;
    Ok(Left {
        numbers: raw::Outcome {
            refusal: 0,
            place: 0,
            paths: outcome.paths.len(),
            rounds: outcome.rounds,
            messages: outcome.messages(),
        },
        log: followed_by_zeros(outcome.log_bytes(), lengths.log),
        paths: followed_by_zeros(outcome.path_bytes(), lengths.paths),
        cut: followed_by_zeros(outcome.cut_bytes(), lengths.cut),
    })
}

/// Used bytes that do not fit would be a fault of the second program: they stay, and differ.
fn followed_by_zeros(mut used: Vec<u8>, length: usize) -> Vec<u8> {
    used.resize(length.max(used.len()), 0);
    used
}

const GUARD_BYTE: u8 = 0xC3;

#[derive(Clone, Copy, Debug)]
pub enum Fill {
    Same(u8),
    Random,
}

impl Fill {
    /// What the buffers hold before a call that comes as a line.
    pub const PLAIN: Fill = Fill::Same(0xAA);

    fn byte(self, chance: &mut Chance) -> u8 {
        match self {
            Fill::Same(byte) => byte,
            Fill::Random => chance.next() as u8,
        }
    }

    /// A buffer filled with what must not be there afterwards.
    fn buffer(self, length: usize, chance: &mut Chance) -> Guarded<u8> {
        let held: Vec<u8> = (0..length).map(|_| self.byte(chance)).collect();
        Guarded::new(&held, GUARD_BYTE, chance)
    }
}

/// What the library leaves. An error tells of bytes that it may not touch.
fn got(call: &Call, fill: Fill, chance: &mut Chance) -> Result<Left, String> {
    let lengths = call.lengths;
    let mut log = fill.buffer(lengths.log, chance);
    let mut paths = fill.buffer(lengths.paths, chance);
    let mut cut = fill.buffer(lengths.cut, chance);
    let table = call.table.clone();
    let asked = raw::Asked {
        radios: call.radios,
        table: &table,
        source: call.source,
        destination: call.destination,
        wanted: call.wanted,
    };
    let numbers = raw::fog_survey(&asked, log.lend(), paths.lend(), cut.lend());
    if table != call.table {
        return Err("the library changed the table".to_string());
    }
    Ok(Left {
        numbers,
        log: log.take("log")?,
        paths: paths.take("paths")?,
        cut: cut.take("cut")?,
    })
}

/// One call with the bytes that its buffers held before.
pub struct Trial {
    pub call: Call,
    pub fill: Fill,
}

pub enum Difference {
    /// The second program failed a check of its own.
    Second(String),
    /// The library touched what it may not.
    Touched(String),
    Left,
}

impl Difference {
    pub fn describe(self) -> String {
        match self {
            Difference::Second(fault) => {
                format!("the second program failed its own check: {fault}")
            }
            Difference::Touched(fault) => fault,
            Difference::Left => "the library differs from the second program".to_string(),
        }
    }
}

impl Trial {
    /// The fill's random bytes and the places in memory do not come from the trial's own chance,
    /// so that a trial made smaller is still the same trial.
    pub fn compare(&self) -> Result<Left, Difference> {
        let expected = expected(&self.call).map_err(Difference::Second)?;
        let got = self.library_leaves().map_err(Difference::Touched)?;
        if expected == got {
            return Ok(got);
        }
        Err(Difference::Left)
    }

    pub fn library_leaves(&self) -> Result<Left, String> {
        let mut chance = Chance {
            state: self.call.table.len() as u64,
        };
        got(&self.call, self.fill, &mut chance)
    }

    pub fn differs(&self) -> bool {
        self.compare().is_err()
    }

    /// In what the call differs, in words.
    pub fn what_differs(&self) -> String {
        match self.compare() {
            Ok(_) => "differed once and not again".to_string(),
            Err(difference) => difference.describe(),
        }
    }

    /// The map as a capture where it is one, the call as a line of calls.txt, and what each side
    /// makes of it.
    pub fn describe(&self) -> String {
        let capture = question_of(&self.call).map(|question| capture_of(1, &question));
        let asked = write_asked(&self.call);
        let expected = match second_calls::answer_line(&asked) {
            Ok(line) => line[asked.len()..].to_string(),
            Err(fault) => format!(" the second program failed its own check: {fault}"),
        };
        let got = match self.library_leaves() {
            Ok(left) => format!(" => {}", write_left(&left)),
            Err(fault) => format!(" {fault}"),
        };
        format!(
            "{}  buffers held before: {:?}\n  call: {asked}\n  expected:{expected}\n  got:     {got}",
            capture.unwrap_or_default(),
            self.fill
        )
    }
}
