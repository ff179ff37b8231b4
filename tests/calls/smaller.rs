//! Makes a call that differs smaller, so that a person can follow it by hand.

use std::time::{Duration, Instant};

use crate::both_sides::{Fill, Trial};
use crate::refusals::{judge_call, lengths_needed, Call, Lengths, Refusal};
use crate::smaller_maps::{copy_of, lower_numbers, question_of, smaller_questions};

/// Making a call that differs smaller helps the reader, but must not keep him waiting.
const LONGEST_SHRINKING: Duration = Duration::from_secs(5);

/// Tries smaller calls as long as one of them still differs. All are accepted, or refused by the
/// same number: another refusal would be another fault.
pub fn shrink(trial: Trial) -> Trial {
    let started = Instant::now();
    let refusal = refusal_number(&trial.call);
    let mut smallest = with_plain_fill(trial);
    loop {
        let fill = smallest.fill;
        let smaller = smaller_calls(&smallest.call)
            .take_while(|_| started.elapsed() < LONGEST_SHRINKING)
            .filter(|call| refusal_number(call) == refusal)
            .map(|call| Trial { call, fill })
            .find(Trial::differs);
        match smaller {
            Some(trial) => smallest = trial,
            None => return smallest,
        }
    }
}

/// Nothing where it is accepted.
pub fn refusal_number(call: &Call) -> Option<usize> {
    judge_call(call).err().map(Refusal::number)
}

/// A call line says nothing of the bytes before, so a call made from one should differ as well.
fn with_plain_fill(trial: Trial) -> Trial {
    let plain = Trial {
        call: copy_of(&trial.call),
        fill: Fill::PLAIN,
    };
    if plain.differs() {
        plain
    } else {
        trial
    }
}

/// Each smaller question twice: with lengths as far from what is needed as before, since a fault
/// may lie in what is taken for enough, and with the lengths as they are.
fn smaller_calls(call: &Call) -> impl Iterator<Item = Call> + '_ {
    let smaller = smaller_questions(call).flat_map(move |one| {
        let moved = lengths_as_far_from_needed(call, &one).map(|lengths| Call {
            lengths,
            ..copy_of(&one)
        });
        [moved, Some(one)].into_iter().flatten()
    });
    let shorter = shorter_lengths(call).into_iter().map(|lengths| Call {
        lengths,
        ..copy_of(call)
    });
    smaller.chain(shorter).chain(shorter_tables(call))
}

/// What refusals 7 and 8 ask for; nothing where the call is refused for another reason.
pub fn needed_by(call: &Call) -> Option<Lengths> {
    question_of(call).map(|question| lengths_needed(&question))
}

fn lengths_as_far_from_needed(call: &Call, smaller: &Call) -> Option<Lengths> {
    let (before, after) = (needed_by(call)?, needed_by(smaller)?);
    let moved = |length: usize, before: usize, after: usize| (length + after).checked_sub(before);
    Some(Lengths {
        log: moved(call.lengths.log, before.log, after.log)?,
        paths: moved(call.lengths.paths, before.paths, after.paths)?,
        cut: moved(call.lengths.cut, before.cut, after.cut)?,
    })
}

/// One buffer shorter, down to what is needed where it holds that much.
fn shorter_lengths(call: &Call) -> Vec<Lengths> {
    let lengths = call.lengths;
    let needed = needed_by(call).unwrap_or(Lengths {
        log: 0,
        paths: 0,
        cut: 0,
    });
    let shorter = |length: usize, needed: usize| {
        lower_numbers(if needed <= length { needed } else { 0 }, length)
    };
    let logs = shorter(lengths.log, needed.log).map(|log| Lengths { log, ..lengths });
    let paths = shorter(lengths.paths, needed.paths).map(|paths| Lengths { paths, ..lengths });
    let cuts = shorter(lengths.cut, needed.cut).map(|cut| Lengths { cut, ..lengths });
    logs.chain(paths).chain(cuts).collect()
}

/// A table whose length is refused is no map, and only its length counts.
fn shorter_tables(call: &Call) -> impl Iterator<Item = Call> + '_ {
    let is_refused = call.radios.checked_mul(call.radios) != Some(call.table.len());
    let length = if is_refused { call.table.len() } else { 0 };
    lower_numbers(0, length).map(|length| Call {
        table: call.table[..length].to_vec(),
        ..*call
    })
}
