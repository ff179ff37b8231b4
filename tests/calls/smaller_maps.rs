//! Smaller maps to try in place of one that differs, for calls and for texts.

use std::iter;
use std::ops::Range;

use crate::map::{Question, MOST_RADIOS};
use crate::refusals::{judge_call, Call, Lengths};

/// Enough for every map: 4·17·574 for the log, 62+24 for the paths, 8 for the cut.
pub const ENOUGH_FOR_ALL: Lengths = Lengths {
    log: 39_032,
    paths: 86,
    cut: 8,
};

/// What a call asks, whatever its lengths; nothing where it is refused for another reason.
pub fn question_of(call: &Call) -> Option<Question> {
    judge_call(&Call {
        lengths: ENOUGH_FOR_ALL,
        ..copy_of(call)
    })
    .ok()
}

pub fn copy_of(call: &Call) -> Call {
    Call {
        table: call.table.clone(),
        ..*call
    }
}

/// Fewer radios, fewer links and handhelds, or fewer paths wanted, the largest steps first.
pub fn smaller_questions(call: &Call) -> impl Iterator<Item = Call> + '_ {
    let has_map = call.radios <= MOST_RADIOS && call.table.len() == call.radios * call.radios;
    let radios = if has_map { call.radios } else { 0 };
    let inner: Vec<usize> = (0..radios)
        .filter(|&radio| radio != call.source && radio != call.destination)
        .collect();
    // Links and handhelds, and cells out of order with them.
    let cells: Vec<(usize, usize)> = (0..radios)
        .flat_map(|upper| (0..=upper).map(move |lower| (lower, upper)))
        .filter(|&(lower, upper)| {
            call.table[lower * radios + upper] != 0 || call.table[upper * radios + lower] != 0
        })
        .collect();
    // A radio of a chain cannot be left out without breaking it, but joined with the next one.
    let joined: Vec<(usize, usize)> = cells
        .iter()
        .flat_map(|&(lower, upper)| [(lower, upper), (upper, lower)])
        .filter(|&(kept, gone)| kept != gone && inner.contains(&gone))
        .collect();
    let joined = joined
        .into_iter()
        .map(move |(kept, gone)| with_joined(call, kept, gone));
    let fewer_radios = runs(inner.len()).map(move |run| without_radios(call, &inner[run]));
    let fewer_cells = runs(cells.len()).map(move |run| without_cells(call, &cells[run]));
    let fewer_wanted = lower_numbers(1, call.wanted).map(|wanted| Call {
        wanted,
        ..copy_of(call)
    });
    fewer_radios
        .chain(fewer_cells)
        .chain(fewer_wanted)
        .chain(joined)
}

/// Runs of places to leave out: all, both halves, the quarters, and so on down to single ones.
pub fn runs(count: usize) -> impl Iterator<Item = Range<usize>> {
    let halved = |&size: &usize| (size > 1).then(|| size.div_ceil(2));
    iter::successors((count > 0).then_some(count), halved).flat_map(move |size| {
        (0..count)
            .step_by(size)
            .map(move |start| start..count.min(start + size))
    })
}

/// The least, the one halfway to it and the one before, as far as they are lower.
pub fn lower_numbers(least: usize, number: usize) -> impl Iterator<Item = usize> {
    let above = number.saturating_sub(least);
    (above > 0)
        .then_some([least, least + above / 2, number.saturating_sub(1)])
        .into_iter()
        .flatten()
}

/// The later radios move down, S and T with them.
fn without_radios(call: &Call, gone: &[usize]) -> Call {
    let moved = |radio: usize| {
        let before = gone.iter().filter(|&&one| one < radio).count();
        radio - if radio < call.radios { before } else { 0 }
    };
    let stays = |radio: usize| !gone.contains(&radio);
    let table = (0..call.table.len())
        .filter(|place| stays(place / call.radios) && stays(place % call.radios))
        .map(|place| call.table[place])
        .collect();
    Call {
        radios: call.radios - gone.len(),
        table,
        source: moved(call.source),
        destination: moved(call.destination),
        ..*call
    }
}

/// The links of the radio that goes lead to the one that is kept.
fn with_joined(call: &Call, kept: usize, gone: usize) -> Call {
    let mut smaller = copy_of(call);
    for radio in (0..call.radios).filter(|&radio| radio != kept) {
        if call.table[gone * call.radios + radio] != 0 {
            smaller.table[kept * call.radios + radio] = 1;
            smaller.table[radio * call.radios + kept] = 1;
        }
    }
    without_radios(&smaller, &[gone])
}

fn without_cells(call: &Call, gone: &[(usize, usize)]) -> Call {
    let mut smaller = copy_of(call);
    for &(lower, upper) in gone {
        smaller.table[lower * call.radios + upper] = 0;
        smaller.table[upper * call.radios + lower] = 0;
    }
    smaller
}
