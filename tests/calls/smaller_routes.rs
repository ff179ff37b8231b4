//! Makes a path list on which fog_routes differs smaller, so that a person can follow it by hand.

use std::time::{Duration, Instant};

use crate::map::FEWEST_RADIOS;
use crate::route_sides::RouteTrial;
use crate::routes::{answer_routes, Record, RouteCall};
use crate::smaller_maps::{lower_numbers, runs};

/// As for a call of fog_survey: it helps the reader, but must not keep him waiting.
const LONGEST_SHRINKING: Duration = Duration::from_secs(5);
/// What the vectors' records hold before the call.
const PLAIN_RECORD: Record = [7; 4];

/// Tries smaller calls as long as one of them still differs. All are accepted, or refused by the
/// same number: another refusal would be another fault.
pub fn shrink(trial: RouteTrial) -> RouteTrial {
    let started = Instant::now();
    let refusal = refusal_number(&trial);
    let mut smallest = plain(trial);
    loop {
        let smaller = smaller_trials(&smallest)
            .into_iter()
            .take_while(|_| started.elapsed() < LONGEST_SHRINKING)
            .filter(|trial| refusal_number(trial) == refusal)
            .find(RouteTrial::differs);
        match smaller {
            Some(trial) => smallest = trial,
            None => return smallest,
        }
    }
}

/// 0 where it is accepted.
pub fn refusal_number(trial: &RouteTrial) -> usize {
    answer_routes(&trial.call).refusal
}

/// A call line says nothing of different records or of what stands after the list, so a call made
/// from one should differ as well.
fn plain(mut trial: RouteTrial) -> RouteTrial {
    let without = RouteTrial {
        beyond: Vec::new(),
        ..trial.clone()
    };
    if without.differs() {
        trial = without;
    }
    let mut same_records = trial.clone();
    same_records.call.held.fill(PLAIN_RECORD);
    if same_records.differs() {
        return same_records;
    }
    trial
}

fn smaller_trials(trial: &RouteTrial) -> Vec<RouteTrial> {
    let call = &trial.call;
    let mut smaller = fewer_paths(call);
    smaller.extend(shorter_paths(call));
    smaller.extend(shorter_lists(call));
    smaller.extend(fewer_radios(call));
    smaller.extend(fewer_records(call));
    smaller.extend(lower_radios(call));
    let beyond = &trial.beyond;
    smaller
        .into_iter()
        .map(|call| RouteTrial {
            call,
            beyond: beyond.clone(),
        })
        .collect()
}

/// Where each path starts in the list, and its number of radios, as far as the list holds them.
fn places_of_paths(call: &RouteCall) -> Vec<(usize, usize)> {
    let mut places = Vec::new();
    let mut start = 0;
    while places.len() < call.count && start < call.list.len() {
        let length = usize::from(call.list[start]);
        if length >= call.list.len() - start {
            break;
        }
        places.push((start, length));
        start += 1 + length;
    }
    places
}

fn fewer_paths(call: &RouteCall) -> Vec<RouteCall> {
    let without = |(start, length): (usize, usize)| {
        let mut smaller = call.clone();
        smaller.list.drain(start..=start + length);
        smaller.count -= 1;
        smaller
    };
    places_of_paths(call).into_iter().map(without).collect()
}

fn shorter_paths(call: &RouteCall) -> Vec<RouteCall> {
    let mut smaller = Vec::new();
    for (start, length) in places_of_paths(call) {
        for run in runs(length) {
            let mut shorter = call.clone();
            shorter.list[start] -= run.len() as u8;
            shorter
                .list
                .drain(start + 1 + run.start..start + 1 + run.end);
            smaller.push(shorter);
        }
    }
    smaller
}

fn shorter_lists(call: &RouteCall) -> Vec<RouteCall> {
    let shortened = |length| RouteCall {
        list: call.list[..length].to_vec(),
        ..call.clone()
    };
    lower_numbers(0, call.list.len()).map(shortened).collect()
}

/// With as many records past n, or missing, as before.
fn fewer_radios(call: &RouteCall) -> Vec<RouteCall> {
    let lowered = |radios| {
        let fewer = call.radios - radios;
        let mut smaller = call.clone();
        smaller.radios = radios;
        smaller.held.truncate(call.held.len().saturating_sub(fewer));
        smaller
    };
    lower_numbers(FEWEST_RADIOS, call.radios)
        .map(lowered)
        .collect()
}

fn fewer_records(call: &RouteCall) -> Vec<RouteCall> {
    let shortened = |records| RouteCall {
        held: call.held[..records].to_vec(),
        ..call.clone()
    };
    lower_numbers(0, call.held.len()).map(shortened).collect()
}

/// A radio of the paths gets a lower number that no other one has.
fn lower_radios(call: &RouteCall) -> Vec<RouteCall> {
    let places: Vec<usize> = places_of_paths(call)
        .into_iter()
        .flat_map(|(start, length)| start + 1..=start + length)
        .collect();
    let is_listed = |radio: u8| places.iter().any(|&place| call.list[place] == radio);
    let Some(lowest_free) = (0..=u8::MAX).find(|&radio| !is_listed(radio)) else {
        return Vec::new();
    };
    let renamed = |&radio: &u8| {
        let mut smaller = call.clone();
        for &place in &places {
            if call.list[place] == radio {
                smaller.list[place] = lowest_free;
            }
        }
        smaller
    };
    (lowest_free..=u8::MAX)
        .filter(|&radio| is_listed(radio))
        .collect::<Vec<u8>>()
        .iter()
        .map(renamed)
        .collect()
}
