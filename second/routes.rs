//! Document 02, 1/13, "A route record for every radio": from a path list to the lent records.
//!
//! The list is read into paths, each path and each pair of paths is judged by itself, and then
//! every radio is looked up in the paths.

use crate::map::MOST_WANTED;
use crate::refusals::{judge_number_of_radios, Refusal};

/// Role, path number from 1, radio before, radio after.
pub type Record = [u8; 4];

const ON_NO_PATH: Record = [0, 0, 0, 0];
const SOURCE: Record = [2, 0, 0, 0];
const SINK: Record = [3, 0, 0, 0];
const ROLE_ON_A_PATH: u8 = 1;

/// A call, before anything of it has been judged.
#[derive(Clone, Debug)]
pub struct RouteCall {
    pub radios: usize,
    pub count: usize,
    pub list: Vec<u8>,
    /// What the lent records hold before the call.
    pub held: Vec<Record>,
}

/// What a call leaves: its refusal number, 0 for none, and every lent record.
#[derive(Clone, Debug, PartialEq, Eq)]
pub struct RoutesLeft {
    pub refusal: usize,
    pub records: Vec<Record>,
}

/// A refused call changes no record, and an accepted one none past n.
pub fn answer_routes(call: &RouteCall) -> RoutesLeft {
    let mut records = call.held.clone();
    match judge_routes(call) {
        Err(refusal) => RoutesLeft {
            refusal: refusal.number(),
            records,
        },
        Ok(paths) => {
            for (radio, record) in (0..).zip(&mut records[..call.radios]) {
                *record = record_of(radio, &paths);
            }
            RoutesLeft {
                refusal: 0,
                records,
            }
        }
    }
}

/// Refusals 1, 20 and 21 in their order.
fn judge_routes(call: &RouteCall) -> Result<Vec<Vec<u8>>, Refusal> {
    judge_number_of_radios(call.radios)?;
    if call.held.len() < call.radios {
        return Err(Refusal::TooFewRecords);
    }
    if call.count > MOST_WANTED {
        return Err(Refusal::PathList);
    }
    let paths = read_paths(call.count, &call.list).ok_or(Refusal::PathList)?;
    let all_sound = paths.iter().all(|path| is_sound(path, call.radios));
    if !all_sound || !all_pairs_disjoint(&paths) {
        return Err(Refusal::PathList);
    }
    Ok(paths)
}

/// So many paths, each its number of radios and then the radios; nothing where the list ends
/// before. What comes after them is not looked at.
fn read_paths(count: usize, list: &[u8]) -> Option<Vec<Vec<u8>>> {
    let mut paths = Vec::new();
    let mut unread = list;
    for _ in 0..count {
        let (&length, radios) = unread.split_first()?;
        let length = usize::from(length);
        paths.push(radios.get(..length)?.to_vec());
        unread = &radios[length..];
    }
    Some(paths)
}

/// Two or more different radios below n.
fn is_sound(path: &[u8], radios: usize) -> bool {
    let below = path.iter().all(|&radio| usize::from(radio) < radios);
    let different = (0..path.len()).all(|place| !path[..place].contains(&path[place]));
    path.len() >= 2 && below && different
}

fn all_pairs_disjoint(paths: &[Vec<u8>]) -> bool {
    (0..paths.len()).all(|later| {
        let before = &paths[..later];
        before.iter().all(|path| are_disjoint(path, &paths[later]))
    })
}

/// Of two sound paths: the same ends, different, and no radio shared but the ends. So the direct
/// link serves one path at most.
fn are_disjoint(one: &[u8], other: &[u8]) -> bool {
    let same_ends = one.first() == other.first() && one.last() == other.last();
    let inner = &one[1..one.len() - 1];
    same_ends && one != other && inner.iter().all(|radio| !other.contains(radio))
}

/// The ends stand in every path, any other radio in one at most.
fn record_of(radio: u8, paths: &[Vec<u8>]) -> Record {
    for (number, path) in (1..).zip(paths) {
        match path.iter().position(|&other| other == radio) {
            None => continue,
            Some(0) => return SOURCE,
            Some(place) if place + 1 == path.len() => return SINK,
            Some(place) => return [ROLE_ON_A_PATH, number, path[place - 1], path[place + 1]],
        }
    }
    ON_NO_PATH
}
