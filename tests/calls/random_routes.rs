//! Random path lists for fog_routes, sound and damaged. A list comes from the seed and its number
//! alone.

use crate::chance::Chance;
use crate::map::{MOST_RADIOS, MOST_WANTED};
use crate::outcome::run_checked;
use crate::random_calls::sound_call;
use crate::route_sides::RouteTrial;
use crate::routes::{Record, RouteCall};
use crate::shapes::number_of_radios;
use crate::smaller_maps::question_of;

/// The list with this number. Half are sound; the others have a fault or several, so that it shows
/// which refusal comes first.
pub fn trial_of(seed: u64, number: usize) -> RouteTrial {
    let mut chance = Chance::numbered(seed, number);
    let own = if chance.one_in(4) {
        own_plan(&mut chance)
    } else {
        None
    };
    let mut plan = own.unwrap_or_else(|| drawn_plan(&mut chance));
    let faults = match chance.below(20) {
        0..=9 => 0,
        10..=17 => 1,
        _ => chance.between(2, 3),
    };
    for _ in 0..faults {
        plan.spoil(&mut chance);
    }
    plan.trial(&mut chance)
}

/// A path as it is listed: the length is a byte of its own, so that it can be wrong.
#[derive(Clone)]
struct Listed {
    length: u8,
    radios: Vec<u8>,
}

impl Listed {
    fn sound(radios: Vec<u8>) -> Listed {
        Listed {
            length: radios.len() as u8,
            radios,
        }
    }

    fn bytes(&self) -> Vec<u8> {
        [&[self.length], self.radios.as_slice()].concat()
    }
}

/// A call before its list is written down.
struct Plan {
    radios: usize,
    count: usize,
    paths: Vec<Listed>,
    /// What follows the last path.
    tail: Vec<u8>,
    /// So many bytes at the end stand in memory, but are not lent.
    cut_off: usize,
    records: usize,
}

impl Plan {
    fn new(radios: usize, paths: Vec<Vec<u8>>, tail: Vec<u8>, chance: &mut Chance) -> Plan {
        Plan {
            radios,
            count: paths.len(),
            paths: paths.into_iter().map(Listed::sound).collect(),
            tail,
            cut_off: 0,
            records: radios + chance.one_of(&[0, 0, 1, 5, 70]),
        }
    }

    fn trial(&self, chance: &mut Chance) -> RouteTrial {
        let mut list = self.written_paths();
        list.extend(&self.tail);
        let beyond = list.split_off(list.len().saturating_sub(self.cut_off));
        RouteTrial {
            call: RouteCall {
                radios: self.radios,
                count: self.count,
                list,
                held: random_records(self.records, chance),
            },
            beyond,
        }
    }

    fn written_paths(&self) -> Vec<u8> {
        self.paths.iter().flat_map(Listed::bytes).collect()
    }

    /// Puts one fault into the call; by chance it may stay sound, or become so.
    fn spoil(&mut self, chance: &mut Chance) {
        match chance.below(16) {
            0 => self.radios = bad_number_of_radios(self, chance),
            1 => self.records = chance.one_of(&[0, 1, self.radios.saturating_sub(1)]),
            2 => self.count = bad_count(self.count, chance),
            3 => self.count = self.count.wrapping_add(chance.one_of(&[1, usize::MAX])),
            4 => self.cut_short(chance),
            5 => self.add_path(chance),
            _ => self.spoil_path(chance),
        }
        // Nobody can lend a record for each of a huge number of radios.
        self.records = self.records.min(2 * MOST_RADIOS);
    }

    /// What is cut off still stands in memory, and would be sound if it were read.
    fn cut_short(&mut self, chance: &mut Chance) {
        self.tail.clear();
        let length = self.written_paths().len();
        let any = 1 + chance.below(length.max(1));
        self.cut_off = chance.one_of(&[1, 2, any, length]);
    }

    /// One path more: the direct link, perhaps a second time, or one of the others again.
    fn add_path(&mut self, chance: &mut Chance) {
        let Some(some) = self.some_path(chance) else {
            return;
        };
        let copy = match self.paths[some].radios.as_slice() {
            [first, .., last] if chance.one_in(2) => Listed::sound(vec![*first, *last]),
            _ => self.paths[some].clone(),
        };
        let place = chance.below(self.paths.len() + 1);
        self.paths.insert(place, copy);
        self.count = self.count.wrapping_add(1);
    }

    fn some_path(&self, chance: &mut Chance) -> Option<usize> {
        (!self.paths.is_empty()).then(|| chance.below(self.paths.len()))
    }

    fn some_radio(&self, chance: &mut Chance) -> Option<u8> {
        let path = &self.paths[self.some_path(chance)?];
        (!path.radios.is_empty()).then(|| chance.one_of(&path.radios))
    }

    /// A length, an end, or any radio of one path; or the whole path turned.
    fn spoil_path(&mut self, chance: &mut Chance) {
        let (Some(some), Some(listed)) = (self.some_path(chance), self.some_radio(chance)) else {
            return;
        };
        let beyond = self.radios as u8;
        let radio = match chance.below(5) {
            0 | 1 => listed,
            2 => chance.one_of(&[beyond, beyond.wrapping_add(1), 64, 255]),
            _ => chance.below(self.radios.clamp(1, MOST_RADIOS)) as u8,
        };
        let path = &mut self.paths[some];
        let length = path.radios.len();
        let last = length.saturating_sub(1);
        match chance.below(8) {
            0 => path.length = bad_length(path.length, chance),
            1 => *path = Listed::sound(path.radios[..chance.below(2).min(length)].to_vec()),
            2 => path.radios.reverse(),
            3 => *path = Listed::sound([path.radios.as_slice(), &[radio]].concat()),
            _ if length == 0 => path.length = 1,
            4 => path.radios[0] = radio,
            5 => path.radios[last] = radio,
            _ => path.radios[chance.below(length)] = radio,
        }
    }
}

/// The path list of a random survey as it leaves it, zeros after the last path. Nothing where the
/// survey is refused, or fails a check of the second program: that is for the random calls to show.
fn own_plan(chance: &mut Chance) -> Option<Plan> {
    let call = sound_call(chance);
    let outcome = run_checked(&question_of(&call)?).ok()?;
    let bytes = |path: &Vec<usize>| path.iter().map(|&radio| radio as u8).collect();
    let paths = outcome.paths.iter().map(bytes).collect();
    let unused = call
        .lengths
        .paths
        .saturating_sub(outcome.path_bytes().len());
    Some(Plan::new(call.radios, paths, vec![0; unused], chance))
}

/// Sound but for the number of paths, which may be 9.
fn drawn_plan(chance: &mut Chance) -> Plan {
    let radios = number_of_radios(chance);
    let most_paths = MOST_WANTED + usize::from(chance.one_in(16));
    let paths = drawn_paths(radios, most_paths, chance);
    let tail = match (chance.below(4), paths.first()) {
        (0, _) => Vec::new(),
        (1, Some(path)) => Listed::sound(path.clone()).bytes(),
        (2, _) => vec![0; chance.below(30)],
        _ => (0..chance.below(30)).map(|_| chance.next() as u8).collect(),
    };
    Plan::new(radios, paths, tail, chance)
}

/// The radios in a random order: S, T, and then those that are dealt out to the paths.
fn drawn_paths(radios: usize, most_paths: usize, chance: &mut Chance) -> Vec<Vec<u8>> {
    let mut order: Vec<u8> = (0..radios as u8).collect();
    chance.shuffle(&mut order);
    let (source, sink) = (order[0], order[1]);
    let direct = chance.below(2);
    let most_ways = (radios - 2).min(most_paths - direct);
    let ways = chance.below(most_ways + 1);
    let ways = chance.one_of(&[most_ways, ways]);
    let dealt = chance.between(ways, radios - 2);
    let dealt = chance.one_of(&[ways, radios - 2, dealt]);
    let mut paths = vec![vec![source]; ways + direct];
    for (place, &radio) in order[2..2 + dealt].iter().enumerate() {
        if ways > 0 {
            // Each has one of them at least.
            let way = if place < ways {
                place
            } else {
                chance.below(ways)
            };
            paths[way].push(radio);
        }
    }
    paths.iter_mut().for_each(|path| path.push(sink));
    chance.shuffle(&mut paths);
    paths
}

/// What the lent records hold before the call.
fn random_records(count: usize, chance: &mut Chance) -> Vec<Record> {
    match chance.below(4) {
        0 => vec![[0xAA; 4]; count],
        1 => vec![[0xFF; 4]; count],
        _ => (0..count)
            .map(|_| (chance.next() as u32).to_le_bytes())
            .collect(),
    }
}

fn bad_number_of_radios(plan: &mut Plan, chance: &mut Chance) -> usize {
    let radios = plan.radios;
    if chance.one_in(2) {
        // Enough for 65 and more, so that only n is at fault.
        plan.records = plan.records.max(MOST_RADIOS + 10);
    }
    chance.one_of(&[
        0,
        1,
        65,
        66,
        radios.wrapping_add(1),
        radios.wrapping_sub(1),
        radios.wrapping_add(256),
        radios.wrapping_add(1 << 32),
        1 << 63,
        usize::MAX,
    ])
}

fn bad_count(count: usize, chance: &mut Chance) -> usize {
    chance.one_of(&[
        9,
        10,
        255,
        count.wrapping_add(256),
        count.wrapping_add(1 << 32),
        1 << 63,
        usize::MAX,
    ])
}

fn bad_length(length: u8, chance: &mut Chance) -> u8 {
    let (less, more) = (length.wrapping_sub(1), length.wrapping_add(1));
    chance.one_of(&[0, 1, 2, less, more, 255, length.wrapping_add(128)])
}
