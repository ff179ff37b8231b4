//! Random calls, sound and damaged. A call comes from the seed and its number alone.

use crate::both_sides::{Fill, Trial};
use crate::chance::Chance;
use crate::map::{Map, MOST_LINKS, MOST_WANTED};
use crate::refusals::{Call, Lengths};
use crate::shapes::{number_of_radios, random_ends, random_handhelds, random_pairs};
use crate::smaller::needed_by;
use crate::smaller_maps::ENOUGH_FOR_ALL;

/// The call with this number. Most are sound or have one fault; some have several, so that it
/// shows which refusal comes first.
pub fn trial_of(seed: u64, number: usize) -> Trial {
    let mut chance = Chance::numbered(seed, number);
    let mut call = sound_call(&mut chance);
    let faults = match chance.below(20) {
        0..=12 => 0,
        13..=18 => 1,
        _ => chance.between(2, 3),
    };
    for _ in 0..faults {
        spoil(&mut call, &mut chance);
    }
    let fill = match chance.below(4) {
        0 => Fill::Same(0xAA),
        1 => Fill::Same(0xFF),
        _ => Fill::Random,
    };
    Trial { call, fill }
}

/// In order but for the number of links, which may be 257.
pub fn sound_call(chance: &mut Chance) -> Call {
    let radios = number_of_radios(chance);
    let pairs = random_pairs(chance, radios);
    let most_links = match chance.below(16) {
        0 => MOST_LINKS + 1,
        1 => chance.below(MOST_LINKS),
        _ => MOST_LINKS,
    };
    let mut names: Vec<usize> = (0..radios).collect();
    if chance.one_in(2) {
        chance.shuffle(&mut names);
    }
    let mut map = map_of_pairs(radios, &pairs, &names, most_links);
    let ends @ (source, destination) = random_ends(chance, radios);
    for radio in random_handhelds(chance, radios, ends) {
        map.make_handheld(names[radio]);
    }
    let mut call = Call {
        radios,
        table: map.table(),
        source: names[source],
        destination: names[destination],
        wanted: chance.between(1, MOST_WANTED),
        lengths: ENOUGH_FOR_ALL,
    };
    call.lengths = random_lengths(&call, chance);
    call
}

fn map_of_pairs(
    radios: usize,
    pairs: &[(usize, usize)],
    names: &[usize],
    most_links: usize,
) -> Map {
    let mut map = Map::without_links(radios);
    let mut links = 0;
    for &(one, other) in pairs {
        if links < most_links && !map.linked(names[one], names[other]) {
            map.link(names[one], names[other]);
            links += 1;
        }
    }
    map
}

/// Exactly enough, a byte short of it in one place, or longer.
fn random_lengths(call: &Call, chance: &mut Chance) -> Lengths {
    let Some(needed) = needed_by(call) else {
        return short_lengths(chance);
    };
    match chance.below(8) {
        0..=2 => needed,
        3 => one_byte_short(needed, chance),
        4 => ENOUGH_FOR_ALL,
        _ => Lengths {
            log: needed.log + chance.below(300),
            paths: needed.paths + chance.below(20),
            cut: needed.cut + chance.below(4),
        },
    }
}

/// A log that needs no byte cannot be a byte short.
fn one_byte_short(needed: Lengths, chance: &mut Chance) -> Lengths {
    let mut lengths = needed;
    match chance.below(3) {
        0 => lengths.log = needed.log.saturating_sub(1),
        1 => lengths.paths = needed.paths - 1,
        _ => lengths.cut = needed.cut - 1,
    }
    lengths
}

fn short_lengths(chance: &mut Chance) -> Lengths {
    Lengths {
        log: chance.below(200),
        paths: chance.below(30),
        cut: chance.below(10),
    }
}

/// Puts one fault into a call; what is already at fault may be made sound or worse by chance.
fn spoil(call: &mut Call, chance: &mut Chance) {
    match chance.below(8) {
        0 => call.radios = bad_number_of_radios(call, chance),
        1 => spoil_length(&mut call.table, chance),
        2 | 3 => spoil_cells(call, chance),
        4 => spoil_ends(call, chance),
        5 => call.wanted = chance.one_of(&[0, 9, 10, 256, 257, 264, usize::MAX, 1 << 32, 1 << 63]),
        6 => call.lengths = short_lengths(chance),
        _ => {
            call.lengths = match chance.below(4) {
                0 => Lengths {
                    log: 0,
                    ..call.lengths
                },
                1 => Lengths {
                    paths: 0,
                    ..call.lengths
                },
                2 => Lengths {
                    cut: 0,
                    ..call.lengths
                },
                _ => Lengths {
                    log: 0,
                    paths: 0,
                    cut: 0,
                },
            }
        }
    }
}

fn bad_number_of_radios(call: &Call, chance: &mut Chance) -> usize {
    let radios = call.radios;
    let near = [
        radios.wrapping_sub(1),
        radios.wrapping_add(1),
        radios.wrapping_add(256),
        0,
        1,
        65,
    ];
    let huge = [
        66,
        255,
        256,
        1 << 32,
        radios.wrapping_add(1 << 32),
        usize::MAX,
        1 << 63,
    ];
    if chance.one_in(2) {
        return chance.one_of(&near);
    }
    chance.one_of(&huge)
}

fn spoil_length(table: &mut Vec<u8>, chance: &mut Chance) {
    match chance.below(4) {
        0 => table.clear(),
        1 => table.push(0),
        2 => table.extend_from_within(..),
        _ => {
            table.pop();
        }
    }
}

/// Bad cells of both kinds, one or several, on the diagonal and off it: the first of them may be of
/// any kind, and so may the others. Beside them a radio may become a handheld.
fn spoil_cells(call: &mut Call, chance: &mut Chance) {
    if call.table.is_empty() || call.radios == 0 {
        return;
    }
    for _ in 0..chance.one_of(&[1, 1, 1, 2, 3, 5]) {
        spoil_cell(call, chance);
    }
}

/// The number of radios may be spoiled already: then a cell's mirror or its row's diagonal may not
/// be there.
fn spoil_cell(call: &mut Call, chance: &mut Chance) {
    let radios = call.radios;
    let place = place_to_spoil(call.table.len(), chance);
    let (row, column) = (place / radios, place % radios);
    let place_of = |row: usize, column: usize| row.saturating_mul(radios).saturating_add(column);
    let mut put = |place: usize, byte: u8| {
        if let Some(cell) = call.table.get_mut(place) {
            *cell = byte;
        }
    };
    let value = chance.one_of(&[2, 3, 128, 129, 254, 255]);
    match chance.below(8) {
        0 => put(place, value),
        1 | 2 => {
            put(place, value);
            put(place_of(column, row), value);
        }
        3 | 4 => put(place_of(row, row), value),
        5 => put(place_of(row, row), 1),
        _ => call.table[place] ^= 1,
    }
}

/// Often one of the last cells, which a careless loop leaves out.
fn place_to_spoil(cells: usize, chance: &mut Chance) -> usize {
    if chance.one_in(4) {
        return cells - 1 - chance.below(cells.min(3));
    }
    chance.below(cells)
}

fn spoil_ends(call: &mut Call, chance: &mut Chance) {
    let radios = call.radios;
    let beyond = [
        radios,
        radios.saturating_add(1),
        64,
        255,
        256,
        256 + call.source % 64,
        1 << 32,
        usize::MAX,
    ];
    match chance.below(3) {
        0 => call.source = chance.one_of(&beyond),
        1 => call.destination = chance.one_of(&beyond),
        _ => call.source = call.destination,
    }
}
