//! The shapes of random sites: how many radios, which ends, which pairs are linked, which radios are
//! handhelds.

use crate::chance::Chance;
use crate::map::{FEWEST_RADIOS, MOST_RADIOS};

/// Small maps find most faults, and the largest have the largest numbers.
pub fn number_of_radios(chance: &mut Chance) -> usize {
    match chance.below(8) {
        0..=2 => chance.between(FEWEST_RADIOS, 8),
        3 | 4 => chance.between(8, 20),
        5 => chance.between(MOST_RADIOS - 2, MOST_RADIOS),
        _ => chance.between(FEWEST_RADIOS, MOST_RADIOS),
    }
}

/// Often the far ends, so that chains and grids lie between S and T.
pub fn random_ends(chance: &mut Chance, radios: usize) -> (usize, usize) {
    if chance.one_in(2) {
        return (0, radios - 1);
    }
    let source = chance.below(radios);
    (source, (source + chance.between(1, radios - 1)) % radios)
}

/// Half of the sites have handhelds: from few inner radios to all of them, S and T by themselves or
/// with those.
pub fn random_handhelds(chance: &mut Chance, radios: usize, ends: (usize, usize)) -> Vec<usize> {
    if chance.one_in(2) {
        return Vec::new();
    }
    let percent = match chance.below(8) {
        0 => 0,
        1 => 100,
        2 | 3 => chance.between(1, 100),
        _ => chance.between(1, 25),
    };
    let mut handhelds: Vec<usize> = (0..radios).collect();
    handhelds.retain(|&radio| match radio == ends.0 || radio == ends.1 {
        true => chance.one_in(3),
        false => chance.below(100) < percent,
    });
    handhelds
}

/// Pairs to link in a random order; some shapes name a pair twice.
pub fn random_pairs(chance: &mut Chance, radios: usize) -> Vec<(usize, usize)> {
    let mut pairs = match chance.below(8) {
        0 | 1 => scattered_pairs(chance, radios),
        2 => chain_pairs(chance, radios),
        3 => grid_pairs(chance, radios),
        4 => near_pairs(chance, radios),
        5 => tree_with_more(chance, radios),
        6 => bundle_pairs(chance, radios),
        _ => all_pairs(radios),
    };
    chance.shuffle(&mut pairs);
    pairs
}

pub fn all_pairs(radios: usize) -> Vec<(usize, usize)> {
    (0..radios)
        .flat_map(|upper| (0..upper).map(move |lower| (lower, upper)))
        .collect()
}

/// Each pair with the same chance, from none to all.
fn scattered_pairs(chance: &mut Chance, radios: usize) -> Vec<(usize, usize)> {
    let percent = chance.between(0, 100);
    let mut pairs = all_pairs(radios);
    pairs.retain(|_| chance.below(100) < percent);
    pairs
}

/// One long way, sometimes with a few links across it.
fn chain_pairs(chance: &mut Chance, radios: usize) -> Vec<(usize, usize)> {
    let mut pairs: Vec<(usize, usize)> = (1..radios).map(|upper| (upper - 1, upper)).collect();
    for _ in 0..chance.below(4) {
        pairs.push(random_pair(chance, radios));
    }
    pairs
}

fn random_pair(chance: &mut Chance, radios: usize) -> (usize, usize) {
    let upper = chance.between(1, radios - 1);
    (chance.below(upper), upper)
}

fn grid_pairs(chance: &mut Chance, radios: usize) -> Vec<(usize, usize)> {
    let width = chance.between(1, 8);
    let mut pairs = Vec::new();
    for radio in 0..radios {
        if (radio + 1) % width != 0 && radio + 1 < radios {
            pairs.push((radio, radio + 1));
        }
        if radio + width < radios {
            pairs.push((radio, radio + width));
        }
    }
    pairs
}

/// Links only between near numbers: long ways on which later tokens walk back.
fn near_pairs(chance: &mut Chance, radios: usize) -> Vec<(usize, usize)> {
    let reach = chance.between(1, 8);
    let percent = chance.between(30, 100);
    let mut pairs = all_pairs(radios);
    pairs.retain(|(lower, upper)| upper - lower <= reach && chance.below(100) < percent);
    pairs
}

fn tree_with_more(chance: &mut Chance, radios: usize) -> Vec<(usize, usize)> {
    let mut pairs: Vec<(usize, usize)> = (1..radios)
        .map(|upper| (chance.below(upper), upper))
        .collect();
    for _ in 0..chance.below(2 * radios) {
        pairs.push(random_pair(chance, radios));
    }
    pairs
}

/// Several ways side by side from the first radio to the last, with links across: many paths.
fn bundle_pairs(chance: &mut Chance, radios: usize) -> Vec<(usize, usize)> {
    let ways = chance.between(1, 9);
    let last = radios - 1;
    let mut pairs = Vec::new();
    for radio in 1..last {
        if radio <= ways {
            pairs.push((0, radio));
        }
        let next = radio + ways;
        pairs.push((radio, if next < last { next } else { last }));
    }
    if last == 1 || chance.one_in(2) {
        pairs.push((0, last));
    }
    for _ in 0..chance.below(radios) {
        pairs.push(random_pair(chance, radios));
    }
    pairs
}
