//! M, the largest number of disjoint paths, found by methods other than the token search.
//!
//! The first is a maximum flow with unit room on each arc of the split graph, each gain found
//! breadth first. The second, for few radios, tries all cuts, smallest first.

use std::collections::VecDeque;

use crate::map::Question;

/// Up to this many radios all cuts are tried as well; the number of cuts doubles with each radio.
pub const FEW_RADIOS: usize = 10;

/// Room left on the arcs of the split graph. Node v is radio v's front, node n+v its back.
struct Room {
    nodes: usize,
    left: Vec<u8>,
}

impl Room {
    fn of(question: &Question) -> Room {
        let radios = question.map.radios;
        let nodes = 2 * radios;
        let mut room = Room {
            nodes,
            left: vec![0; nodes * nodes],
        };
        for radio in 0..radios {
            if question.forwards(radio) {
                room.left[radio * nodes + radios + radio] = 1;
            }
            for neighbour in question.map.neighbours(radio) {
                room.left[(radios + radio) * nodes + neighbour] = 1;
            }
        }
        room
    }

    /// The node before each node on a shortest way with room, or none where there is no way.
    fn ways_from(&self, start: usize) -> Vec<Option<usize>> {
        let mut before = vec![None; self.nodes];
        let mut waiting = VecDeque::from([start]);
        before[start] = Some(start);
        while let Some(here) = waiting.pop_front() {
            for next in 0..self.nodes {
                if self.left[here * self.nodes + next] > 0 && before[next].is_none() {
                    before[next] = Some(here);
                    waiting.push_back(next);
                }
            }
        }
        before
    }

    /// Sends one more unit from start to end; false if no way has room.
    fn gain_one(&mut self, start: usize, end: usize) -> bool {
        let before = self.ways_from(start);
        if before[end].is_none() {
            return false;
        }
        let mut here = end;
        while here != start {
            let previous = before[here].expect("every node on the way has one before it");
            self.left[previous * self.nodes + here] -= 1;
            self.left[here * self.nodes + previous] += 1;
            here = previous;
        }
        true
    }
}

/// M by maximum flow from S's back to T's front.
pub fn largest_by_flow(question: &Question) -> usize {
    let mut room = Room::of(question);
    let start = question.map.radios + question.source;
    let end = question.destination;
    let mut gained = 0;
    while room.gain_one(start, end) {
        gained += 1;
    }
    gained
}

/// M as the size of a smallest cut: the direct link, if there is one, and the fewest radios that
/// forward.
pub fn largest_by_cuts(question: &Question) -> usize {
    let forwarding: Vec<usize> = (0..question.map.radios)
        .filter(|&radio| question.forwards(radio))
        .collect();
    let direct = usize::from(question.ends_are_linked());
    for size in 0..forwarding.len() {
        for choice in 0..1usize << forwarding.len() {
            let has_size = choice.count_ones() as usize == size;
            if has_size && choice_parts_ends(question, &forwarding, choice) {
                return size + direct;
            }
        }
    }
    forwarding.len() + direct
}

fn choice_parts_ends(question: &Question, forwarding: &[usize], choice: usize) -> bool {
    let mut removed = vec![false; question.map.radios];
    for (place, &radio) in forwarding.iter().enumerate() {
        removed[radio] = choice >> place & 1 == 1;
    }
    parts_ends(question, &removed, true)
}

/// Whether T cannot be reached from S without the removed radios (and without the direct link).
/// A handheld leads nowhere.
pub fn parts_ends(question: &Question, removed: &[bool], without_direct_link: bool) -> bool {
    let mut reached = vec![false; question.map.radios];
    let mut waiting = vec![question.source];
    reached[question.source] = true;
    while let Some(here) = waiting.pop() {
        for next in question.map.neighbours(here) {
            let direct = here == question.source && next == question.destination;
            let goes_on = next == question.destination || question.forwards(next);
            if !goes_on || reached[next] || removed[next] || (direct && without_direct_link) {
                continue;
            }
            reached[next] = true;
            waiting.push(next);
        }
    }
    !reached[question.destination]
}

/// Whether the list leads from S to T, every two neighbours in it are linked, no radio stands in it
/// twice, and all between the ends forward.
pub fn is_path(question: &Question, radios: &[usize]) -> bool {
    let [source, inner @ .., destination] = radios else {
        return false;
    };
    let right_ends = *source == question.source && *destination == question.destination;
    let linked = |pair: &[usize]| question.map.linked(pair[0], pair[1]);
    let different = radios
        .iter()
        .enumerate()
        .all(|(place, radio)| !radios[..place].contains(radio));
    let forwarding = inner.iter().all(|&radio| question.forwards(radio));
    right_ends && radios.windows(2).all(linked) && different && forwarding
}
