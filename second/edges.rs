//! The calls that the proved program `edges` makes: its input, and answered here its expected lines.
//!
//! Document 01's "n = 1, 64, 65; 256 and 257 links; k = 0, 8, 9; each buffer one byte short and
//! exactly enough", huge numbers, document 02's handhelds, and calls that follow others in the same
//! buffers. What a call leaves does not depend on what the buffers held, so here each call stands
//! alone.

use crate::calls::write_bytes;
use crate::map::Map;
use crate::outcome::run_checked;
use crate::refusals::{judge_call, Call, Lengths, Refusal};

/// Past every number of a radio, and past 32 bits.
const HUGE: usize = 1 << 40;
const LARGEST_NUMBER: usize = usize::MAX;
/// No table of a call has this place.
const NOWHERE: usize = 4226;
/// The largest prime below 2^32.
const SUM_MODULUS: u64 = 4_294_967_291;
const SUM_FACTOR: u64 = 257;

/// A call before its table is made. The radios below `circle` stand in a circle, each linked to
/// those at most `reach` places away; radio 0 is linked to the `spokes` radios after those too.
/// The radios below `hands` are handhelds.
#[derive(Clone, Copy)]
struct Plan {
    radios: usize,
    circle: usize,
    reach: usize,
    spokes: usize,
    hands: usize,
    /// The place of a cell that is not as the map has it, and what it holds.
    spoiled: Option<(usize, u8)>,
    source: usize,
    destination: usize,
    wanted: usize,
    cells: usize,
    lengths: Lengths,
    /// Is the call made in the buffers as the call before it left them?
    kept: bool,
}

impl Plan {
    fn with_radios(self, radios: usize, cells: usize) -> Plan {
        Plan {
            radios,
            circle: radios,
            cells,
            ..self
        }
    }

    fn with_links(self, circle: usize, reach: usize, spokes: usize) -> Plan {
        Plan {
            circle,
            reach,
            spokes,
            ..self
        }
    }

    fn with_hands(self, hands: usize) -> Plan {
        Plan { hands, ..self }
    }

    fn with_spoiled(self, place: usize, held: u8) -> Plan {
        Plan {
            spoiled: Some((place, held)),
            ..self
        }
    }

    fn with_cells(self, cells: usize) -> Plan {
        Plan { cells, ..self }
    }

    fn with_ends(self, source: usize, destination: usize) -> Plan {
        Plan {
            source,
            destination,
            ..self
        }
    }

    fn with_wanted(self, wanted: usize) -> Plan {
        Plan { wanted, ..self }
    }

    fn with_log(self, log: usize) -> Plan {
        let lengths = Lengths {
            log,
            ..self.lengths
        };
        Plan { lengths, ..self }
    }

    fn with_buffers(self, log: usize, paths: usize, cut: usize) -> Plan {
        Plan {
            lengths: Lengths { log, paths, cut },
            ..self
        }
    }

    fn with_kept_buffers(self) -> Plan {
        Plan { kept: true, ..self }
    }

    fn map(&self) -> Map {
        let mut map = Map::without_links(self.radios);
        for radio in 0..self.circle {
            for step in 1..=self.reach.min(self.circle - 1) {
                map.link(radio, (radio + step) % self.circle);
            }
        }
        for spoke in 1..=self.spokes {
            map.link(0, self.reach + spoke);
        }
        for radio in 0..self.hands {
            map.make_handheld(radio);
        }
        map
    }

    /// The map's table cut or filled with zeros to its length. No table holds the cells of a huge
    /// map, and no call asks what they are.
    fn table(&self) -> Vec<u8> {
        let mut table = match self.radios {
            HUGE.. => Vec::new(),
            _ => self.map().table(),
        };
        table.resize(self.cells, 0);
        if let Some((place, held)) = self.spoiled {
            table[place] = held;
        }
        table
    }

    fn call(&self) -> Call {
        Call {
            radios: self.radios,
            table: self.table(),
            source: self.source,
            destination: self.destination,
            wanted: self.wanted,
            lengths: self.lengths,
        }
    }
}

/// Two linked radios and the shortest buffers that do.
const PAIR: Plan = Plan {
    radios: 2,
    circle: 2,
    reach: 1,
    spokes: 0,
    hands: 0,
    spoiled: None,
    source: 0,
    destination: 1,
    wanted: 1,
    cells: 4,
    lengths: Lengths {
        log: 12,
        paths: 3,
        cut: 1,
    },
    kept: false,
};

/// The most radios, the most links (64 radios, each linked to 8) and the most paths.
const LARGEST: Plan = Plan {
    radios: 64,
    circle: 64,
    reach: 4,
    spokes: 0,
    hands: 0,
    spoiled: None,
    source: 0,
    destination: 32,
    wanted: 8,
    cells: 4096,
    lengths: Lengths {
        log: 37_944,
        paths: 86,
        cut: 8,
    },
    kept: false,
};

type Case = (&'static str, Plan);

fn numbers_of_radios() -> Vec<Case> {
    vec![
        ("no radios", PAIR.with_radios(0, 0)),
        ("one radio", PAIR.with_radios(1, 1)),
        ("two radios", PAIR),
        ("64 radios", LARGEST),
        ("65 radios", LARGEST.with_radios(65, 4225)),
        ("a huge number of radios", PAIR.with_radios(HUGE, 4)),
        (
            "the largest number of radios",
            PAIR.with_radios(LARGEST_NUMBER, 4),
        ),
    ]
}

fn tables() -> Vec<Case> {
    vec![
        ("no table", PAIR.with_cells(0)),
        ("a small table one short", PAIR.with_cells(3)),
        ("a small table one long", PAIR.with_cells(5)),
        ("a large table one short", LARGEST.with_cells(4095)),
        ("a large table one long", LARGEST.with_cells(4097)),
    ]
}

/// Refusal 3 at the first place, in the middle and at the last, on the diagonal and off it.
fn cell_values() -> Vec<Case> {
    let spoiled = |place, held| LARGEST.with_spoiled(place, held);
    vec![
        ("a bad first cell", spoiled(0, 2)),
        ("255 in the first cell", spoiled(0, 255)),
        ("2 for the first link", spoiled(1, 2)),
        ("2 for a link", spoiled(1301, 2)),
        ("2 for no link", spoiled(1320, 2)),
        ("2 on the diagonal", spoiled(2080, 2)),
        ("2 for the last link", spoiled(4031, 2)),
        ("a bad last cell", spoiled(4095, 2)),
        ("255 in the last cell", spoiled(4095, 255)),
    ]
}

/// A 1 on the diagonal, at its first place, in the middle and at its last: S, T and an inner radio.
/// Only the third makes A smaller.
fn single_handhelds() -> Vec<Case> {
    let source = LARGEST.with_spoiled(0, 1);
    let destination = LARGEST.with_spoiled(2080, 1);
    let inner = LARGEST.with_spoiled(4095, 1);
    vec![
        ("S is a handheld", source),
        ("S is a handheld, log one short", source.with_log(37_943)),
        ("T is a handheld", destination),
        (
            "T is a handheld, log one short",
            destination.with_log(37_943),
        ),
        ("an inner handheld", inner.with_log(37_876)),
        ("an inner handheld, log one short", inner.with_log(37_875)),
        ("an inner handheld, log as before", inner),
    ]
}

/// Many handhelds: none of their cells is a link, and each that is not S or T makes A smaller.
fn many_handhelds() -> Vec<Case> {
    let pair = PAIR.with_hands(2);
    let half = LARGEST.with_hands(32).with_log(35_836);
    let all = LARGEST.with_hands(64).with_log(33_728);
    let linked_ends = all.with_ends(0, 63).with_log(33_796);
    let lonely_ends = LARGEST
        .with_links(62, 4, 8)
        .with_ends(62, 63)
        .with_hands(62)
        .with_log(34_816);
    let no_links = all.with_links(64, 0, 0).with_log(0);
    vec![
        ("two handhelds", pair),
        ("two handhelds, log one short", pair.with_log(11)),
        ("two handhelds, T before S", pair.with_ends(1, 0)),
        ("half are handhelds", half),
        ("half are handhelds, log one short", half.with_log(35_835)),
        ("all are handhelds", all),
        ("all are handhelds, log one short", all.with_log(33_727)),
        ("all are handhelds, S and T are linked", linked_ends),
        ("all but S and T are handhelds", lonely_ends),
        (
            "all but S and T are handhelds, log one short",
            lonely_ends.with_log(34_815),
        ),
        ("64 handhelds, no links, no log", no_links),
        ("257 links of handhelds", all.with_links(64, 4, 1)),
    ]
}

/// Bad cells among handhelds, on the diagonal and off it.
fn bad_cells_of_handhelds() -> Vec<Case> {
    let spoiled = |place, held| LARGEST.with_hands(64).with_spoiled(place, held);
    vec![
        ("2 in the first cell, then handhelds", spoiled(0, 2)),
        ("2 on the diagonal among handhelds", spoiled(2080, 2)),
        ("2 in the last cell after handhelds", spoiled(4095, 2)),
        ("2 for a link of handhelds", spoiled(1301, 2)),
        ("0 below a link of handhelds", spoiled(64, 0)),
        ("1 below no link of handhelds", spoiled(2580, 1)),
        ("2 in the last of four cells", PAIR.with_spoiled(3, 2)),
    ]
}

/// Refusal 13 at the first place where it can stand, in the middle and at the last. It is told at
/// the cell above the diagonal, whichever of the two was changed and whatever the lower one holds.
fn mirror_cells() -> Vec<Case> {
    let spoiled = |place, held| LARGEST.with_spoiled(place, held);
    let lone_link = |place| LARGEST.with_links(64, 0, 0).with_spoiled(place, 1);
    vec![
        ("a link of two radios one way", PAIR.with_spoiled(2, 0)),
        ("2 below a link of two radios", PAIR.with_spoiled(2, 2)),
        ("0 for the first link", spoiled(1, 0)),
        ("0 below the first link", spoiled(64, 0)),
        ("a bad mirror cell", spoiled(64, 2)),
        ("1 for no link", spoiled(1320, 1)),
        ("1 below no link", spoiled(2580, 1)),
        ("2 below no link", spoiled(2580, 2)),
        ("0 for the last link", spoiled(4031, 0)),
        ("0 below the last link", spoiled(4094, 0)),
        ("2 below the last link", spoiled(4094, 2)),
        ("the only 1 above the diagonal", lone_link(1)),
        ("the only 1 below the diagonal", lone_link(4094)),
    ]
}

fn numbers_of_links() -> Vec<Case> {
    // The most steps a map can have: 256 links, and none of them at S or T. Its log is the longest.
    let lonely_ends = LARGEST
        .with_links(62, 4, 8)
        .with_ends(62, 63)
        .with_buffers(39_032, 86, 8);
    let no_links = LARGEST.with_links(64, 0, 0).with_buffers(4216, 86, 8);
    vec![
        (
            "no links, no log",
            PAIR.with_links(2, 0, 0).with_buffers(0, 3, 1),
        ),
        ("no links of 64 radios", no_links),
        ("256 links", LARGEST),
        ("257 links", LARGEST.with_links(64, 4, 1)),
        ("256 links, none at an end", lonely_ends),
        (
            "257 links, none at an end",
            lonely_ends.with_links(62, 4, 9),
        ),
        (
            "the longest log one short",
            lonely_ends.with_buffers(39_031, 86, 8),
        ),
    ]
}

fn numbers_wanted() -> Vec<Case> {
    let wanted =
        |wanted, log, paths, cut| LARGEST.with_wanted(wanted).with_buffers(log, paths, cut);
    vec![
        ("k is 0", PAIR.with_wanted(0)),
        ("k is 1", PAIR),
        ("k is 8", PAIR.with_wanted(8).with_buffers(68, 24, 8)),
        ("k is 9", PAIR.with_wanted(9).with_buffers(76, 27, 9)),
        ("k is 0 of 64 radios", LARGEST.with_wanted(0)),
        ("k is 1 of 64 radios", wanted(1, 6696, 65, 1)),
        ("k is 7 of 64 radios", wanted(7, 33_480, 83, 7)),
        ("k is 9 of 64 radios", wanted(9, 39_040, 96, 16)),
        ("k is huge", PAIR.with_wanted(HUGE)),
        ("k is the largest number", PAIR.with_wanted(LARGEST_NUMBER)),
    ]
}

fn ends() -> Vec<Case> {
    let linked_ends = LARGEST.with_ends(0, 63).with_buffers(38_012, 86, 8);
    vec![
        ("S is n", PAIR.with_ends(2, 1)),
        ("T is n", PAIR.with_ends(0, 2)),
        ("S is T", PAIR.with_ends(1, 1)),
        ("S and T are n", PAIR.with_ends(2, 2)),
        ("S is huge", PAIR.with_ends(HUGE, 1)),
        ("T is huge", PAIR.with_ends(0, HUGE)),
        ("S is the largest number", PAIR.with_ends(LARGEST_NUMBER, 1)),
        ("T is the largest number", PAIR.with_ends(0, LARGEST_NUMBER)),
        ("T is before S", PAIR.with_ends(1, 0)),
        ("S is n of 64 radios", LARGEST.with_ends(64, 32)),
        ("T is n of 64 radios", LARGEST.with_ends(0, 64)),
        ("S is the last of 64 radios", LARGEST.with_ends(63, 32)),
        ("T is the last and linked to S", linked_ends),
    ]
}

fn small_buffers() -> Vec<Case> {
    let lent = |log, paths, cut| PAIR.with_buffers(log, paths, cut);
    vec![
        ("small log one short", lent(11, 3, 1)),
        ("small paths one short", lent(12, 2, 1)),
        ("small cut one short", lent(12, 3, 0)),
        ("small buffers exactly enough", lent(12, 3, 1)),
        ("small log one longer", lent(13, 3, 1)),
        ("small paths one longer", lent(12, 4, 1)),
        ("small cut one longer", lent(12, 3, 2)),
        ("small buffers all longer", lent(39_040, 96, 16)),
        ("no buffers", lent(0, 0, 0)),
    ]
}

fn large_buffers() -> Vec<Case> {
    let lent = |log, paths, cut| LARGEST.with_buffers(log, paths, cut);
    vec![
        ("large log one short", lent(37_943, 86, 8)),
        ("large paths one short", lent(37_944, 85, 8)),
        ("large cut one short", lent(37_944, 86, 7)),
        ("all large buffers one short", lent(37_943, 85, 7)),
        ("large buffers exactly enough", lent(37_944, 86, 8)),
        ("large log one longer", lent(37_945, 86, 8)),
        ("large paths one longer", lent(37_944, 87, 8)),
        ("large cut one longer", lent(37_944, 86, 9)),
        ("large buffers all longer", lent(39_040, 96, 16)),
    ]
}

/// Each call with the one before it in the same buffers.
fn runs_after_runs() -> Vec<Case> {
    let refused = LARGEST.with_wanted(9);
    // A circle with two ways around it: two paths and a cut of two.
    let two_ways = LARGEST.with_links(64, 1, 0);
    let half_handhelds = LARGEST.with_hands(32);
    let pairs = [
        (refused, "accepted after refused", LARGEST),
        (LARGEST, "refused after accepted", refused),
        (refused, "refused after refused", refused),
        (LARGEST, "accepted after the same", LARGEST),
        (LARGEST, "fewer paths after more", two_ways),
        (two_ways, "more paths after fewer", LARGEST),
        (two_ways, "no cut after a cut", two_ways.with_wanted(2)),
        (LARGEST, "handhelds after none", half_handhelds),
        (half_handhelds, "no handhelds after some", LARGEST),
        (LARGEST, "small buffers after large", PAIR),
    ];
    pairs
        .into_iter()
        .flat_map(|(first, name, second)| {
            [
                ("before the next", first),
                (name, second.with_kept_buffers()),
            ]
        })
        .collect()
}

fn all_cases() -> Vec<Case> {
    [
        numbers_of_radios(),
        tables(),
        cell_values(),
        single_handhelds(),
        many_handhelds(),
        bad_cells_of_handhelds(),
        mirror_cells(),
        numbers_of_links(),
        numbers_wanted(),
        ends(),
        small_buffers(),
        large_buffers(),
        runs_after_runs(),
    ]
    .concat()
}

/// Every case as the program `edges` reads it, one line each.
pub fn write_calls() -> String {
    all_cases().iter().map(write_call).collect()
}

/// Every case with its result, one line each. An error is a failed check.
pub fn write_edges() -> Result<String, String> {
    all_cases().iter().map(write_case).collect()
}

/// The name and fifteen numbers, parted by TABs.
fn write_call((name, plan): &Case) -> String {
    let (spoiled, held) = plan.spoiled.unwrap_or((NOWHERE, 0));
    let numbers = [
        plan.radios,
        plan.cells,
        plan.source,
        plan.destination,
        plan.wanted,
        plan.lengths.log,
        plan.lengths.paths,
        plan.lengths.cut,
        plan.circle,
        plan.reach,
        plan.spokes,
        plan.hands,
        spoiled,
        usize::from(held),
        usize::from(plan.kept),
    ];
    let columns: String = numbers.iter().map(|number| format!("\t{number}")).collect();
    format!("{name}{columns}\n")
}

fn write_case((name, plan): &Case) -> Result<String, String> {
    let left = match judge_call(&plan.call()) {
        Err(refusal) => Left::refused(refusal),
        Ok(question) => {
            let outcome = run_checked(&question)?;
            Left {
                numbers: [
                    0,
                    0,
                    outcome.paths.len(),
                    outcome.rounds,
                    outcome.messages(),
                ],
                log: outcome.log_bytes(),
                paths: outcome.path_bytes(),
                cut: outcome.cut_bytes(),
            }
        }
    };
    Ok(format!(
        "{name}: {} => {}\n",
        write_asked(plan),
        left.write(plan.lengths)
    ))
}

fn write_asked(plan: &Plan) -> String {
    format!(
        "n={} cells={} S={} T={} k={} log={} paths={} cut={}",
        plan.radios,
        plan.cells,
        plan.source,
        plan.destination,
        plan.wanted,
        plan.lengths.log,
        plan.lengths.paths,
        plan.lengths.cut
    )
}

/// What a call leaves: refusal, place, paths, rounds and messages, and the used bytes.
struct Left {
    numbers: [usize; 5],
    log: Vec<u8>,
    paths: Vec<u8>,
    cut: Vec<u8>,
}

impl Left {
    /// A refused run sets all three buffers to 0 throughout and all counts to 0.
    fn refused(refusal: Refusal) -> Left {
        Left {
            numbers: [refusal.number(), refusal.place(), 0, 0, 0],
            log: Vec::new(),
            paths: Vec::new(),
            cut: Vec::new(),
        }
    }

    /// A log can have thousands of messages: how far its last byte that is not 0 stands, and a sum
    /// over every byte.
    fn write(mut self, lengths: Lengths) -> String {
        let [refusal, place, paths, rounds, messages] = self.numbers;
        let used = self
            .log
            .iter()
            .rposition(|&byte| byte != 0)
            .map_or(0, |last| last + 1);
        self.log.resize(lengths.log, 0);
        format!(
            "refusal={refusal} place={place} p={paths} rounds={rounds} messages={messages} \
             log={}:{used}:{} paths={}:{} cut={}:{}",
            lengths.log,
            sum(&self.log),
            lengths.paths,
            write_bytes(&self.paths),
            lengths.cut,
            write_bytes(&self.cut)
        )
    }
}

/// Each byte counts by its place.
fn sum(bytes: &[u8]) -> u64 {
    bytes.iter().fold(1, |total, &byte| {
        (total * SUM_FACTOR + u64::from(byte)) % SUM_MODULUS
    })
}
