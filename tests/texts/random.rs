//! Random texts of captures, sound, at fault in their numbers, and damaged as files are.
//! A text comes from the seed and its number alone.

use std::collections::HashSet;

use crate::capture::write_capture;
use crate::chance::Chance;
use crate::map::{MOST_LINKS, MOST_WANTED};
use crate::shapes::{number_of_radios, random_ends, random_handhelds, random_pairs};
use crate::sheet::{Record, MOST_BYTES};

/// Every third text is damaged.
const DAMAGED_ONE_IN: usize = 3;
/// So often a text comes in parts, so that one read of the program does not get it whole.
const IN_PARTS_ONE_IN: usize = 25;
/// The largest number that a text may hold.
const LARGEST_NUMBER: usize = 65_535;

pub struct Text {
    pub bytes: Vec<u8>,
    pub has_hands: bool,
    pub is_damaged: bool,
    pub in_parts: bool,
}

pub fn text_of(seed: u64, number: usize) -> Text {
    let mut chance = Chance::numbered(seed, number);
    let mut plan = sound_plan(&mut chance);
    if chance.one_in(3) {
        for _ in 0..chance.one_of(&[1, 1, 1, 2, 3]) {
            plan.spoil(&mut chance);
        }
    }
    let mut bytes = plan.write();
    let is_hand = |record: &Record| matches!(record, Record::Hand { .. });
    let has_hands = plan.records.iter().any(is_hand);
    if chance.one_in(20) {
        let length = MOST_BYTES - 1 + chance.below(3);
        add_lines_up_to(&mut bytes, length, &mut chance);
    }
    let is_damaged = number % DAMAGED_ONE_IN == DAMAGED_ONE_IN - 1;
    if is_damaged {
        for _ in 0..chance.one_of(&[1, 1, 1, 1, 2, 3]) {
            damage(&mut bytes, &mut chance);
        }
    }
    Text {
        bytes,
        has_hands,
        is_damaged,
        in_parts: chance.one_in(IN_PARTS_ONE_IN),
    }
}

/// A capture before it is written. Its numbers may be at fault: the program is to judge them.
struct Plan {
    capture: usize,
    radios: usize,
    source: usize,
    destination: usize,
    wanted: usize,
    records: Vec<Record>,
}

/// In order but for the number of links, which may be above 256.
fn sound_plan(chance: &mut Chance) -> Plan {
    let radios = number_of_radios(chance);
    let most_links = match chance.below(10) {
        0 => MOST_LINKS + 1,
        1 => MOST_LINKS + 1 + chance.below(300),
        2 => chance.below(MOST_LINKS),
        _ => MOST_LINKS,
    };
    let mut names: Vec<usize> = (0..radios).collect();
    if chance.one_in(2) {
        chance.shuffle(&mut names);
    }
    let mut seen = HashSet::new();
    let mut records: Vec<Record> = random_pairs(chance, radios)
        .into_iter()
        .map(|(one, other)| link_between(names[one], names[other]))
        .filter(|&link| seen.insert(link))
        .collect();
    records.truncate(most_links);
    let ends @ (source, destination) = random_ends(chance, radios);
    let handhelds = random_handhelds(chance, radios, ends).into_iter();
    let hands = handhelds.map(|radio| Record::Hand {
        radio: names[radio],
    });
    mix_in(&mut records, hands.collect(), chance);
    Plan {
        capture: chance.one_of(&[0, 1, 7, 9, 10, 255, 256, 9_999, 10_000, LARGEST_NUMBER]),
        radios,
        source: names[source],
        destination: names[destination],
        // Few maps have many paths; few wanted make sheets that are full.
        wanted: chance.one_of(&[1, 1, 2, 2, 3, 4, 5, 6, 7, MOST_WANTED]),
        records,
    }
}

fn link_between(one: usize, other: usize) -> Record {
    Record::Link {
        first: one.min(other),
        second: one.max(other),
    }
}

/// The hand lines after the links, before them, or anywhere among them.
fn mix_in(records: &mut Vec<Record>, hands: Vec<Record>, chance: &mut Chance) {
    let links = records.len();
    records.extend(hands);
    match chance.below(4) {
        0 => {}
        1 => records.rotate_left(links),
        _ => chance.shuffle(records),
    }
}

impl Plan {
    fn write(&self) -> Vec<u8> {
        let first_line = [
            self.capture,
            self.radios,
            self.source,
            self.destination,
            self.wanted,
        ];
        write_capture(first_line, &self.records).into_bytes()
    }

    /// Puts one fault into the numbers; what is already at fault may be made sound by chance.
    fn spoil(&mut self, chance: &mut Chance) {
        match chance.below(8) {
            0 => {
                self.radios = chance.one_of(&[
                    0,
                    1,
                    65,
                    66,
                    self.radios.saturating_sub(1),
                    self.radios + 256,
                    LARGEST_NUMBER,
                ])
            }
            1 => self.spoil_ends(chance),
            2 => {
                self.wanted =
                    chance.one_of(&[0, 9, 10, 255, 256, self.wanted + 256, LARGEST_NUMBER])
            }
            3 | 4 => self.spoil_hands(chance),
            _ => self.spoil_links(chance),
        }
    }

    fn spoil_ends(&mut self, chance: &mut Chance) {
        let beyond = [
            self.radios,
            self.radios + 1,
            64,
            255,
            256,
            self.source + 256,
            LARGEST_NUMBER,
        ];
        match chance.below(3) {
            0 => self.source = chance.one_of(&beyond),
            1 => self.destination = chance.one_of(&beyond),
            _ => self.source = self.destination,
        }
    }

    /// Turned round, to itself, to no radio, or one that came before, in the same order or turned.
    fn spoil_links(&mut self, chance: &mut Chance) {
        let links = self.records.iter().filter_map(|record| match *record {
            Record::Link { first, second } => Some((first, second)),
            Record::Hand { .. } => None,
        });
        let links: Vec<(usize, usize)> = links.collect();
        let (first, second) = match links.is_empty() {
            true => (1, 0),
            false => self.spoiled_link(chance.one_of(&links), chance),
        };
        self.insert(Record::Link { first, second }, chance);
    }

    fn spoiled_link(&self, link: (usize, usize), chance: &mut Chance) -> (usize, usize) {
        let (first, second) = link;
        match chance.below(8) {
            0 => (second, first),
            1 => (first, first),
            2 => (first, self.radios),
            3 => (first, second + 256),
            4 => (first + 256, second + 256),
            5 => (first, LARGEST_NUMBER),
            _ => link,
        }
    }

    /// Twice the same radio, which may be one that is named already, or no radio of the map.
    fn spoil_hands(&mut self, chance: &mut Chance) {
        let any = chance.below(self.radios.max(1));
        let beyond = [self.radios, self.radios + 1, any + 256, LARGEST_NUMBER];
        let (radio, times) = match chance.below(2) {
            0 => (any, 2),
            _ => (chance.one_of(&beyond), 1),
        };
        for _ in 0..times {
            self.insert(Record::Hand { radio }, chance);
        }
    }

    fn insert(&mut self, record: Record, chance: &mut Chance) {
        let anywhere = random_place(chance, self.records.len());
        let place = chance.one_of(&[0, anywhere, self.records.len()]);
        self.records.insert(place, record);
    }
}

fn random_place(chance: &mut Chance, length: usize) -> usize {
    chance.below(length + 1)
}

/// Lines of the right shape until the text has exactly so many bytes. One shorter than the
/// shortest line is left as it is.
fn add_lines_up_to(bytes: &mut Vec<u8>, length: usize, chance: &mut Chance) {
    const SHORTEST: usize = 9;
    const LONGEST: usize = 17;
    while bytes.len() + SHORTEST <= length {
        let left = length - bytes.len();
        let line = if left <= LONGEST {
            left
        } else {
            (SHORTEST + chance.below(3)).min(left - SHORTEST)
        };
        // Two numbers of one digit each, and what is left over shared between them.
        let more = line - SHORTEST;
        let first_more = more / 2;
        let first = number_of_digits(1 + first_more, chance);
        let second = number_of_digits(1 + more - first_more, chance);
        bytes.extend_from_slice(format!("link\t{first}\t{second}\n").as_bytes());
    }
}

fn number_of_digits(digits: usize, chance: &mut Chance) -> usize {
    let least = if digits == 1 {
        0
    } else {
        10_usize.pow(digits as u32 - 1)
    };
    let most = (10_usize.pow(digits as u32) - 1).min(LARGEST_NUMBER);
    chance.between(least, most)
}

// ---- damage, as a file or a line may suffer it

/// Bytes that a careless reader may take for something else.
const BYTES: [u8; 16] = [
    0, b'\t', b'\n', b'\r', b' ', b'0', b'1', b'9', b'-', b'+', b'/', b':', b'l', b'N', 0x80, 0xFF,
];

const FIELDS: [&str; 17] = [
    "",
    "0",
    "00",
    "01",
    "-1",
    "+1",
    "1.0",
    "0x1",
    "256",
    "65535",
    "65536",
    "65537",
    "99999",
    "100000",
    "4294967297",
    "18446744073709551617",
    "\u{0661}",
];

const WORDS: [&str; 9] = [
    "net",
    "link",
    "nets",
    "ne",
    "Link",
    "LINK",
    "hand",
    "Hand",
    "\u{feff}net",
];

/// Nearly a hand line; the last has the right shape.
const HAND_LINES: [&str; 16] = [
    "hand\n",
    "hand\t\n",
    "hand\t0\t1\n",
    "hand\t0\t\n",
    "hand\t\t0\n",
    "hand\t00\n",
    "hand\t01\n",
    "hand\t-1\n",
    "hand\t65536\n",
    "hand\t0\r\n",
    "hand 0\n",
    "Hand\t0\n",
    "hands\t0\n",
    "han\t0\n",
    "link\t0\n",
    "hand\t0\n",
];

fn damage(bytes: &mut Vec<u8>, chance: &mut Chance) {
    match chance.below(17) {
        0 => bytes.truncate(random_place(chance, bytes.len())),
        1 => change_byte(bytes, chance),
        2 => bytes.insert(random_place(chance, bytes.len()), chance.one_of(&BYTES)),
        3 => remove_byte(bytes, chance),
        4 => double_field(bytes, chance),
        5 | 6 => change_field(bytes, chance),
        7 => insert_before_field(bytes, b"0", chance),
        8 => end_lines_by_two_signs(bytes, chance),
        9 => change_lines(bytes, chance),
        10 => insert_before_field(bytes, b"\t", chance),
        11 => change_word(bytes, chance),
        12 => {
            bytes.pop();
        }
        13 => lengthen(bytes, chance),
        14 => bytes.insert(random_place(chance, bytes.len()), 0),
        15 => insert_line(bytes, chance.one_of(&HAND_LINES).as_bytes(), chance),
        _ => match chance.below(4) {
            0 => bytes.clear(),
            1 => bytes.push(b'\n'),
            2 => bytes.insert(0, b'\n'),
            _ => bytes.extend_from_slice(b"net\t1\t2\t0\t1\t1\n"),
        },
    }
}

fn change_byte(bytes: &mut [u8], chance: &mut Chance) {
    if bytes.is_empty() {
        return;
    }
    let place = chance.below(bytes.len());
    bytes[place] = if chance.one_in(3) {
        chance.below(256) as u8
    } else {
        chance.one_of(&BYTES)
    };
}

fn remove_byte(bytes: &mut Vec<u8>, chance: &mut Chance) {
    if !bytes.is_empty() {
        bytes.remove(chance.below(bytes.len()));
    }
}

/// Where a field of the text begins and ends.
fn random_field(bytes: &[u8], chance: &mut Chance) -> (usize, usize) {
    let parts_fields = |byte: &u8| *byte == b'\t' || *byte == b'\n';
    let mut starts = vec![0];
    starts.extend((1..bytes.len()).filter(|&place| parts_fields(&bytes[place - 1])));
    // The first line and the last are where a reader has most to get wrong.
    let start = match chance.below(4) {
        0 => starts[chance.below(starts.len().min(6))],
        1 => starts[starts.len() - 1 - chance.below(starts.len().min(3))],
        _ => chance.one_of(&starts),
    };
    let end = bytes[start..]
        .iter()
        .position(parts_fields)
        .map_or(bytes.len(), |length| start + length);
    (start, end)
}

fn double_field(bytes: &mut Vec<u8>, chance: &mut Chance) {
    let (start, end) = random_field(bytes, chance);
    let mut doubled = bytes[start..end].to_vec();
    doubled.push(b'\t');
    bytes.splice(start..start, doubled);
}

fn change_field(bytes: &mut Vec<u8>, chance: &mut Chance) {
    let (start, end) = random_field(bytes, chance);
    bytes.splice(start..end, chance.one_of(&FIELDS).bytes());
}

fn insert_before_field(bytes: &mut Vec<u8>, added: &[u8], chance: &mut Chance) {
    let (start, end) = random_field(bytes, chance);
    let place = if chance.one_in(3) { end } else { start };
    bytes.splice(place..place, added.iter().copied());
}

fn lines_of(bytes: &[u8]) -> Vec<Vec<u8>> {
    bytes
        .split_inclusive(|&byte| byte == b'\n')
        .map(<[u8]>::to_vec)
        .collect()
}

/// A carriage return before one line feed, or before all.
fn end_lines_by_two_signs(bytes: &mut Vec<u8>, chance: &mut Chance) {
    let lines = lines_of(bytes);
    let only = chance.one_in(2).then(|| chance.below(lines.len().max(1)));
    let mut changed = Vec::new();
    for (place, line) in lines.iter().enumerate() {
        match line.strip_suffix(b"\n") {
            Some(front) if only.is_none() || only == Some(place) => {
                changed.extend_from_slice(front);
                changed.extend_from_slice(b"\r\n");
            }
            _ => changed.extend_from_slice(line),
        }
    }
    *bytes = changed;
}

/// A line doubled, lost, blank, or in another place.
fn change_lines(bytes: &mut Vec<u8>, chance: &mut Chance) {
    let mut lines = lines_of(bytes);
    if lines.is_empty() {
        return;
    }
    let place = chance.below(lines.len());
    let other = chance.below(lines.len());
    match chance.below(4) {
        0 => lines.insert(other, lines[place].clone()),
        1 => {
            lines.remove(place);
        }
        2 => lines.insert(place, b"\n".to_vec()),
        _ => lines.swap(place, other),
    }
    *bytes = lines.concat();
}

fn insert_line(bytes: &mut Vec<u8>, line: &[u8], chance: &mut Chance) {
    let mut lines = lines_of(bytes);
    lines.insert(random_place(chance, lines.len()), line.to_vec());
    *bytes = lines.concat();
}

fn change_word(bytes: &mut Vec<u8>, chance: &mut Chance) {
    let mut lines = lines_of(bytes);
    if lines.is_empty() {
        return;
    }
    let place = if chance.one_in(2) {
        0
    } else {
        chance.below(lines.len())
    };
    let line = &mut lines[place];
    let end = line
        .iter()
        .position(|&byte| byte == b'\t')
        .unwrap_or(line.len());
    line.splice(..end, chance.one_of(&WORDS).bytes());
    *bytes = lines.concat();
}

/// To both sides of the longest text that is read, and far beyond.
fn lengthen(bytes: &mut Vec<u8>, chance: &mut Chance) {
    let length = chance.one_of(&[
        MOST_BYTES - 1,
        MOST_BYTES,
        MOST_BYTES + 1,
        MOST_BYTES + 2,
        9_000,
        70_000,
    ]);
    let filler = chance.one_of(&[b'\n', b'0', 0, b'l', b'\t']);
    if chance.one_in(2) {
        add_lines_up_to(bytes, length, chance);
    }
    if bytes.len() < length {
        bytes.resize(length, filler);
    }
}
