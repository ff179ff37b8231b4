//! A tuned Rust version of the survey and of its records, to measure the proved library against.
//!
//! Sets of radios are 64-bit numbers. The marks are a flow, so a radio on a marked way has one
//! radio before it and one after it; these are kept instead of a table of marks. An in half then
//! has one step to walk, or none if it is a handheld's, so only out halves wait on the stack, and
//! nearly all messages come in twos, which are written by one store. The records are made in one
//! pass over the path list, which is judged on the way. The log, the paths, the cut, the zeros, the
//! records and the refusals are those of the documents, byte for byte.

mod exported;

use exported::{Asked, Lent, Outcome, Route};

const FEWEST_RADIOS: usize = 2;
const MOST_RADIOS: usize = 64;
const MOST_LINKS: usize = 256;
const MOST_WANTED: usize = 8;
const DIRECT_LINK: u8 = 255;

const PDT: u64 = 1;
const PDT_B: u64 = 2;
const PMT: u64 = 3;
const DONE: u64 = 4;

type Radios = u64;

fn only(radio: usize) -> Radios {
    1 << (radio % MOST_RADIOS)
}

fn has(set: Radios, radio: usize) -> bool {
    set & only(radio) != 0
}

/// The lowest radio of a set that is not empty.
fn lowest(set: Radios) -> usize {
    set.trailing_zeros() as usize % MOST_RADIOS
}

fn in_half(radio: usize) -> usize {
    2 * radio
}

fn out_half(radio: usize) -> usize {
    2 * radio + 1
}

/// The links of each radio, and which radios are handhelds.
struct Map {
    rows: [Radios; MOST_RADIOS],
    handhelds: Radios,
}

pub fn survey(asked: &Asked, lent: Lent) -> Outcome {
    let mut map = Map {
        rows: [0; MOST_RADIOS],
        handhelds: 0,
    };
    if let Err(refused) = judge(asked, &lent, &mut map) {
        lent.log.fill(0);
        lent.paths.fill(0);
        lent.cut.fill(0);
        return refused;
    }
    let mut search = Search::on(asked, map);
    let mut log = LogWriter {
        rest: lent.log,
        messages: 0,
        rounds: 0,
    };
    let (mut rounds, mut found) = (0, 0);
    while found < asked.wanted && found == rounds {
        rounds += 1;
        log.set_round(rounds);
        found += usize::from(search.play_round(&mut log));
    }
    let is_short = found < rounds;
    let used = search.walk_done(&mut log, is_short, lent.paths, lent.cut);
    lent.paths[used..].fill(0);
    lent.cut[if is_short { found } else { 0 }..].fill(0);
    let messages = log.end();
    Outcome {
        refusal: 0,
        place: 0,
        paths: found,
        rounds,
        messages,
    }
}

/// As S or T a handheld is an ordinary radio.
fn inner_handhelds(asked: &Asked, map: &Map) -> Radios {
    map.handhelds & !only(asked.source) & !only(asked.destination)
}

/// Refusals 1, 2, the first bad cell's and 4 to 8, in this order; fills the map.
fn judge(asked: &Asked, lent: &Lent, map: &mut Map) -> Result<(), Outcome> {
    let refuse = |number| Err(Outcome::refused(number, 0));
    let (radios, wanted) = (asked.radios, asked.wanted);
    if !(FEWEST_RADIOS..=MOST_RADIOS).contains(&radios) {
        return refuse(1);
    }
    if asked.table.len() != radios * radios {
        return refuse(2);
    }
    let Some(links) = read_map(radios, asked.table, map) else {
        return Err(first_bad_cell(radios, asked.table));
    };
    if links > MOST_LINKS {
        return refuse(4);
    }
    let (source, destination) = (asked.source, asked.destination);
    if source >= radios || destination >= radios || source == destination {
        return refuse(5);
    }
    if wanted == 0 || wanted > MOST_WANTED {
        return refuse(6);
    }
    let rows = &map.rows;
    let at_ends = rows[source].count_ones() + rows[destination].count_ones();
    let direct = usize::from(has(rows[source], destination));
    let missing = at_ends + inner_handhelds(asked, map).count_ones();
    let steps = 2 * links + direct + radios - 2 - missing as usize;
    if lent.log.len() < 4 * (2 * wanted + 1) * steps {
        return refuse(7);
    }
    if lent.paths.len() < radios - 2 + 3 * wanted || lent.cut.len() < wanted {
        return refuse(8);
    }
    Ok(())
}

/// Fills the map and counts the links; nothing where any cell is bad.
fn read_map(radios: usize, table: &[u8], map: &mut Map) -> Option<usize> {
    let mut seen = 0;
    let mut both_ways = 0;
    for (row, cells) in map.rows.iter_mut().zip(table.chunks_exact(radios)) {
        let (eights, rest) = cells.as_chunks::<8>();
        let mut set = 0;
        for (place, eight) in eights.iter().enumerate() {
            let eight = u64::from_le_bytes(*eight);
            seen |= eight;
            set |= gather(eight) << (8 * place);
        }
        for (place, &cell) in rest.iter().enumerate() {
            seen |= u64::from(cell);
            set |= u64::from(cell & 1) << (8 * eights.len() + place);
        }
        *row = set;
        both_ways += set.count_ones() as usize;
    }
    let only_ones_and_zeros = seen & !0x0101_0101_0101_0101 == 0;
    let links = mirrored_links(radios, map)?;
    both_ways -= part_handhelds(map);
    // Each link above the diagonal has its mirror, so equal numbers leave no cell without one.
    (only_ones_and_zeros && both_ways == 2 * links).then_some(links)
}

/// The lowest bits of eight bytes, side by side.
fn gather(eight: u64) -> u64 {
    (eight & 0x0101_0101_0101_0101).wrapping_mul(0x0102_0408_1020_4080) >> 56
}

/// The number of cells above the diagonal that are set; nothing where one of them has no mirror.
/// Those on the diagonal are the handhelds.
fn mirrored_links(radios: usize, map: &mut Map) -> Option<usize> {
    let mut links = 0;
    for (row, &set) in map.rows.iter().enumerate().take(radios) {
        map.handhelds |= set & only(row);
        let mut above = set & !(only(row) << 1).wrapping_sub(1);
        while above != 0 {
            if !has(map.rows[lowest(above)], row) {
                return None;
            }
            above &= above - 1;
            links += 1;
        }
    }
    Some(links)
}

/// Takes the handhelds out of the rows, where they are no links, and tells their number.
fn part_handhelds(map: &mut Map) -> usize {
    let mut left = map.handhelds;
    while left != 0 {
        map.rows[lowest(left)] &= !only(lowest(left));
        left &= left - 1;
    }
    map.handhelds.count_ones() as usize
}

/// Refusal 3 or 13, only after it is known that there is a bad cell.
fn first_bad_cell(radios: usize, table: &[u8]) -> Outcome {
    for row in 0..radios {
        for column in row..radios {
            let place = row * radios + column;
            let (cell, mirror) = (table[place], table[column * radios + row]);
            if cell > 1 {
                return Outcome::refused(3, place);
            }
            if cell != mirror {
                return Outcome::refused(13, place);
            }
        }
    }
    unreachable!("a table was refused and has no bad cell")
}

/// A message's four bytes as a number; the round is added by the writer.
fn message(kind: u64, from: usize, to: usize) -> u64 {
    kind | (from as u64) << 16 | (to as u64) << 24
}

/// A token from an out half to an in half and its return at once. The in half's number stands in
/// two places of the eight bytes, and one product puts it into both.
fn token_and_return(from_out_half: u64, to_radio: usize) -> u64 {
    const IN_HALF_OF_RADIO_1: u64 = 2 << 24 | 2 << 48;
    from_out_half | to_radio as u64 * IN_HALF_OF_RADIO_1
}

/// What all the tokens and returns of one out half share.
fn tokens_of(radio: usize) -> u64 {
    message(PDT, out_half(radio), 0) | message(PDT_B, 0, out_half(radio)) << 32
}

struct LogWriter<'log> {
    rest: &'log mut [u8],
    messages: usize,
    /// The round's byte at its place in two messages side by side.
    rounds: u64,
}

impl LogWriter<'_> {
    fn set_round(&mut self, round: usize) {
        self.rounds = (round as u64) << 8 | (round as u64) << 40;
    }

    fn one(&mut self, message: u64) {
        self.store(((message | self.rounds) as u32).to_le_bytes());
        self.messages += 1;
    }

    fn two(&mut self, first: u64, second: u64) {
        self.both(first | second << 32);
    }

    fn both(&mut self, messages: u64) {
        self.store((messages | self.rounds).to_le_bytes());
        self.messages += 2;
    }

    /// Refusal 7 has made sure of the room.
    fn store<const LENGTH: usize>(&mut self, bytes: [u8; LENGTH]) {
        if let Some((place, rest)) = std::mem::take(&mut self.rest).split_first_chunk_mut() {
            *place = bytes;
            self.rest = rest;
        }
    }

    /// Clears what was not used and tells the number of messages.
    fn end(self) -> usize {
        self.rest.fill(0);
        self.messages
    }
}

/// An out half that waits: what it has not tried, and the in half that sent it its token.
#[derive(Clone, Copy)]
struct Waiting {
    left: Radios,
    own_left: bool,
    radio: u8,
    asker: u8,
}

const NOBODY: Waiting = Waiting {
    left: 0,
    own_left: false,
    radio: 0,
    asker: 0,
};

struct Search {
    rows: [Radios; MOST_RADIOS],
    /// Their in halves send every token back at once, as if they had been entered before.
    dead_ends: Radios,
    source: usize,
    destination: usize,
    /// The radios with a marked step from S.
    first_radios: Radios,
    /// The radios whose own step is marked; only these have a radio before and after them.
    inside_marked: Radios,
    before: [u8; MOST_RADIOS],
    after: [u8; MOST_RADIOS],
    entered_in: Radios,
    entered_out: Radios,
    stack: [Waiting; MOST_RADIOS],
}

impl Search {
    fn on(asked: &Asked, map: Map) -> Search {
        Search {
            dead_ends: inner_handhelds(asked, &map),
            rows: map.rows,
            source: asked.source,
            destination: asked.destination,
            first_radios: 0,
            inside_marked: 0,
            before: [0; MOST_RADIOS],
            after: [0; MOST_RADIOS],
            entered_in: 0,
            entered_out: 0,
            stack: [NOBODY; MOST_RADIOS],
        }
    }

    /// Rule 3 for an out half: the links it can walk, and whether its own step is marked.
    fn waiting(&self, radio: usize, asker: usize) -> Waiting {
        let linked = self.rows[radio] & !only(self.source);
        let own_left = has(self.inside_marked, radio);
        let marked = if radio == self.source {
            self.first_radios
        } else if own_left {
            only(self.after[radio] as usize)
        } else {
            0
        };
        Waiting {
            left: linked & !marked,
            own_left,
            radio: radio as u8,
            asker: asker as u8,
        }
    }

    /// One round; true if it found a path.
    fn play_round(&mut self, log: &mut LogWriter) -> bool {
        self.entered_in = self.dead_ends;
        self.entered_out = only(self.source);
        let mut depth = 0;
        let mut here = self.waiting(self.source, self.source);
        loop {
            let radio = here.radio as usize;
            let tokens = tokens_of(radio);
            // Those entered already send the token back at once.
            while here.left != 0 && has(self.entered_in, lowest(here.left)) {
                log.both(token_and_return(tokens, lowest(here.left)));
                here.left &= here.left - 1;
            }
            let next = if here.left != 0 {
                let next = lowest(here.left);
                here.left &= here.left - 1;
                next
            } else if here.own_left {
                here.own_left = false;
                if has(self.entered_in, radio) {
                    log.both(token_and_return(tokens, radio));
                    continue;
                }
                radio
            } else if depth == 0 {
                return false;
            } else {
                // Nothing left to try: the out half tells the in half, and that the half before it.
                let asker = here.asker as usize;
                depth -= 1;
                here = self.stack[depth % MOST_RADIOS];
                log.two(
                    message(PDT_B, out_half(radio), in_half(asker)),
                    message(PDT_B, in_half(asker), out_half(here.radio as usize)),
                );
                continue;
            };
            let token = message(PDT, out_half(radio), in_half(next));
            if next == self.destination {
                log.two(token, message(PMT, in_half(next), out_half(radio)));
                self.stack[depth % MOST_RADIOS] = here;
                self.turn(log, depth);
                return true;
            }
            self.entered_in |= only(next);
            // The only step an in half can walk: back over the marked link, or inside the radio.
            let beyond = if has(self.inside_marked, next) {
                self.before[next] as usize % MOST_RADIOS
            } else {
                next
            };
            log.two(token, message(PDT, in_half(next), out_half(beyond)));
            if has(self.entered_out, beyond) {
                log.two(
                    message(PDT_B, out_half(beyond), in_half(next)),
                    message(PDT_B, in_half(next), out_half(radio)),
                );
                continue;
            }
            self.entered_out |= only(beyond);
            self.stack[depth % MOST_RADIOS] = here;
            depth += 1;
            here = self.waiting(beyond, next);
        }
    }

    /// Rule 6: the steps from T back to S are turned, each with its PMT. T's PMT is written.
    fn turn(&mut self, log: &mut LogWriter, deepest: usize) {
        let mut reached = self.destination;
        for depth in (0..=deepest).rev() {
            let waiting = self.stack[depth % MOST_RADIOS];
            let radio = waiting.radio as usize % MOST_RADIOS;
            if radio == self.source {
                self.first_radios |= only(reached);
            } else if radio == reached {
                // The own step was walked backwards: the radio is on no way any more.
                self.inside_marked &= !only(radio);
            } else {
                self.after[radio] = reached as u8;
            }
            if radio != reached {
                self.before[reached % MOST_RADIOS] = radio as u8;
            }
            if depth == 0 {
                return;
            }
            let asker = waiting.asker as usize;
            if asker == radio {
                self.inside_marked |= only(radio);
            }
            let sender = self.stack[(depth - 1) % MOST_RADIOS].radio as usize;
            log.two(
                message(PMT, out_half(radio), in_half(asker)),
                message(PMT, in_half(asker), out_half(sender)),
            );
            reached = asker;
        }
    }

    /// Rules 7 and 8 and the cut. Gives the used length of the path list.
    fn walk_done(
        &self,
        log: &mut LogWriter,
        is_short: bool,
        paths: &mut [u8],
        cut: &mut [u8],
    ) -> usize {
        let mut used = 0;
        let mut path = 0;
        let mut firsts = self.first_radios;
        while firsts != 0 {
            let first = lowest(firsts);
            firsts &= firsts - 1;
            used += self.walk_path(log, first, &mut paths[used..]);
            if is_short {
                cut[path] = self.cut_item(first);
            }
            path += 1;
        }
        used
    }

    fn walk_path(&self, log: &mut LogWriter, first: usize, path: &mut [u8]) -> usize {
        path[1] = self.source as u8;
        path[2] = first as u8;
        log.one(message(DONE, out_half(self.source), in_half(first)));
        let mut length = 2;
        let mut here = first;
        while here != self.destination {
            let next = self.after[here] as usize % MOST_RADIOS;
            log.two(
                message(DONE, in_half(here), out_half(here)),
                message(DONE, out_half(here), in_half(next)),
            );
            length += 1;
            path[length] = next as u8;
            here = next;
        }
        path[0] = length as u8;
        length + 1
    }

    /// Where the path with this first radio leaves the entered halves.
    fn cut_item(&self, first: usize) -> u8 {
        if first == self.destination {
            return DIRECT_LINK;
        }
        let mut radio = first;
        loop {
            if !has(self.entered_in, radio) || !has(self.entered_out, radio) {
                return radio as u8;
            }
            let next = self.after[radio] as usize % MOST_RADIOS;
            if next == self.destination {
                return radio as u8;
            }
            radio = next;
        }
    }
}

pub fn routes(radios: usize, count: usize, paths: &[u8], routes: &mut [Route]) -> usize {
    if !(FEWEST_RADIOS..=MOST_RADIOS).contains(&radios) {
        return 1;
    }
    let Some(lent) = routes.get_mut(..radios) else {
        return 20;
    };
    // A refused call changes no record, so they are made here first.
    let mut records = [Route::OFF_PATHS; MOST_RADIOS];
    if count > MOST_WANTED || fill(radios, count, paths, &mut records).is_none() {
        return 21;
    }
    lent.copy_from_slice(&records[..radios]);
    0
}

/// Nothing where the list is not that many disjoint paths.
fn fill(
    radios: usize,
    count: usize,
    paths: &[u8],
    records: &mut [Route; MOST_RADIOS],
) -> Option<()> {
    if count == 0 {
        return Some(());
    }
    let (source, sink) = ends(paths)?;
    if source == sink || usize::from(source.max(sink)) >= radios {
        return None;
    }
    // Radios that no path may go through any more; those beyond n are among them from the start.
    let beyond = !(u64::MAX >> (MOST_RADIOS - radios));
    let mut taken = beyond | only(usize::from(source)) | only(usize::from(sink));
    let mut has_direct = false;
    let mut rest = paths;
    for number in 1..=count as u8 {
        if ends(rest)? != (source, sink) {
            return None;
        }
        let (path, after) = rest[1..].split_at(usize::from(rest[0]));
        rest = after;
        if path.len() == 2 && std::mem::replace(&mut has_direct, true) {
            return None;
        }
        let (mut before, mut here) = (source, path[1]);
        for &next in &path[2..] {
            let radio = usize::from(here);
            if radio >= MOST_RADIOS || has(taken, radio) {
                return None;
            }
            taken |= only(radio);
            records[radio] = Route::on_path(number, before, next);
            (before, here) = (here, next);
        }
    }
    records[usize::from(source)] = Route::SOURCE;
    records[usize::from(sink)] = Route::SINK;
    Some(())
}

/// The first and the last radio of the path that the list begins with.
fn ends(list: &[u8]) -> Option<(u8, u8)> {
    let (&length, rest) = list.split_first()?;
    let path = rest.get(..usize::from(length))?;
    match path {
        [first, .., last] => Some((*first, *last)),
        _ => None,
    }
}
