//! A plain Rust version of the survey and of its records: the documents' rules written straight
//! down.
//!
//! It keeps a byte for each mark and each entered half and looks for the next candidate by going
//! through the table's row, as a first version by hand would. For the record of a radio it looks
//! through the paths.

mod exported;

use exported::{Asked, Lent, Outcome, Route};

const FEWEST_RADIOS: usize = 2;
const MOST_RADIOS: usize = 64;
const MOST_LINKS: usize = 256;
const MOST_WANTED: usize = 8;
const MOST_HALVES: usize = 2 * MOST_RADIOS;
const DIRECT_LINK: u8 = 255;

const PDT: u8 = 1;
const PDT_B: u8 = 2;
const PMT: u8 = 3;
const DONE: u8 = 4;

pub fn survey(asked: &Asked, lent: Lent) -> Outcome {
    lent.log.fill(0);
    lent.paths.fill(0);
    lent.cut.fill(0);
    if let Err(refused) = judge(asked, &lent) {
        return refused;
    }
    let mut search = Search {
        asked,
        marked: [[false; MOST_RADIOS]; MOST_RADIOS],
        entered: [false; MOST_HALVES],
        log: lent.log,
        messages: 0,
        round: 0,
    };
    let mut found = 0;
    while found < asked.wanted && found == search.round {
        search.round += 1;
        if search.play_round() {
            found += 1;
        }
    }
    search.walk_done(found < search.round, lent.paths, lent.cut);
    Outcome {
        refusal: 0,
        place: 0,
        paths: found,
        rounds: search.round,
        messages: search.messages,
    }
}

fn judge(asked: &Asked, lent: &Lent) -> Result<(), Outcome> {
    let refuse = |number| Err(Outcome::refused(number, 0));
    let (n, table) = (asked.radios, asked.table);
    let (s, t, k) = (asked.source, asked.destination, asked.wanted);
    if !(FEWEST_RADIOS..=MOST_RADIOS).contains(&n) {
        return refuse(1);
    }
    if table.len() != n * n {
        return refuse(2);
    }
    let mut links = 0;
    for row in 0..n {
        for column in 0..n {
            let place = row * n + column;
            let cell = table[place];
            if cell > 1 {
                return Err(Outcome::refused(3, place));
            }
            if cell != table[column * n + row] {
                return Err(Outcome::refused(13, place));
            }
            if row < column && cell == 1 {
                links += 1;
            }
        }
    }
    if links > MOST_LINKS {
        return refuse(4);
    }
    if s >= n || t >= n || s == t {
        return refuse(5);
    }
    if k == 0 || k > MOST_WANTED {
        return refuse(6);
    }
    let degree = |radio: usize| (0..n).filter(|&other| asked.linked(radio, other)).count();
    let direct = usize::from(asked.linked(s, t));
    let forwarding = (0..n).filter(|&radio| asked.forwards(radio)).count();
    let steps = 2 * links + direct + forwarding - degree(s) - degree(t);
    if lent.log.len() < 4 * (2 * k + 1) * steps {
        return refuse(7);
    }
    if lent.paths.len() < n - 2 + 3 * k || lent.cut.len() < k {
        return refuse(8);
    }
    Ok(())
}

struct Search<'call> {
    asked: &'call Asked<'call>,
    /// The link step from u's out half to v's in half at [u][v]; the step inside v at [v][v].
    marked: [[bool; MOST_RADIOS]; MOST_RADIOS],
    entered: [bool; MOST_HALVES],
    log: &'call mut [u8],
    messages: usize,
    round: usize,
}

impl Asked<'_> {
    fn linked(&self, one: usize, other: usize) -> bool {
        one != other && self.table[one * self.radios + other] == 1
    }

    /// A handheld, whose own cell is 1, has no step between its halves.
    fn forwards(&self, radio: usize) -> bool {
        let is_end = radio == self.source || radio == self.destination;
        !is_end && self.table[radio * self.radios + radio] == 0
    }
}

impl Search<'_> {
    /// Whether half `from` can walk to the other kind of half of `radio`, now.
    fn can_walk(&self, from: usize, radio: usize) -> bool {
        let (s, t) = (self.asked.source, self.asked.destination);
        let own = from / 2;
        let forwards = (from % 2 == 1) != (own == radio);
        let exists = if own == radio {
            self.asked.forwards(own)
        } else if from % 2 == 1 {
            radio != s && self.asked.linked(own, radio)
        } else {
            radio != t && self.asked.linked(own, radio)
        };
        let marked = if from % 2 == 1 {
            self.marked[own][radio]
        } else {
            self.marked[radio][own]
        };
        exists && marked != forwards
    }

    fn write(&mut self, kind: u8, from: usize, to: usize) {
        let at = 4 * self.messages;
        self.log[at] = kind;
        self.log[at + 1] = self.round as u8;
        self.log[at + 2] = from as u8;
        self.log[at + 3] = to as u8;
        self.messages += 1;
    }

    /// Turns the mark of the step between an in half and an out half.
    fn turn(&mut self, one: usize, other: usize) {
        let (out, into) = if one % 2 == 1 {
            (one, other)
        } else {
            (other, one)
        };
        let mark = &mut self.marked[out / 2][into / 2];
        *mark = !*mark;
    }

    /// One round; true if it found a path.
    fn play_round(&mut self) -> bool {
        let n = self.asked.radios;
        self.entered = [false; MOST_HALVES];
        // The halves that wait, each with the first place of its order not tried. Places 0 to
        // n − 1 are the other radios, place n is the half's own other half.
        let mut waiting = [0usize; MOST_HALVES];
        let mut place = [0usize; MOST_HALVES];
        let mut depth = 0;
        waiting[0] = 2 * self.asked.source + 1;
        self.entered[waiting[0]] = true;
        loop {
            let here = waiting[depth];
            let own = here / 2;
            let mut next = None;
            while next.is_none() && place[depth] <= n {
                let tried = place[depth];
                place[depth] += 1;
                let radio = if tried == n { own } else { tried };
                if (tried == n || tried != own) && self.can_walk(here, radio) {
                    next = Some(2 * radio + (1 - here % 2));
                }
            }
            let Some(next) = next else {
                if depth == 0 {
                    return false;
                }
                depth -= 1;
                self.write(PDT_B, here, waiting[depth]);
                continue;
            };
            self.write(PDT, here, next);
            if next == 2 * self.asked.destination {
                self.entered[next] = true;
                let mut sender = next;
                for &receiver in waiting[..=depth].iter().rev() {
                    self.write(PMT, sender, receiver);
                    self.turn(sender, receiver);
                    sender = receiver;
                }
                return true;
            }
            if self.entered[next] {
                self.write(PDT_B, next, here);
            } else {
                self.entered[next] = true;
                depth += 1;
                waiting[depth] = next;
                place[depth] = 0;
            }
        }
    }

    fn walk_done(&mut self, is_short: bool, paths: &mut [u8], cut: &mut [u8]) {
        let (n, s) = (self.asked.radios, self.asked.source);
        let mut used = 0;
        let mut items = 0;
        for first in 0..n {
            if first == s || !self.marked[s][first] {
                continue;
            }
            let length = self.walk_path(first, &mut paths[used..]);
            if is_short {
                cut[items] = self.cut_item(&paths[used + 1..used + 1 + length]);
                items += 1;
            }
            used += 1 + length;
        }
    }

    fn walk_path(&mut self, first: usize, path: &mut [u8]) -> usize {
        let (n, t) = (self.asked.radios, self.asked.destination);
        path[1] = self.asked.source as u8;
        let mut length = 1;
        let (mut here, mut next) = (self.asked.source, first);
        loop {
            self.write(DONE, 2 * here + 1, 2 * next);
            length += 1;
            path[length] = next as u8;
            if next == t {
                path[0] = length as u8;
                return length;
            }
            self.write(DONE, 2 * next, 2 * next + 1);
            here = next;
            next = (0..n)
                .find(|&other| other != here && self.marked[here][other])
                .unwrap_or(t);
        }
    }

    fn cut_item(&self, path: &[u8]) -> u8 {
        let t = self.asked.destination as u8;
        for (place, &radio) in path.iter().enumerate().skip(1) {
            if !self.entered[2 * radio as usize] {
                return match (radio == t, place) {
                    (false, _) => radio,
                    (true, 1) => DIRECT_LINK,
                    (true, _) => path[place - 1],
                };
            }
            if !self.entered[2 * radio as usize + 1] {
                return radio;
            }
        }
        DIRECT_LINK
    }
}

pub fn routes(radios: usize, count: usize, bytes: &[u8], routes: &mut [Route]) -> usize {
    if !(FEWEST_RADIOS..=MOST_RADIOS).contains(&radios) {
        return 1;
    }
    if routes.len() < radios {
        return 20;
    }
    let Some(paths) = read_paths(count, bytes) else {
        return 21;
    };
    if !are_disjoint(radios, &paths[..count]) {
        return 21;
    }
    for (radio, route) in (0..).zip(&mut routes[..radios]) {
        *route = route_of(radio, &paths[..count]);
    }
    0
}

/// The paths that are there, each of two radios or more; nothing where the list ends too soon.
fn read_paths(count: usize, bytes: &[u8]) -> Option<[&[u8]; MOST_WANTED]> {
    let mut paths = [&bytes[..0]; MOST_WANTED];
    let mut rest = bytes;
    for path in paths.get_mut(..count)? {
        let (&length, after) = rest.split_first()?;
        if length < 2 {
            return None;
        }
        (*path, rest) = after.split_at_checked(usize::from(length))?;
    }
    Some(paths)
}

fn are_disjoint(radios: usize, paths: &[&[u8]]) -> bool {
    for (number, path) in paths.iter().enumerate() {
        let last = path.len() - 1;
        for (place, &radio) in path.iter().enumerate() {
            if usize::from(radio) >= radios || path[..place].contains(&radio) {
                return false;
            }
        }
        for before in &paths[..number] {
            let last_before = before.len() - 1;
            if before[0] != path[0] || before[last_before] != path[last] {
                return false;
            }
            // Two paths without a radio between the ends are one path.
            if last == 1 && last_before == 1 {
                return false;
            }
            if path[1..last].iter().any(|radio| before.contains(radio)) {
                return false;
            }
        }
    }
    true
}

fn route_of(radio: u8, paths: &[&[u8]]) -> Route {
    for (number, path) in (1..).zip(paths) {
        let last = path.len() - 1;
        for (place, &other) in path.iter().enumerate() {
            if other == radio {
                return match place {
                    0 => Route::SOURCE,
                    _ if place == last => Route::SINK,
                    _ => Route::on_path(number, path[place - 1], path[place + 1]),
                };
            }
        }
    }
    Route::OFF_PATHS
}
