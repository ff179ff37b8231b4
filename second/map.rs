//! Document 01, "The map": radios, links, and the numbers of halves and steps.

/// The limits of document 01, each named once.
pub const FEWEST_RADIOS: usize = 2;
pub const MOST_RADIOS: usize = 64;
pub const MOST_LINKS: usize = 256;
pub const MOST_WANTED: usize = 8;

/// Radio v's in half has number 2v.
pub fn in_half(radio: usize) -> usize {
    2 * radio
}

/// Radio v's out half has number 2v+1.
pub fn out_half(radio: usize) -> usize {
    2 * radio + 1
}

pub fn radio_of(half: usize) -> usize {
    half / 2
}

pub fn is_in_half(half: usize) -> bool {
    half % 2 == 0
}

/// Which radios are linked, and which are handhelds: those do not pass on what they hear.
#[derive(Clone, Debug, PartialEq, Eq)]
pub struct Map {
    pub radios: usize,
    /// Symmetric. No radio is linked to itself: the diagonal of a table tells the handhelds.
    links: Vec<bool>,
    handhelds: Vec<bool>,
}

impl Map {
    pub fn without_links(radios: usize) -> Map {
        Map {
            radios,
            links: vec![false; radios * radios],
            handhelds: vec![false; radios],
        }
    }

    pub fn link(&mut self, one: usize, other: usize) {
        assert_ne!(one, other, "no radio is linked to itself");
        self.links[one * self.radios + other] = true;
        self.links[other * self.radios + one] = true;
    }

    pub fn linked(&self, one: usize, other: usize) -> bool {
        self.links[one * self.radios + other]
    }

    pub fn make_handheld(&mut self, radio: usize) {
        self.handhelds[radio] = true;
    }

    /// A cell of the table that holds 1: a link, or on the diagonal a handheld.
    pub fn take_cell(&mut self, row: usize, column: usize) {
        if row == column {
            self.make_handheld(row);
        } else {
            self.link(row, column);
        }
    }

    pub fn is_handheld(&self, radio: usize) -> bool {
        self.handhelds[radio]
    }

    /// The handhelds by rising number, whether S or T is among them or not.
    pub fn handhelds(&self) -> Vec<usize> {
        (0..self.radios)
            .filter(|&radio| self.is_handheld(radio))
            .collect()
    }

    /// The radios linked to this one, by rising number.
    pub fn neighbours(&self, radio: usize) -> Vec<usize> {
        (0..self.radios)
            .filter(|&other| self.linked(radio, other))
            .collect()
    }

    pub fn degree(&self, radio: usize) -> usize {
        self.neighbours(radio).len()
    }

    /// Every link once, the lower radio first.
    pub fn links(&self) -> Vec<(usize, usize)> {
        let mut links = Vec::new();
        for lower in 0..self.radios {
            for upper in lower + 1..self.radios {
                if self.linked(lower, upper) {
                    links.push((lower, upper));
                }
            }
        }
        links
    }

    /// The table of n·n bytes as a caller of the library lends it, a 1 on the diagonal for each
    /// handheld.
    pub fn table(&self) -> Vec<u8> {
        let mut table: Vec<u8> = self.links.iter().map(|&linked| u8::from(linked)).collect();
        for radio in self.handhelds() {
            table[radio * self.radios + radio] = 1;
        }
        table
    }
}

/// What is asked: a map, the source S, the destination T and the wanted number k.
#[derive(Clone, Debug, PartialEq, Eq)]
pub struct Question {
    pub map: Map,
    pub source: usize,
    pub destination: usize,
    pub wanted: usize,
}

impl Question {
    pub fn is_inner(&self, radio: usize) -> bool {
        radio != self.source && radio != self.destination
    }

    /// Every radio but S, T and the handhelds may stand inside a path. As S or T a handheld is an
    /// ordinary radio.
    pub fn forwards(&self, radio: usize) -> bool {
        self.is_inner(radio) && !self.map.is_handheld(radio)
    }

    pub fn ends_are_linked(&self) -> bool {
        self.map.linked(self.source, self.destination)
    }

    /// A = 2m − deg S − deg T + (1 if S and T are linked, else 0) + n − 2 − (handhelds other than S
    /// and T).
    pub fn number_of_steps(&self) -> usize {
        let both_ways = 2 * self.map.links().len();
        let missing = self.map.degree(self.source) + self.map.degree(self.destination);
        let missing_twice = usize::from(self.ends_are_linked());
        let mut handhelds = self.map.handhelds();
        handhelds.retain(|&radio| self.is_inner(radio));
        both_ways + missing_twice - missing + self.map.radios - 2 - handhelds.len()
    }

    /// The case in words, for a line that reports a fault.
    pub fn describe(&self) -> String {
        format!(
            "n={} links={} hands={} S={} T={} k={}",
            self.map.radios,
            write_links(&self.map.links()),
            write_radios(&self.map.handhelds()),
            self.source,
            self.destination,
            self.wanted
        )
    }
}

/// Links as "0-1,0-2", or "none".
pub fn write_links(links: &[(usize, usize)]) -> String {
    let pairs = links.iter().map(|(one, other)| format!("{one}-{other}"));
    or_none(pairs.collect())
}

/// Radios as "1,2", or "none".
fn write_radios(radios: &[usize]) -> String {
    or_none(radios.iter().map(usize::to_string).collect())
}

pub fn or_none(items: Vec<String>) -> String {
    if items.is_empty() {
        return "none".to_string();
    }
    items.join(",")
}
