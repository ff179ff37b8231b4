//! Chance that is the same on every machine.

/// A small source of chance (the splitmix step), so that a seed names its calls on every machine.
pub struct Chance {
    pub state: u64,
}

impl Chance {
    /// From the seed and the number of a case alone, so that one case can be made again by itself.
    pub fn numbered(seed: u64, number: usize) -> Chance {
        let mut chance = Chance { state: seed };
        Chance {
            state: chance.next() ^ (number as u64).wrapping_mul(0xD134_2543_DE82_EF95),
        }
    }

    pub fn next(&mut self) -> u64 {
        self.state = self.state.wrapping_add(0x9E37_79B9_7F4A_7C15);
        let mut mixed = self.state;
        mixed = (mixed ^ (mixed >> 30)).wrapping_mul(0xBF58_476D_1CE4_E5B9);
        mixed = (mixed ^ (mixed >> 27)).wrapping_mul(0x94D0_49BB_1331_11EB);
        mixed ^ (mixed >> 31)
    }

    pub fn below(&mut self, limit: usize) -> usize {
        (self.next() % limit as u64) as usize
    }

    pub fn between(&mut self, least: usize, most: usize) -> usize {
        least + self.below(most - least + 1)
    }

    pub fn one_in(&mut self, number: usize) -> bool {
        self.below(number) == 0
    }

    pub fn shuffle<Item>(&mut self, items: &mut [Item]) {
        for place in (1..items.len()).rev() {
            items.swap(place, self.below(place + 1));
        }
    }

    pub fn one_of<Item: Copy>(&mut self, items: &[Item]) -> Item {
        items[self.below(items.len())]
    }
}
