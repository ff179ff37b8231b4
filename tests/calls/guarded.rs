//! Lent buffers that stand between guards, so that a write outside of them shows.

use crate::chance::Chance;

const FEWEST_GUARDS: usize = 64;

/// A buffer, filled with what it holds before the call.
pub struct Guarded<Item> {
    items: Vec<Item>,
    guard: Item,
    start: usize,
    length: usize,
}

impl<Item: Copy + PartialEq> Guarded<Item> {
    pub fn new(held: &[Item], guard: Item, chance: &mut Chance) -> Guarded<Item> {
        // Any place in memory will do for the library, even ones not divisible by 8.
        let start = FEWEST_GUARDS + chance.below(8);
        let mut items = vec![guard; start];
        items.extend(held);
        items.resize(items.len() + FEWEST_GUARDS, guard);
        Guarded {
            items,
            guard,
            start,
            length: held.len(),
        }
    }

    pub fn lend(&mut self) -> &mut [Item] {
        &mut self.items[self.start..self.start + self.length]
    }

    pub fn take(self, name: &str) -> Result<Vec<Item>, String> {
        let (before, rest) = self.items.split_at(self.start);
        let (lent, after) = rest.split_at(self.length);
        if before.iter().chain(after).any(|&item| item != self.guard) {
            return Err(format!("the library wrote outside its {name} buffer"));
        }
        Ok(lent.to_vec())
    }
}
