//! Surveys map Q of the scope paper and prints its paths and its cut.

use std::error::Error;

use fogsignaller::{survey, Map};

const RADIOS: usize = 8;
const LINKS: [(usize, usize); 9] = [
    (0, 1),
    (0, 4),
    (1, 2),
    (1, 6),
    (2, 3),
    (2, 5),
    (3, 4),
    (3, 7),
    (6, 7),
];

fn main() -> Result<(), Box<dyn Error>> {
    let mut map = Map::new(RADIOS)?;
    for (one, other) in LINKS {
        map.link(one, other)?;
    }
    let question = map.question(0, 7, 3);
    let found = survey(&question)?;
    println!(
        "{}: {} of {} paths after {} rounds and {} messages",
        if found.is_full() { "full" } else { "short" },
        found.paths().len(),
        question.wanted,
        found.rounds(),
        found.messages().len()
    );
    for (path, number) in found.paths().zip(1..) {
        let radios: Vec<String> = path.iter().map(u8::to_string).collect();
        println!("path {number}: {}", radios.join(" "));
    }
    for (item, number) in found.cut().zip(1..) {
        println!("cut {number}: {item}");
    }
    Ok(())
}
