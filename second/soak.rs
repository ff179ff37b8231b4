//! Document 01's "many random maps", and all maps of few radios, run through every check.

use std::time::{Duration, Instant};

use crate::map::{Map, Question, FEWEST_RADIOS, MOST_LINKS, MOST_RADIOS, MOST_WANTED};
use crate::outcome::run_checked;
use crate::refusals::{judge_call, lengths_needed, Call, Lengths, Refusal};
use crate::sheet::judge_text;

const BETWEEN_PROGRESS_LINES: Duration = Duration::from_secs(5);
/// All maps of so many radios take an hour, and of more too long.
pub const MOST_RADIOS_FOR_EVERY: usize = 6;

/// What the runs showed, for the line at the end.
#[derive(Default)]
struct Tally {
    last_progress_line: Option<Instant>,
    runs: usize,
    full: usize,
    messages: usize,
    most_messages: usize,
    at_the_bound: usize,
    with_rings: usize,
    fewest_radios_with_ring: Option<usize>,
}

impl Tally {
    fn run(&mut self, question: &Question) -> Result<(), String> {
        let outcome = run_checked(question)?;
        let messages = outcome.messages();
        let bound = (2 * outcome.rounds + 1) * question.number_of_steps();
        self.runs += 1;
        self.full += usize::from(outcome.paths.len() == question.wanted);
        self.messages += messages;
        self.most_messages = self.most_messages.max(messages);
        self.at_the_bound += usize::from(messages > 0 && messages == bound);
        if outcome.steps_in_rings > 0 {
            self.with_rings += 1;
            let fewest = self.fewest_radios_with_ring.unwrap_or(question.map.radios);
            self.fewest_radios_with_ring = Some(fewest.min(question.map.radios));
        }
        self.show_progress();
        Ok(())
    }

    /// A line now and then where the runs take long; the first comes after the first wait.
    fn show_progress(&mut self) {
        let last = *self.last_progress_line.get_or_insert_with(Instant::now);
        if last.elapsed() >= BETWEEN_PROGRESS_LINES {
            eprintln!("{} runs so far", self.runs);
            self.last_progress_line = Some(Instant::now());
        }
    }

    fn write(&self) -> String {
        let rings = match self.fewest_radios_with_ring {
            None => "no run left a ring".to_string(),
            Some(radios) => format!(
                "{} runs left a ring, the smallest map {radios} radios",
                self.with_rings
            ),
        };
        format!(
            "{} runs held against every check: {} full, {} short; \
             {} messages, at most {} in a run, {} runs at the bound; {rings}\n",
            self.runs,
            self.full,
            self.runs - self.full,
            self.messages,
            self.most_messages,
            self.at_the_bound
        )
    }
}

/// Random maps: COUNT runs, the same for the same seed.
pub fn soak(count: usize, seed: u64) -> Result<String, String> {
    let mut chance = Chance { state: seed };
    let mut tally = Tally::default();
    for _ in 0..count {
        let question = random_question(&mut chance);
        tally.run(&question)?;
        check_lengths_on_both_sides(&question)?;
        check_text_reads_back(&question, &mut chance)?;
        check_ends_are_ordinary(&question)?;
    }
    Ok(tally.write())
}

/// Every map of that many radios, every S and T, every k that can matter and one more. The cells
/// on the diagonal are chosen with the others: every set of radios is one of handhelds.
pub fn every(radios: usize) -> Result<String, String> {
    let cells: Vec<(usize, usize)> = (0..radios)
        .flat_map(|upper| (0..=upper).map(move |lower| (lower, upper)))
        .collect();
    let mut tally = Tally::default();
    for choice in 0..1usize << cells.len() {
        let mut map = Map::without_links(radios);
        for (place, &(lower, upper)) in cells.iter().enumerate() {
            if choice >> place & 1 == 1 {
                map.take_cell(lower, upper);
            }
        }
        run_all_questions(&map, &mut tally)?;
    }
    Ok(tally.write())
}

/// No map has more than n − 1 disjoint paths, so k = n is short everywhere.
fn run_all_questions(map: &Map, tally: &mut Tally) -> Result<(), String> {
    for source in 0..map.radios {
        for destination in (0..map.radios).filter(|&radio| radio != source) {
            for wanted in 1..=map.radios.min(MOST_WANTED) {
                tally.run(&Question {
                    map: map.clone(),
                    source,
                    destination,
                    wanted,
                })?;
            }
        }
    }
    Ok(())
}

/// Exactly enough is accepted, one byte less is 7 or 8.
fn check_lengths_on_both_sides(question: &Question) -> Result<(), String> {
    let needed = lengths_needed(question);
    let mut cases = vec![
        (needed, None),
        (
            Lengths {
                paths: needed.paths - 1,
                ..needed
            },
            Some(Refusal::ListTooShort),
        ),
        (
            Lengths {
                cut: needed.cut - 1,
                ..needed
            },
            Some(Refusal::ListTooShort),
        ),
    ];
    if needed.log > 0 {
        cases.push((
            Lengths {
                log: needed.log - 1,
                ..needed
            },
            Some(Refusal::LogTooShort),
        ));
    }
    for (lengths, expected) in cases {
        let call = Call {
            radios: question.map.radios,
            table: question.map.table(),
            source: question.source,
            destination: question.destination,
            wanted: question.wanted,
            lengths,
        };
        let got = judge_call(&call).err();
        if got != expected {
            return Err(format!(
                "{lengths:?}: expected {expected:?}, got {got:?}\n  case: {}",
                question.describe()
            ));
        }
    }
    Ok(())
}

/// The map written as a capture text, its lines in any order, is read back as it was.
fn check_text_reads_back(question: &Question, chance: &mut Chance) -> Result<(), String> {
    let (radios, wanted) = (question.map.radios, question.wanted);
    let links = question.map.links().into_iter();
    let hands = question.map.handhelds().into_iter();
    let mut lines: Vec<String> = links
        .map(|(lower, upper)| format!("link\t{lower}\t{upper}\n"))
        .chain(hands.map(|radio| format!("hand\t{radio}\n")))
        .collect();
    chance.shuffle(&mut lines);
    let text = format!(
        "net\t1\t{radios}\t{}\t{}\t{wanted}\n{}",
        question.source,
        question.destination,
        lines.concat()
    );
    match judge_text(text.as_bytes()) {
        Ok((1, ref read)) if read == question => Ok(()),
        other => Err(format!(
            "the capture text was read as {other:?}\n  case: {}",
            question.describe()
        )),
    }
}

/// As S or T a handheld is an ordinary radio: all is the same where S and T turn from the one into
/// the other.
fn check_ends_are_ordinary(question: &Question) -> Result<(), String> {
    let mut map = Map::without_links(question.map.radios);
    for (lower, upper) in question.map.links() {
        map.link(lower, upper);
    }
    for radio in 0..map.radios {
        if question.map.is_handheld(radio) == question.is_inner(radio) {
            map.make_handheld(radio);
        }
    }
    let turned = Question {
        map,
        ..question.clone()
    };
    let left = |question: &Question| {
        let outcome = run_checked(question)?;
        let lists = [outcome.path_bytes(), outcome.cut_bytes()];
        Ok::<_, String>((outcome.log_bytes(), lists, outcome.rounds))
    };
    if left(question)? == left(&turned)? {
        return Ok(());
    }
    Err(format!(
        "S or T as a handheld is no ordinary radio\n  case: {}",
        question.describe()
    ))
}

/// A small source of chance (the splitmix step), so that a seed names its maps on every machine.
struct Chance {
    state: u64,
}

impl Chance {
    fn next(&mut self) -> u64 {
        self.state = self.state.wrapping_add(0x9E37_79B9_7F4A_7C15);
        let mut mixed = self.state;
        mixed = (mixed ^ (mixed >> 30)).wrapping_mul(0xBF58_476D_1CE4_E5B9);
        mixed = (mixed ^ (mixed >> 27)).wrapping_mul(0x94D0_49BB_1331_11EB);
        mixed ^ (mixed >> 31)
    }

    fn below(&mut self, limit: usize) -> usize {
        (self.next() % limit as u64) as usize
    }

    fn between(&mut self, least: usize, most: usize) -> usize {
        least + self.below(most - least + 1)
    }

    fn shuffle<Item>(&mut self, items: &mut [Item]) {
        for place in (1..items.len()).rev() {
            items.swap(place, self.below(place + 1));
        }
    }
}

/// Half of the maps are small, where all cuts are tried as well.
fn random_question(chance: &mut Chance) -> Question {
    let most = if chance.below(2) == 0 {
        12
    } else {
        MOST_RADIOS
    };
    let radios = chance.between(FEWEST_RADIOS, most);
    let mut pairs = match chance.below(4) {
        0 => scattered_pairs(chance, radios),
        1 => tree_with_more(chance, radios),
        2 => layered_pairs(chance, radios),
        _ => grid_pairs(chance, radios),
    };
    chance.shuffle(&mut pairs);
    let mut names: Vec<usize> = (0..radios).collect();
    if chance.below(2) == 0 {
        chance.shuffle(&mut names);
    }
    let (source, destination) = random_ends(chance, radios);
    let wanted = chance.between(1, MOST_WANTED);
    let mut question = Question {
        map: map_of_pairs(radios, &pairs, &names),
        source: names[source],
        destination: names[destination],
        wanted,
    };
    if chance.below(2) == 0 {
        add_handhelds(chance, &mut question);
    }
    question
}

/// From few inner radios to all of them; S and T by themselves or with those.
fn add_handhelds(chance: &mut Chance, question: &mut Question) {
    let percent = match chance.below(6) {
        0 => 0,
        1 => 100,
        2 => chance.between(1, 100),
        _ => chance.between(1, 25),
    };
    for radio in 0..question.map.radios {
        let is_handheld = match question.is_inner(radio) {
            true => chance.below(100) < percent,
            false => chance.below(3) == 0,
        };
        if is_handheld {
            question.map.make_handheld(radio);
        }
    }
}

/// Often the far ends, so that layers and grids lie between S and T.
fn random_ends(chance: &mut Chance, radios: usize) -> (usize, usize) {
    if chance.below(2) == 0 {
        return (0, radios - 1);
    }
    let source = chance.below(radios);
    let destination = (source + chance.between(1, radios - 1)) % radios;
    (source, destination)
}

/// The first pairs up to the limit of links.
fn map_of_pairs(radios: usize, pairs: &[(usize, usize)], names: &[usize]) -> Map {
    let mut map = Map::without_links(radios);
    let mut links = 0;
    for &(one, other) in pairs {
        if links < MOST_LINKS && !map.linked(names[one], names[other]) {
            map.link(names[one], names[other]);
            links += 1;
        }
    }
    map
}

/// Each pair with the same chance, from nearly none to all.
fn scattered_pairs(chance: &mut Chance, radios: usize) -> Vec<(usize, usize)> {
    let percent = chance.between(1, 100);
    let mut pairs = Vec::new();
    for upper in 0..radios {
        for lower in 0..upper {
            if chance.below(100) < percent {
                pairs.push((lower, upper));
            }
        }
    }
    pairs
}

fn tree_with_more(chance: &mut Chance, radios: usize) -> Vec<(usize, usize)> {
    let mut pairs: Vec<(usize, usize)> = (1..radios)
        .map(|upper| (chance.below(upper), upper))
        .collect();
    for _ in 0..chance.below(2 * radios) {
        let upper = chance.between(1, radios - 1);
        pairs.push((chance.below(upper), upper));
    }
    pairs
}

/// Links only between near numbers: long ways on which later tokens walk back.
fn layered_pairs(chance: &mut Chance, radios: usize) -> Vec<(usize, usize)> {
    let reach = chance.between(1, 8);
    let percent = chance.between(30, 100);
    let mut pairs = Vec::new();
    for upper in 0..radios {
        for lower in upper.saturating_sub(reach)..upper {
            if chance.below(100) < percent {
                pairs.push((lower, upper));
            }
        }
    }
    pairs
}

fn grid_pairs(chance: &mut Chance, radios: usize) -> Vec<(usize, usize)> {
    let width = chance.between(1, 8);
    let mut pairs = Vec::new();
    for radio in 0..radios {
        if (radio + 1) % width != 0 && radio + 1 < radios {
            pairs.push((radio, radio + 1));
        }
        if radio + width < radios {
            pairs.push((radio, radio + width));
        }
    }
    pairs
}
