//! Writes the four files of questions that are measured. The seed is fixed, so they are the same
//! on every machine. Linked with a survey library, which counts the messages of each question.

#[allow(dead_code)]
#[path = "../tests/calls/chance.rs"]
mod chance;
#[path = "../rust/src/raw.rs"]
mod raw;
mod workload;

use std::path::Path;
use std::process::ExitCode;

use chance::Chance;
use workload::Question;

const SEED: u64 = 20_261_115;
const QUESTIONS: usize = 1000;
/// Workload d holds only questions whose run sends more messages than this.
const MANY_MESSAGES: usize = 5000;
/// Nearly every map is taken for d, so this is never reached unless the library is at fault.
const MOST_TRIES: usize = 100 * QUESTIONS;

/// The number of ways side by side in workload d, and the paths wanted there.
const WAYS: usize = 8;

const MAP_Q: [(usize, usize); 9] = [
    (0, 1),
    (0, 4),
    (1, 2),
    (1, 6),
    (2, 3),
    (2, 5),
    (3, 4),
    (3, 7),
    (6, 7),
];

fn main() -> ExitCode {
    let Some(folder) = std::env::args().nth(1) else {
        eprintln!("usage: workloads FOLDER    writes a.questions to d.questions there");
        return ExitCode::from(2);
    };
    match write_all(Path::new(&folder)) {
        Ok(()) => ExitCode::SUCCESS,
        Err(fault) => {
            eprintln!("workloads: {fault}");
            ExitCode::from(1)
        }
    }
}

fn write_all(folder: &Path) -> Result<(), String> {
    let mut chance = Chance { state: SEED };
    let q = question_of_links(8, &MAP_Q, 0, 7, 3);
    write_questions(folder, "a", &[q])?;
    let large: Vec<Question> = (0..QUESTIONS)
        .map(|_| random_question(&mut chance, 64, 256, 8))
        .collect();
    write_questions(folder, "b", &large)?;
    let small: Vec<Question> = (0..QUESTIONS)
        .map(|_| random_question(&mut chance, 16, 24, 3))
        .collect();
    write_questions(folder, "c", &small)?;
    let mut talkative = Vec::new();
    for _ in 0..MOST_TRIES {
        if talkative.len() == QUESTIONS {
            break;
        }
        let question = question_with_crowd(&mut chance);
        if messages_of(&question)? > MANY_MESSAGES {
            talkative.push(question);
        }
    }
    if talkative.len() < QUESTIONS {
        return Err(format!(
            "only {} of {MOST_TRIES} maps sent more than {MANY_MESSAGES} messages",
            talkative.len()
        ));
    }
    write_questions(folder, "d", &talkative)
}

/// Writes the file and a line that says what is in it.
fn write_questions(folder: &Path, name: &str, questions: &[Question]) -> Result<(), String> {
    let mut bytes = Vec::new();
    let mut messages = 0;
    for question in questions {
        let numbers = [
            question.radios,
            question.source,
            question.destination,
            question.wanted,
        ];
        bytes.extend(numbers.map(|number| number as u8));
        bytes.extend(&question.table);
        messages += messages_of(question)?;
    }
    let file = folder.join(format!("{name}.questions"));
    std::fs::write(&file, bytes).map_err(|error| format!("{}: {error}", file.display()))?;
    println!("{name} {} {}", questions.len(), messages / questions.len());
    Ok(())
}

fn messages_of(question: &Question) -> Result<usize, String> {
    let [mut log, mut paths, mut cut] = question.lengths_needed().map(|length| vec![0; length]);
    let asked = raw::Asked {
        radios: question.radios,
        table: &question.table,
        source: question.source,
        destination: question.destination,
        wanted: question.wanted,
    };
    let outcome = raw::fog_survey(&asked, &mut log, &mut paths, &mut cut);
    if outcome.refusal != 0 {
        return Err(format!("a question was refused by number: {outcome:?}"));
    }
    Ok(outcome.messages)
}

fn question_of_links(
    radios: usize,
    links: &[(usize, usize)],
    source: usize,
    destination: usize,
    wanted: usize,
) -> Question {
    let mut table = vec![0; radios * radios];
    for &(one, other) in links {
        table[one * radios + other] = 1;
        table[other * radios + one] = 1;
    }
    Question {
        radios,
        source,
        destination,
        wanted,
        table,
    }
}

/// That many links, every set of them with the same chance, added to those that are given.
fn random_links(
    chance: &mut Chance,
    radios: usize,
    given: Vec<(usize, usize)>,
    number: usize,
) -> Vec<(usize, usize)> {
    let mut links = given;
    while links.len() < number {
        let (one, other) = (chance.below(radios), chance.below(radios));
        let link = (one.min(other), one.max(other));
        if one != other && !links.contains(&link) {
            links.push(link);
        }
    }
    links
}

fn random_question(chance: &mut Chance, radios: usize, links: usize, wanted: usize) -> Question {
    let links = random_links(chance, radios, Vec::new(), links);
    let source = chance.below(radios);
    let destination = (source + 1 + chance.below(radios - 1)) % radios;
    question_of_links(radios, &links, source, destination, wanted)
}

/// A crowd of low numbers hangs on S and leads nowhere; eight ways lead from S to T past it. Lower
/// numbers are tried first, so every round goes through the whole crowd before it finds its path.
fn question_with_crowd(chance: &mut Chance) -> Question {
    let radios = 64;
    let crowd = 40 + chance.below(15);
    let (source, destination) = (crowd, radios - 1);
    let attached = chance.below(crowd);
    let outside = 1 + WAYS + (destination - source - 1);
    let inside = 256 - outside - chance.below(30);
    let mut links = random_links(chance, crowd, Vec::new(), inside);
    links.push((attached, source));
    // The other radios form the eight ways, each next to the way before it in number.
    let first = source + 1;
    for radio in first..destination {
        if radio < first + WAYS {
            links.push((source, radio));
        }
        links.push((radio, (radio + WAYS).min(destination)));
    }
    question_of_links(radios, &links, source, destination, WAYS)
}
