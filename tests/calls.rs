//! Calls the proved library and holds every number and every byte against the second program.
//!
//! Linked with libfogsignaller.a and built from the second program's own modules, so both sides answer
//! the same call in one process. Each call has a number and is made from the seed and that number
//! alone, so a call that differs can be made again by itself.

#[path = "calls/both_sides.rs"]
mod both_sides;
#[allow(dead_code)]
#[path = "texts/capture.rs"]
mod capture;
#[path = "calls/chance.rs"]
mod chance;
#[path = "../second/checks.rs"]
mod checks;
#[path = "calls/guarded.rs"]
mod guarded;
#[path = "../second/halves.rs"]
mod halves;
#[path = "../second/largest.rs"]
mod largest;
#[path = "calls/lines.rs"]
mod lines;
#[allow(dead_code)]
#[path = "../second/map.rs"]
mod map;
#[allow(dead_code)]
#[path = "../second/outcome.rs"]
mod outcome;
#[path = "calls/random.rs"]
mod random_calls;
#[path = "calls/random_routes.rs"]
mod random_routes;
#[path = "../rust/src/raw.rs"]
mod raw;
#[allow(dead_code)]
#[path = "../second/refusals.rs"]
mod refusals;
#[path = "calls/route_sides.rs"]
mod route_sides;
#[path = "../second/routes.rs"]
mod routes;
#[path = "../second/calls.rs"]
mod second_calls;
#[path = "calls/shapes.rs"]
mod shapes;
#[allow(dead_code)]
#[path = "../second/sheet.rs"]
mod sheet;
#[path = "calls/smaller.rs"]
mod smaller;
#[path = "calls/smaller_maps.rs"]
mod smaller_maps;
#[path = "calls/smaller_routes.rs"]
mod smaller_routes;
#[path = "calls/tallies.rs"]
mod tallies;
#[path = "calls/work.rs"]
mod work;

use std::process::ExitCode;

const USAGE: &str = "\
usage: calls random SEED COUNT           COUNT random calls, the same for the same seed
       calls one SEED NUMBER             only the call with that number, as a line with both results
       calls routes random SEED COUNT    COUNT random path lists for fog_routes
       calls routes one SEED NUMBER      only the list with that number
       calls lines                       call lines on standard input, each written with the library's result
";

const EXIT_FAULT: u8 = 1;
const EXIT_USAGE: u8 = 2;

fn main() -> ExitCode {
    let arguments: Vec<String> = std::env::args().skip(1).collect();
    let words: Vec<&str> = arguments.iter().map(String::as_str).collect();
    let Some(result) = answer(&words) else {
        eprint!("{USAGE}");
        return ExitCode::from(EXIT_USAGE);
    };
    match result {
        Ok(()) => ExitCode::SUCCESS,
        Err(fault) => {
            eprintln!("calls: {fault}");
            ExitCode::from(EXIT_FAULT)
        }
    }
}

/// Nothing where the arguments are wrong.
fn answer(words: &[&str]) -> Option<Result<(), String>> {
    match words {
        ["lines"] => Some(lines::answer_lines()),
        [mode @ .., seed, number] => answer_random(mode, seed.parse().ok()?, number.parse().ok()?),
        _ => None,
    }
}

/// The number is how many are tried, or which one.
fn answer_random(mode: &[&str], seed: u64, number: usize) -> Option<Result<(), String>> {
    match mode {
        ["random"] => Some(random_calls(seed, number)),
        ["one"] => Some(one_call(seed, number)),
        ["routes", "random"] => Some(random_route_lists(seed, number)),
        ["routes", "one"] => Some(one_route_list(seed, number)),
        _ => None,
    }
}

fn random_calls(seed: u64, count: usize) -> Result<(), String> {
    work::try_all::<tallies::Surveys>(seed, count)
}

fn random_route_lists(seed: u64, count: usize) -> Result<(), String> {
    work::try_all::<tallies::Routes>(seed, count)
}

fn one_call(seed: u64, number: usize) -> Result<(), String> {
    let trial = random_calls::trial_of(seed, number);
    show_one(&trial.describe(), trial.differs())
}

fn one_route_list(seed: u64, number: usize) -> Result<(), String> {
    let trial = random_routes::trial_of(seed, number);
    show_one(&trial.describe(), trial.differs())
}

fn show_one(described: &str, differs: bool) -> Result<(), String> {
    println!("{described}");
    if differs {
        return Err("the two sides differ".to_string());
    }
    Ok(())
}
