//! The second program: the documents written a second time, in another design, to compare with.
//!
//! It shares nothing with the library. Every accepted run is held against checks that do not
//! use the token search; a failed check ends the program with a line that names the case.

mod calls;
mod checks;
mod edges;
mod halves;
mod largest;
mod map;
mod outcome;
mod refusals;
mod routes;
mod rows;
mod sheet;
mod soak;

use std::io::{self, BufRead, Read, Write};
use std::process::ExitCode;

const USAGE: &str = "\
usage: second sheet              one capture on standard input, its sheet on standard output
       second calls              call lines on standard input, each written with its result
       second edges              the calls of the program edges, each with its result
       second edges calls        the calls of the program edges, as it reads them
       second rows               the rows of document 01 as computed here
       second soak COUNT SEED    COUNT random maps held against every check
       second every RADIOS       all maps of 2 to 6 radios, with every set of handhelds, held against every check
";

const EXIT_FAULT: u8 = 1;
const EXIT_USAGE: u8 = 2;

fn main() -> ExitCode {
    let arguments: Vec<String> = std::env::args().skip(1).collect();
    let words: Vec<&str> = arguments.iter().map(String::as_str).collect();
    let Some(result) = answer(&words) else {
        eprint!("{USAGE}");
        return ExitCode::from(EXIT_USAGE);
    };
    match result {
        Ok(()) => ExitCode::SUCCESS,
        Err(fault) => {
            eprintln!("second: {fault}");
            ExitCode::from(EXIT_FAULT)
        }
    }
}

/// Nothing where the arguments are wrong.
fn answer(words: &[&str]) -> Option<Result<(), String>> {
    match words {
        ["sheet"] => Some(answer_sheet()),
        ["calls"] => Some(answer_calls()),
        ["edges"] => Some(edges::write_edges().and_then(|lines| print(&lines))),
        ["edges", "calls"] => Some(print(&edges::write_calls())),
        ["rows"] => Some(rows::write_rows().and_then(|rows| print(&rows))),
        ["soak", count, seed] => {
            let (count, seed) = (count.parse().ok()?, seed.parse().ok()?);
            Some(soak::soak(count, seed).and_then(|line| print(&line)))
        }
        ["every", radios] => {
            let radios = radios.parse().ok()?;
            let known = map::FEWEST_RADIOS..=soak::MOST_RADIOS_FOR_EVERY;
            known
                .contains(&radios)
                .then(|| soak::every(radios).and_then(|line| print(&line)))
        }
        _ => None,
    }
}

/// One byte more than a text may have is read, so that a longer one is seen.
fn answer_sheet() -> Result<(), String> {
    let mut text = Vec::new();
    let limit = sheet::MOST_BYTES as u64 + 1;
    io::stdin()
        .lock()
        .take(limit)
        .read_to_end(&mut text)
        .map_err(|error| format!("standard input: {error}"))?;
    print(&sheet::sheet_of_text(&text)?)
}

fn answer_calls() -> Result<(), String> {
    for (lines_before, line) in io::stdin().lock().lines().enumerate() {
        let number = lines_before + 1;
        let line = line.map_err(|error| format!("line {number}: {error}"))?;
        let answered =
            calls::answer_line(&line).map_err(|fault| format!("line {number}: {fault}"))?;
        print(&(answered + "\n"))?;
    }
    Ok(())
}

fn print(text: &str) -> Result<(), String> {
    io::stdout()
        .write_all(text.as_bytes())
        .map_err(|error| format!("standard output: {error}"))
}
