//! Measures the survey library that it is linked with: the proved one or one that stands in its
//! place. The buffers are exactly as long as the question needs and are not cleared between
//! queries; the library clears what it does not use, and that is part of the time. The records are
//! made of the path lists that the surveys of the same questions leave; those are made before.

#[path = "../rust/src/raw.rs"]
mod raw;
mod workload;

use std::hint::black_box;
use std::process::ExitCode;
use std::time::{Duration, Instant};

use workload::Question;

const USAGE: &str = "\
usage: queries time FILE MILLISECONDS    nanoseconds per query (the best pass), and all paths found
       queries once FILE COUNT           COUNT queries, the file's over and over, and their paths
       queries routes time FILE MILLISECONDS
                                         nanoseconds per path list of a survey that records are
                                         made of, and a sum over all records
       queries routes once FILE COUNT    COUNT path lists, the file's first 100 over and over, and
                                         their paths
";

/// A pass is at least this many queries, so that reading the clock costs nothing.
const FEWEST_QUERIES_A_PASS: usize = 1000;
/// Of so many questions the path lists are counted; a survey takes far longer than its records.
const MOST_LISTS_ONCE: usize = 100;
const MOST_RADIOS: usize = 64;

struct Query {
    question: Question,
    lengths: [usize; 3],
}

struct Lent {
    log: Vec<u8>,
    paths: Vec<u8>,
    cut: Vec<u8>,
}

/// What the survey of a question left.
struct PathList {
    radios: usize,
    count: usize,
    bytes: Vec<u8>,
}

fn main() -> ExitCode {
    let arguments: Vec<String> = std::env::args().skip(1).collect();
    let words: Vec<&str> = arguments.iter().map(String::as_str).collect();
    match run(&words) {
        Ok(()) => ExitCode::SUCCESS,
        Err(fault) => {
            eprintln!("queries: {fault}");
            ExitCode::from(1)
        }
    }
}

fn run(words: &[&str]) -> Result<(), String> {
    match words {
        ["time", file, milliseconds] => {
            let queries = read_queries(file)?;
            let mut lent = enough_for_all(&queries);
            let limit = read_number(milliseconds)?;
            let (nanoseconds, paths) = measure(&queries, limit, |query| ask(query, &mut lent));
            println!("{nanoseconds:.0} {paths}");
        }
        ["once", file, count] => {
            let queries = read_queries(file)?;
            let mut lent = enough_for_all(&queries);
            let paths = once(&queries, read_number(count)?, |query| ask(query, &mut lent));
            println!("{paths}");
        }
        ["routes", "time", file, milliseconds] => {
            let lists = survey_all(&read_queries(file)?);
            let mut routes = [raw::Route::default(); MOST_RADIOS];
            let limit = read_number(milliseconds)?;
            let (nanoseconds, _) = measure(&lists, limit, |list| fill(list, &mut routes));
            println!("{nanoseconds:.0} {}", sum_of_records(&lists));
        }
        ["routes", "once", file, count] => {
            let mut queries = read_queries(file)?;
            queries.truncate(MOST_LISTS_ONCE);
            let lists = survey_all(&queries);
            let mut routes = [raw::Route::default(); MOST_RADIOS];
            let paths = once(&lists, read_number(count)?, |list| fill(list, &mut routes));
            println!("{paths}");
        }
        _ => return Err(USAGE.to_string()),
    }
    Ok(())
}

/// Nanoseconds of a call in the best pass, and the sum of what the calls of one pass gave.
fn measure<Call>(
    calls: &[Call],
    milliseconds: u64,
    mut make: impl FnMut(&Call) -> usize,
) -> (f64, usize) {
    let limit = Duration::from_millis(milliseconds);
    let repeats = FEWEST_QUERIES_A_PASS.div_ceil(calls.len());
    let mut best = Duration::MAX;
    let started = Instant::now();
    let mut sum = 0;
    while best == Duration::MAX || started.elapsed() < limit {
        let pass = Instant::now();
        for _ in 0..repeats {
            sum = calls.iter().map(&mut make).sum();
        }
        best = best.min(pass.elapsed());
    }
    let nanoseconds = best.as_nanos() as f64 / (repeats * calls.len()) as f64;
    (nanoseconds, sum)
}

fn once<Call>(calls: &[Call], count: u64, make: impl FnMut(&Call) -> usize) -> usize {
    calls.iter().cycle().take(count as usize).map(make).sum()
}

fn survey_all(queries: &[Query]) -> Vec<PathList> {
    let mut lent = enough_for_all(queries);
    let list_of = |query: &Query| PathList {
        radios: query.question.radios,
        count: ask(query, &mut lent),
        bytes: lent.paths[..query.lengths[1]].to_vec(),
    };
    queries.iter().map(list_of).collect()
}

fn fill(list: &PathList, routes: &mut [raw::Route; MOST_RADIOS]) -> usize {
    let list = black_box(list);
    let refusal = raw::fog_routes(list.radios, list.count, &list.bytes, &mut routes[..]);
    assert_eq!(refusal, 0, "the path list of a survey was refused");
    list.count
}

/// Each field of each record goes into it, so it tells whether two versions made the same records.
fn sum_of_records(lists: &[PathList]) -> u32 {
    let mut routes = [raw::Route::default(); MOST_RADIOS];
    let mut sum: u32 = 0;
    for list in lists {
        fill(list, &mut routes);
        for route in &routes[..list.radios] {
            for field in [route.role, route.path, route.before, route.after] {
                sum = sum.wrapping_mul(31).wrapping_add(u32::from(field));
            }
        }
    }
    sum
}

fn ask(query: &Query, lent: &mut Lent) -> usize {
    let question = &query.question;
    let [log, paths, cut] = query.lengths;
    let asked = raw::Asked {
        radios: question.radios,
        table: &question.table,
        source: question.source,
        destination: question.destination,
        wanted: question.wanted,
    };
    let outcome = raw::fog_survey(
        black_box(&asked),
        &mut lent.log[..log],
        &mut lent.paths[..paths],
        &mut lent.cut[..cut],
    );
    assert_eq!(outcome.refusal, 0, "a measured question was refused");
    outcome.paths
}

fn enough_for_all(queries: &[Query]) -> Lent {
    let most = |which: usize| queries.iter().map(|query| query.lengths[which]).max();
    let [log, paths, cut] = [0, 1, 2].map(|which| vec![0; most(which).unwrap_or(0)]);
    Lent { log, paths, cut }
}

fn read_number(word: &str) -> Result<u64, String> {
    word.parse()
        .map_err(|error| format!("{word:?} is not a number ({error})"))
}

fn read_queries(file: &str) -> Result<Vec<Query>, String> {
    let bytes = std::fs::read(file).map_err(|error| format!("{file}: {error}"))?;
    let mut rest = bytes.as_slice();
    let mut queries = Vec::new();
    while let [radios, source, destination, wanted, after @ ..] = rest {
        let radios = usize::from(*radios);
        if after.len() < radios * radios {
            break;
        }
        let (table, after) = after.split_at(radios * radios);
        rest = after;
        let question = Question {
            radios,
            source: usize::from(*source),
            destination: usize::from(*destination),
            wanted: usize::from(*wanted),
            table: table.to_vec(),
        };
        let lengths = question.lengths_needed();
        queries.push(Query { question, lengths });
    }
    if queries.is_empty() || !rest.is_empty() {
        return Err(format!("{file}: not a whole number of questions"));
    }
    Ok(queries)
}
