//! Calls of the library as lines of text: what a call leaves, every byte of it.
//!
//! A line is "run v=.. n=.. t=.. S=.. T=.. k=.. log=.. paths=.. cut=.. => result". The table is
//! given in hexadecimal. A buffer of the result is its length, a colon and its bytes in
//! hexadecimal without the zeros at its end, or "-" where all of it is zero.
//!
//! Or it is "routes v=.. n=.. count=.. pl=.. records=.. was=.. => result": a path list, and so many
//! records that all held the same four bytes. The result has every byte of them.

use std::str::Split;

use crate::outcome::{run_checked, Outcome};
use crate::refusals::{judge_call, Call, Lengths, Refusal};
use crate::routes::{answer_routes, RouteCall, RoutesLeft};

const BEFORE_RESULT: &str = " => ";
/// The version of the rules that this program knows: the number of requests that have landed.
const KNOWN_VERSION: usize = 3;

/// The whole line with its result. An error tells what is wrong with the line, or a failed check.
pub fn answer_line(line: &str) -> Result<String, String> {
    let asked = match line.split_once(BEFORE_RESULT) {
        Some((asked, _)) => asked,
        None => line,
    };
    let mut words = asked.split(' ');
    let result = match words.next() {
        Some("run") => answer_run(words)?,
        Some("routes") => write_routes(&answer_routes(&read_routes(words)?)),
        _ => return Err("the line does not start with the word run or routes".to_string()),
    };
    Ok(format!("{asked}{BEFORE_RESULT}{result}"))
}

fn answer_run(words: Split<'_, char>) -> Result<String, String> {
    let call = read_call(words)?;
    match judge_call(&call) {
        Err(refusal) => Ok(write_refused(refusal, call.lengths)),
        Ok(question) => Ok(write_accepted(&run_checked(&question)?, call.lengths)),
    }
}

fn read_call(mut words: Split<'_, char>) -> Result<Call, String> {
    read_version(&mut words)?;
    let call = Call {
        radios: read_number(&mut words, "n")?,
        table: read_bytes(&mut words, "t")?,
        source: read_number(&mut words, "S")?,
        destination: read_number(&mut words, "T")?,
        wanted: read_number(&mut words, "k")?,
        lengths: Lengths {
            log: read_number(&mut words, "log")?,
            paths: read_number(&mut words, "paths")?,
            cut: read_number(&mut words, "cut")?,
        },
    };
    read_end(words, "cut")?;
    Ok(call)
}

fn read_routes(mut words: Split<'_, char>) -> Result<RouteCall, String> {
    read_version(&mut words)?;
    let radios = read_number(&mut words, "n")?;
    let count = read_number(&mut words, "count")?;
    let list = read_bytes(&mut words, "pl")?;
    let records = read_number(&mut words, "records")?;
    let was = read_bytes(&mut words, "was")?
        .try_into()
        .map_err(|_| "field was: not four bytes".to_string())?;
    read_end(words, "was")?;
    Ok(RouteCall {
        radios,
        count,
        list,
        held: vec![was; records],
    })
}

fn read_version(words: &mut Split<'_, char>) -> Result<(), String> {
    let version = read_number(words, "v")?;
    if version == KNOWN_VERSION {
        return Ok(());
    }
    Err(format!(
        "v={version} is not known here, only v={KNOWN_VERSION}"
    ))
}

fn read_end(mut words: Split<'_, char>, last: &str) -> Result<(), String> {
    match words.next() {
        None => Ok(()),
        Some(word) => Err(format!(
            "nothing may follow the field {last}, found {word:?}"
        )),
    }
}

fn read_field<'line>(words: &mut Split<'line, char>, name: &str) -> Result<&'line str, String> {
    let word = words
        .next()
        .ok_or_else(|| format!("the field {name} is missing"))?;
    match word.split_once('=') {
        Some((found, value)) if found == name => Ok(value),
        _ => Err(format!("expected the field {name}, found {word:?}")),
    }
}

fn read_number(words: &mut Split<'_, char>, name: &str) -> Result<usize, String> {
    let value = read_field(words, name)?;
    value
        .parse()
        .map_err(|error| format!("field {name}: {value:?} is not a number here ({error})"))
}

/// No byte at all is an empty field or "-".
fn read_bytes(words: &mut Split<'_, char>, name: &str) -> Result<Vec<u8>, String> {
    let digits = read_field(words, name)?;
    if digits == "-" {
        return Ok(Vec::new());
    }
    if digits.len() % 2 != 0 {
        return Err(format!("field {name}: an odd number of hexadecimal digits"));
    }
    let pairs = digits.as_bytes().chunks(2);
    pairs
        .map(|pair| read_byte(pair).map_err(|fault| format!("field {name}: {fault}")))
        .collect()
}

fn read_byte(digits: &[u8]) -> Result<u8, String> {
    let values: Option<Vec<u32>> = digits
        .iter()
        .map(|&digit| char::from(digit).to_digit(16))
        .collect();
    match values.as_deref() {
        Some([high, low]) => Ok((16 * high + low) as u8),
        _ => Err(format!(
            "{:?} are not two hexadecimal digits",
            String::from_utf8_lossy(digits)
        )),
    }
}

/// A refused run sets all three buffers to 0 throughout and all counts to 0.
fn write_refused(refusal: Refusal, lengths: Lengths) -> String {
    let buffers = write_buffers(lengths, &[], &[], &[]);
    format!(
        "refusal={} place={} p=0 rounds=0 messages=0 {buffers}",
        refusal.number(),
        refusal.place()
    )
}

fn write_accepted(outcome: &Outcome, lengths: Lengths) -> String {
    let buffers = write_buffers(
        lengths,
        &outcome.log_bytes(),
        &outcome.path_bytes(),
        &outcome.cut_bytes(),
    );
    format!(
        "refusal=0 place=0 p={} rounds={} messages={} {buffers}",
        outcome.paths.len(),
        outcome.rounds,
        outcome.messages()
    )
}

fn write_buffers(lengths: Lengths, log: &[u8], paths: &[u8], cut: &[u8]) -> String {
    format!(
        "log={}:{} paths={}:{} cut={}:{}",
        lengths.log,
        write_bytes(log),
        lengths.paths,
        write_bytes(paths),
        lengths.cut,
        write_bytes(cut)
    )
}

/// All bytes past the used ones are 0, so the zeros at the end need not be written.
pub fn write_bytes(used: &[u8]) -> String {
    let written = used
        .iter()
        .rposition(|&byte| byte != 0)
        .map_or(0, |last| last + 1);
    if written == 0 {
        return "-".to_string();
    }
    write_hexadecimal(&used[..written])
}

/// Every byte of every record: those past n hold what they held.
fn write_routes(left: &RoutesLeft) -> String {
    let records = match left.records.as_slice() {
        [] => "-".to_string(),
        records => write_hexadecimal(records.as_flattened()),
    };
    format!("refusal={} records={records}", left.refusal)
}

fn write_hexadecimal(bytes: &[u8]) -> String {
    bytes.iter().map(|byte| format!("{byte:02x}")).collect()
}
