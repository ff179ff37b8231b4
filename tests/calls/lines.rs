//! Calls as lines of text, in the shape of tests/calls.txt.

use std::io::{self, BufRead};

use crate::both_sides::{Fill, Left, Trial};
use crate::refusals::{Call, Lengths};
use crate::route_sides::RouteTrial;
use crate::routes::{RouteCall, RoutesLeft};

/// The version of the rules that the library is held to: the number of requests that have landed.
const VERSION: usize = 3;
/// What a record held before, where there is none to tell.
const NO_RECORD: [u8; 4] = [0; 4];

pub fn write_asked(call: &Call) -> String {
    let lengths = call.lengths;
    format!(
        "run v={VERSION} n={} t={} S={} T={} k={} log={} paths={} cut={}",
        call.radios,
        write_hexadecimal(&call.table),
        call.source,
        call.destination,
        call.wanted,
        lengths.log,
        lengths.paths,
        lengths.cut
    )
}

pub fn write_left(left: &Left) -> String {
    let numbers = left.numbers;
    format!(
        "refusal={} place={} p={} rounds={} messages={} log={} paths={} cut={}",
        numbers.refusal,
        numbers.place,
        numbers.paths,
        numbers.rounds,
        numbers.messages,
        write_buffer(&left.log),
        write_buffer(&left.paths),
        write_buffer(&left.cut)
    )
}

/// Such a line says of all records that they held what the first one did.
pub fn write_routes_asked(call: &RouteCall) -> String {
    format!(
        "routes v={VERSION} n={} count={} pl={} records={} was={}",
        call.radios,
        call.count,
        write_hexadecimal(&call.list),
        call.held.len(),
        write_hexadecimal(call.held.first().unwrap_or(&NO_RECORD))
    )
}

pub fn write_routes_left(left: &RoutesLeft) -> String {
    format!(
        "refusal={} records={}",
        left.refusal,
        write_hexadecimal(left.records.as_flattened())
    )
}

/// The length, a colon, and the bytes without the zeros at the end.
fn write_buffer(bytes: &[u8]) -> String {
    let used = bytes.iter().rposition(|&byte| byte != 0);
    let used = used.map_or(0, |last| last + 1);
    format!("{}:{}", bytes.len(), write_hexadecimal(&bytes[..used]))
}

/// "-" where there is no byte.
pub fn write_hexadecimal(bytes: &[u8]) -> String {
    if bytes.is_empty() {
        return "-".to_string();
    }
    bytes.iter().map(|byte| format!("{byte:02x}")).collect()
}

/// Call lines on standard input, each written as it came with the library's result.
pub fn answer_lines() -> Result<(), String> {
    for (lines_before, line) in io::stdin().lock().lines().enumerate() {
        let number = lines_before + 1;
        let line = line.map_err(|error| format!("line {number}: {error}"))?;
        let asked = line.split(" => ").next().unwrap_or(&line);
        let left = answer(asked).map_err(|fault| format!("line {number}: {fault}"))?;
        println!("{asked} => {left}");
    }
    Ok(())
}

fn answer(asked: &str) -> Result<String, String> {
    if asked.starts_with("routes ") {
        let trial = RouteTrial {
            call: read_routes_asked(asked)?,
            beyond: Vec::new(),
        };
        return Ok(write_routes_left(&trial.library_leaves()?));
    }
    let trial = Trial {
        call: read_asked(asked)?,
        fill: Fill::PLAIN,
    };
    Ok(write_left(&trial.library_leaves()?))
}

/// "run v=.. n=.. t=.. S=.. T=.. k=.. log=.. paths=.. cut=..", the fields in this order.
fn read_asked(asked: &str) -> Result<Call, String> {
    let names = ["v", "n", "t", "S", "T", "k", "log", "paths", "cut"];
    let [version, n, table, s, t, k, log, paths, cut] = read_fields(asked, "run", names)?;
    version.version()?;
    Ok(Call {
        radios: n.number()?,
        table: table.bytes()?,
        source: s.number()?,
        destination: t.number()?,
        wanted: k.number()?,
        lengths: Lengths {
            log: log.number()?,
            paths: paths.number()?,
            cut: cut.number()?,
        },
    })
}

/// "routes v=.. n=.. count=.. pl=.. records=.. was=..", the fields in this order.
fn read_routes_asked(asked: &str) -> Result<RouteCall, String> {
    let names = ["v", "n", "count", "pl", "records", "was"];
    let [version, n, count, list, records, was] = read_fields(asked, "routes", names)?;
    version.version()?;
    let record = was.bytes()?.try_into();
    Ok(RouteCall {
        radios: n.number()?,
        count: count.number()?,
        list: list.bytes()?,
        held: vec![record.map_err(|_| was.fault("not four bytes"))?; records.number()?],
    })
}

#[derive(Clone, Copy)]
struct Field<'line> {
    name: &'line str,
    value: &'line str,
}

impl Field<'_> {
    fn fault(&self, fault: &str) -> String {
        format!("field {}: {:?} is {fault}", self.name, self.value)
    }

    fn number(&self) -> Result<usize, String> {
        let read = self.value.parse();
        read.map_err(|error| self.fault(&format!("not a number here ({error})")))
    }

    fn version(&self) -> Result<(), String> {
        if self.number()? == VERSION {
            return Ok(());
        }
        Err(format!("only lines with v={VERSION} are known here"))
    }

    fn bytes(&self) -> Result<Vec<u8>, String> {
        if self.value == "-" {
            return Ok(Vec::new());
        }
        let fault = || self.fault("not pairs of hexadecimal digits");
        let digits = self.value.chars().map(|digit| digit.to_digit(16));
        let digits: Vec<u32> = digits.collect::<Option<_>>().ok_or_else(fault)?;
        if digits.len() % 2 != 0 {
            return Err(fault());
        }
        let pairs = digits.chunks(2);
        Ok(pairs.map(|pair| (16 * pair[0] + pair[1]) as u8).collect())
    }
}

/// The word, and then these fields and no other.
fn read_fields<'line, const COUNT: usize>(
    asked: &'line str,
    word: &str,
    names: [&'line str; COUNT],
) -> Result<[Field<'line>; COUNT], String> {
    let words: Vec<&str> = asked.split(' ').collect();
    if words.len() != COUNT + 1 || words[0] != word {
        return Err(format!("not the word {word} and {COUNT} fields"));
    }
    let mut fields = names.map(|name| Field { name, value: "" });
    for (field, word) in fields.iter_mut().zip(&words[1..]) {
        match word.split_once('=') {
            Some((found, value)) if found == field.name => field.value = value,
            _ => return Err(format!("expected the field {}, found {word:?}", field.name)),
        }
    }
    Ok(fields)
}
