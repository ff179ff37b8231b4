//! Document 01, "Refusals by number, in this order", for callers of the library and for texts.
//!
//! The refusals of document 02's requests have their numbers here too. Numbers are judged as they
//! come; none is narrowed before it has been judged.

use std::collections::HashSet;

use crate::map::{Map, Question, FEWEST_RADIOS, MOST_LINKS, MOST_RADIOS, MOST_WANTED};
use crate::sheet::{Capture, Record};

#[derive(Clone, Copy, Debug, PartialEq, Eq)]
pub enum Refusal {
    NumberOfRadios,
    TableLength,
    CellValue { place: usize },
    CellMirror { place: usize },
    TooManyLinks,
    Ends,
    Wanted,
    LogTooShort,
    ListTooShort,
    LineShape { line: usize },
    TextTooLong,
    BadLine { line: usize },
    TooFewRecords,
    PathList,
}

impl Refusal {
    pub fn number(self) -> usize {
        match self {
            Refusal::NumberOfRadios => 1,
            Refusal::TableLength => 2,
            Refusal::CellValue { .. } => 3,
            Refusal::CellMirror { .. } => 13,
            Refusal::TooManyLinks => 4,
            Refusal::Ends => 5,
            Refusal::Wanted => 6,
            Refusal::LogTooShort => 7,
            Refusal::ListTooShort => 8,
            Refusal::LineShape { .. } => 9,
            Refusal::TextTooLong => 10,
            Refusal::BadLine { .. } => 11,
            Refusal::TooFewRecords => 20,
            Refusal::PathList => 21,
        }
    }

    pub fn place(self) -> usize {
        match self {
            Refusal::CellValue { place } | Refusal::CellMirror { place } => place,
            Refusal::LineShape { line } | Refusal::BadLine { line } => line,
            _ => 0,
        }
    }
}

/// The lengths of the three lent buffers.
#[derive(Clone, Copy, Debug)]
pub struct Lengths {
    pub log: usize,
    pub paths: usize,
    pub cut: usize,
}

/// What refusals 7 and 8 ask for: exactly enough.
pub fn lengths_needed(question: &Question) -> Lengths {
    let wanted = question.wanted;
    Lengths {
        log: 4 * (2 * wanted + 1) * question.number_of_steps(),
        paths: question.map.radios - 2 + 3 * wanted,
        cut: wanted,
    }
}

/// A call of the library, before anything of it has been judged.
pub struct Call {
    pub radios: usize,
    pub table: Vec<u8>,
    pub source: usize,
    pub destination: usize,
    pub wanted: usize,
    pub lengths: Lengths,
}

/// Refusals 1, 2, then 3 or 13 for the first bad cell, and 4 to 8, in this order.
pub fn judge_call(call: &Call) -> Result<Question, Refusal> {
    judge_number_of_radios(call.radios)?;
    if call.table.len() != call.radios * call.radios {
        return Err(Refusal::TableLength);
    }
    let map = judge_cells(call.radios, &call.table)?;
    judge_number_of_links(map.links().len())?;
    let question = judge_ends_and_wanted(map, call.source, call.destination, call.wanted)?;
    judge_lengths(&question, call.lengths)?;
    Ok(question)
}

/// The program's 1, 11, 4, 5 and 6; its 10 and 9 come from the reader of the text.
pub fn judge_capture(capture: &Capture) -> Result<Question, Refusal> {
    judge_number_of_radios(capture.radios)?;
    let map = judge_lines(capture)?;
    judge_number_of_links(map.links().len())?;
    judge_ends_and_wanted(map, capture.source, capture.destination, capture.wanted)
}

pub fn judge_number_of_radios(radios: usize) -> Result<(), Refusal> {
    if (FEWEST_RADIOS..=MOST_RADIOS).contains(&radios) {
        return Ok(());
    }
    Err(Refusal::NumberOfRadios)
}

/// Refusals 3 and 13: the first bad cell in row order, by the first kind of fault that it has.
fn judge_cells(radios: usize, table: &[u8]) -> Result<Map, Refusal> {
    let mut map = Map::without_links(radios);
    for row in 0..radios {
        for column in 0..radios {
            let place = row * radios + column;
            let cell = table[place];
            let mirror = table[column * radios + row];
            if cell > 1 {
                return Err(Refusal::CellValue { place });
            }
            if cell != mirror {
                return Err(Refusal::CellMirror { place });
            }
            if cell == 1 {
                map.take_cell(row, column);
            }
        }
    }
    Ok(map)
}

fn judge_number_of_links(links: usize) -> Result<(), Refusal> {
    if links > MOST_LINKS {
        return Err(Refusal::TooManyLinks);
    }
    Ok(())
}

/// Refusals 5 and 6.
fn judge_ends_and_wanted(
    map: Map,
    source: usize,
    destination: usize,
    wanted: usize,
) -> Result<Question, Refusal> {
    if source >= map.radios || destination >= map.radios || source == destination {
        return Err(Refusal::Ends);
    }
    if wanted == 0 || wanted > MOST_WANTED {
        return Err(Refusal::Wanted);
    }
    Ok(Question {
        map,
        source,
        destination,
        wanted,
    })
}

/// Refusals 7 and 8.
fn judge_lengths(question: &Question, lent: Lengths) -> Result<(), Refusal> {
    let needed = lengths_needed(question);
    if lent.log < needed.log {
        return Err(Refusal::LogTooShort);
    }
    if lent.paths < needed.paths || lent.cut < needed.cut {
        return Err(Refusal::ListTooShort);
    }
    Ok(())
}

/// Refusal 11: the first line out of order, out of the map, or repeated.
fn judge_lines(capture: &Capture) -> Result<Map, Refusal> {
    let mut map = Map::without_links(capture.radios);
    let mut seen = HashSet::new();
    for line in &capture.lines {
        let fits_the_map = match line.record {
            Record::Link { first, second } => first < second && second < capture.radios,
            Record::Hand { radio } => radio < capture.radios,
        };
        let is_new = seen.insert(line.record);
        if !fits_the_map || !is_new {
            return Err(Refusal::BadLine { line: line.number });
        }
        match line.record {
            Record::Link { first, second } => map.link(first, second),
            Record::Hand { radio } => map.make_handheld(radio),
        }
    }
    Ok(map)
}
