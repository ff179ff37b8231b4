//! Document 01, "Maps on both sides of each edge": the ten rows, and map Q with k = 3. Then three maps
//! with handhelds (document 02, 3/13).

use crate::map::{or_none, write_links, Map, Question};
use crate::outcome::{run_checked, CutItem, Outcome};
use crate::refusals::{judge_call, lengths_needed, Call, Lengths};

/// Enough for every map: 4·17·574 for the log, 62+24 for the paths, 8 for the cut.
const ENOUGH_FOR_ALL: Lengths = Lengths {
    log: 39_032,
    paths: 86,
    cut: 8,
};

enum Shape {
    /// A handheld is linked to itself.
    Links(&'static [(usize, usize)]),
    Cells(&'static [u8]),
}

struct Row {
    name: &'static str,
    radios: usize,
    shape: Shape,
    source: usize,
    destination: usize,
    wanted: usize,
}

const fn row(
    name: &'static str,
    radios: usize,
    shape: Shape,
    source: usize,
    destination: usize,
    wanted: usize,
) -> Row {
    Row {
        name,
        radios,
        shape,
        source,
        destination,
        wanted,
    }
}

const MAP_Q: Shape = Shape::Links(&[
    (0, 1),
    (0, 4),
    (1, 2),
    (1, 6),
    (2, 3),
    (2, 5),
    (3, 4),
    (3, 7),
    (6, 7),
]);

const MAP_Q_WITH_A_HANDHELD: Shape = Shape::Links(&[
    (0, 1),
    (0, 4),
    (1, 2),
    (1, 6),
    (2, 3),
    (2, 5),
    (3, 4),
    (3, 7),
    (6, 7),
    (6, 6),
]);

const ROWS: [Row; 14] = [
    row("two-linked-1", 2, Shape::Links(&[(0, 1)]), 0, 1, 1),
    row("two-linked-2", 2, Shape::Links(&[(0, 1)]), 0, 1, 2),
    row("two-apart-1", 2, Shape::Links(&[]), 0, 1, 1),
    row("chain-2", 3, Shape::Links(&[(0, 1), (1, 2)]), 0, 2, 2),
    row(
        "walk-back-2",
        4,
        Shape::Links(&[(0, 1), (0, 2), (1, 2), (1, 3), (2, 3)]),
        0,
        3,
        2,
    ),
    row(
        "bottleneck-2",
        5,
        Shape::Links(&[(0, 1), (0, 2), (1, 3), (2, 3), (3, 4)]),
        0,
        4,
        2,
    ),
    row("Q-1", 8, MAP_Q, 0, 7, 1),
    row("Q-2", 8, MAP_Q, 0, 7, 2),
    row("same-ends", 2, Shape::Links(&[(0, 1)]), 1, 1, 1),
    row("one-sided-cell", 2, Shape::Cells(&[0, 1, 0, 0]), 0, 1, 1),
    row("Q-3", 8, MAP_Q, 0, 7, 3),
    row(
        "handheld-chain-1",
        3,
        Shape::Links(&[(0, 1), (1, 2), (1, 1)]),
        0,
        2,
        1,
    ),
    row(
        "handheld-ends-1",
        2,
        Shape::Links(&[(0, 1), (0, 0), (1, 1)]),
        0,
        1,
        1,
    ),
    row("handheld-Q-2", 8, MAP_Q_WITH_A_HANDHELD, 0, 7, 2),
];

/// One line a row, as this program computes it.
pub fn write_rows() -> Result<String, String> {
    let lines: Result<Vec<String>, String> = ROWS.iter().map(write_row).collect();
    Ok(lines?.join("\n") + "\n")
}

/// Each accepted row is judged a second time with buffers that are exactly enough.
fn write_row(row: &Row) -> Result<String, String> {
    let asked = write_asked(row);
    let judged = judge_call(&call_of(row, ENOUGH_FOR_ALL))
        .and_then(|question| judge_call(&call_of(row, lengths_needed(&question))));
    match judged {
        Err(refusal) => Ok(format!(
            "{asked} => refused {} place {}",
            refusal.number(),
            refusal.place()
        )),
        Ok(question) => Ok(format!(
            "{asked} => {}",
            write_outcome(&question, &run_checked(&question)?)
        )),
    }
}

fn call_of(row: &Row, lengths: Lengths) -> Call {
    Call {
        radios: row.radios,
        table: table_of(row),
        source: row.source,
        destination: row.destination,
        wanted: row.wanted,
        lengths,
    }
}

fn table_of(row: &Row) -> Vec<u8> {
    match row.shape {
        Shape::Cells(cells) => cells.to_vec(),
        Shape::Links(links) => {
            let mut map = Map::without_links(row.radios);
            links
                .iter()
                .for_each(|&(one, other)| map.take_cell(one, other));
            map.table()
        }
    }
}

fn write_asked(row: &Row) -> String {
    let shape = match row.shape {
        Shape::Links(links) => format!("links={}", write_links(links)),
        Shape::Cells(cells) => format!("cells={}", join(cells, ",")),
    };
    format!(
        "{}: n={} {shape} S={} T={} k={}",
        row.name, row.radios, row.source, row.destination, row.wanted
    )
}

fn write_outcome(question: &Question, outcome: &Outcome) -> String {
    let word = if outcome.paths.len() == question.wanted {
        "full"
    } else {
        "short"
    };
    let paths: Vec<String> = outcome.paths.iter().map(|path| join(path, "-")).collect();
    let cut: Vec<String> = outcome.cut.iter().map(write_cut_item).collect();
    format!(
        "{word} paths={} rounds={} messages={} cut={} A={}",
        or_none(paths),
        outcome.rounds,
        outcome.messages(),
        or_none(cut),
        question.number_of_steps()
    )
}

fn write_cut_item(item: &CutItem) -> String {
    match item {
        CutItem::Radio(radio) => radio.to_string(),
        CutItem::DirectLink => "255".to_string(),
    }
}

fn join<Number: ToString>(numbers: &[Number], between: &str) -> String {
    let words: Vec<String> = numbers.iter().map(Number::to_string).collect();
    words.join(between)
}
