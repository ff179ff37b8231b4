//! Document 01, "The cut" and "What a run leaves": paths, cut and the bytes of the three buffers.

use crate::checks;
use crate::halves::{search, Kind, Message, Search};
use crate::map::{in_half, is_in_half, out_half, radio_of, Question};

/// How the direct link is written in the cut list.
const DIRECT_LINK_BYTE: u8 = 255;

#[derive(Clone, Copy, Debug, PartialEq, Eq)]
pub enum CutItem {
    Radio(usize),
    DirectLink,
}

/// An accepted run.
pub struct Outcome {
    pub paths: Vec<Vec<usize>>,
    pub rounds: usize,
    pub log: Vec<Message>,
    pub cut: Vec<CutItem>,
    /// Marked steps that DONE never met: the closed rings of rule 8.
    pub steps_in_rings: usize,
}

impl Outcome {
    pub fn messages(&self) -> usize {
        self.log.len()
    }

    /// Four bytes a message: kind, round, sending half, receiving half.
    pub fn log_bytes(&self) -> Vec<u8> {
        self.log
            .iter()
            .flat_map(|message| {
                let round = byte(message.round);
                [
                    kind_byte(message.kind),
                    round,
                    byte(message.from),
                    byte(message.to),
                ]
            })
            .collect()
    }

    /// For each path its number of radios, then the radios.
    pub fn path_bytes(&self) -> Vec<u8> {
        let mut bytes = Vec::new();
        for path in &self.paths {
            bytes.push(byte(path.len()));
            bytes.extend(path.iter().map(|&radio| byte(radio)));
        }
        bytes
    }

    pub fn cut_bytes(&self) -> Vec<u8> {
        self.cut
            .iter()
            .map(|item| match item {
                CutItem::Radio(radio) => byte(*radio),
                CutItem::DirectLink => DIRECT_LINK_BYTE,
            })
            .collect()
    }
}

/// All numbers written into a buffer are small; a large one is a fault of this program.
fn byte(number: usize) -> u8 {
    u8::try_from(number).expect("a number of an accepted run fits a byte")
}

fn kind_byte(kind: Kind) -> u8 {
    match kind {
        Kind::Pdt => 1,
        Kind::PdtB => 2,
        Kind::Pmt => 3,
        Kind::Done => 4,
    }
}

/// Runs the search and holds every run against the checks. An error tells the fault and the case.
pub fn run_checked(question: &Question) -> Result<Outcome, String> {
    run_and_check(question).map_err(|fault| format!("{fault}\n  case: {}", question.describe()))
}

fn run_and_check(question: &Question) -> Result<Outcome, String> {
    let search = search(question)?;
    let paths = paths_walked_by_done(question, &search.log);
    let cut = cut_of(question, &search, &paths)?;
    let steps_in_rings = checks::check_marks(question, &search)?;
    let outcome = Outcome {
        paths,
        rounds: search.rounds,
        log: search.log,
        cut,
        steps_in_rings,
    };
    checks::check_outcome(question, &outcome, search.rounds_that_found)?;
    Ok(outcome)
}

/// Rule 8: the paths are those walked by DONE, in that order.
fn paths_walked_by_done(question: &Question, log: &[Message]) -> Vec<Vec<usize>> {
    let mut paths: Vec<Vec<usize>> = Vec::new();
    for message in log.iter().filter(|message| message.kind == Kind::Done) {
        if message.from == out_half(question.source) {
            paths.push(vec![question.source]);
        }
        if let (true, Some(path)) = (is_in_half(message.to), paths.last_mut()) {
            path.push(radio_of(message.to));
        }
    }
    paths
}

/// One item a path, in path order; nothing where the last round found a path.
fn cut_of(
    question: &Question,
    search: &Search,
    paths: &[Vec<usize>],
) -> Result<Vec<CutItem>, String> {
    if !search.last_round_failed() {
        return Ok(Vec::new());
    }
    paths
        .iter()
        .map(|path| cut_item_of(question, search, path))
        .collect()
}

fn cut_item_of(question: &Question, search: &Search, path: &[usize]) -> Result<CutItem, String> {
    let halves = halves_of_path(question, path);
    let mut leaves = halves.windows(2).filter(|pair| {
        search.entered_in_last_round(pair[0]) && !search.entered_in_last_round(pair[1])
    });
    let (first, second) = (leaves.next(), leaves.next());
    match (first, second) {
        (Some(pair), None) => Ok(item_where_path_leaves(question, pair[0], pair[1])),
        _ => Err(format!(
            "path {path:?} does not leave the entered halves exactly once"
        )),
    }
}

fn halves_of_path(question: &Question, path: &[usize]) -> Vec<usize> {
    let mut halves = Vec::new();
    for &radio in path {
        if radio != question.source {
            halves.push(in_half(radio));
        }
        if radio != question.destination {
            halves.push(out_half(radio));
        }
    }
    halves
}

fn item_where_path_leaves(question: &Question, from: usize, to: usize) -> CutItem {
    let (sender, receiver) = (radio_of(from), radio_of(to));
    if sender == receiver || receiver != question.destination {
        return CutItem::Radio(receiver);
    }
    if sender != question.source {
        return CutItem::Radio(sender);
    }
    CutItem::DirectLink
}
