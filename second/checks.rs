//! What every accepted run is held against, whatever it was run for.

use crate::halves::{Half, Kind, Message, Search};
use crate::largest::{is_path, largest_by_cuts, largest_by_flow, parts_ends, FEW_RADIOS};
use crate::map::{in_half, is_in_half, out_half, radio_of, Question};
use crate::outcome::{CutItem, Outcome};

/// The numbers, the paths, the cut and the log of a run.
pub fn check_outcome(
    question: &Question,
    outcome: &Outcome,
    rounds_that_found: usize,
) -> Result<(), String> {
    check_numbers(question, outcome, rounds_that_found)?;
    check_paths(question, &outcome.paths)?;
    check_cut(question, outcome)?;
    check_no_step_carries_two_pdts(&outcome.log, outcome.rounds)
}

fn expect_equal(what: &str, expected: usize, got: usize) -> Result<(), String> {
    if expected == got {
        return Ok(());
    }
    Err(format!("{what}: expected {expected}, got {got}"))
}

fn check_numbers(
    question: &Question,
    outcome: &Outcome,
    rounds_that_found: usize,
) -> Result<(), String> {
    let largest = largest_checked(question)?;
    expect_equal(
        "paths, min(k, M)",
        question.wanted.min(largest),
        outcome.paths.len(),
    )?;
    expect_equal(
        "rounds, min(k, M+1)",
        question.wanted.min(largest + 1),
        outcome.rounds,
    )?;
    expect_equal(
        "paths against rounds that found one",
        rounds_that_found,
        outcome.paths.len(),
    )?;
    let bound = (2 * outcome.rounds + 1) * question.number_of_steps();
    if outcome.messages() > bound {
        return Err(format!(
            "{} messages, more than (2r+1)·A = {bound}",
            outcome.messages()
        ));
    }
    Ok(())
}

/// M by flow, and where there are few radios by cuts as well.
fn largest_checked(question: &Question) -> Result<usize, String> {
    let largest = largest_by_flow(question);
    if question.map.radios <= FEW_RADIOS {
        expect_equal(
            "M by flow against M by cuts",
            largest_by_cuts(question),
            largest,
        )?;
    }
    Ok(largest)
}

/// Each path leads from S to T over radios that forward; no two share one of them or are the direct
/// link twice.
fn check_paths(question: &Question, paths: &[Vec<usize>]) -> Result<(), String> {
    let mut used = vec![false; question.map.radios];
    let mut direct_paths = 0;
    for path in paths {
        if !is_path(question, path) {
            return Err(format!("{path:?} is no path from S to T"));
        }
        direct_paths += usize::from(path.len() == 2);
        for &radio in &path[1..path.len() - 1] {
            if used[radio] {
                return Err(format!("radio {radio} stands in two paths"));
            }
            used[radio] = true;
        }
    }
    if direct_paths > 1 {
        return Err("the direct link serves two paths".to_string());
    }
    Ok(())
}

/// A full run has no cut; a short one has an item a path, and without them T is out of reach.
fn check_cut(question: &Question, outcome: &Outcome) -> Result<(), String> {
    if outcome.paths.len() == question.wanted {
        return expect_equal("cut items of a full run", 0, outcome.cut.len());
    }
    expect_equal(
        "cut items of a short run",
        outcome.paths.len(),
        outcome.cut.len(),
    )?;
    let mut removed = vec![false; question.map.radios];
    for item in &outcome.cut {
        if let CutItem::Radio(radio) = *item {
            if !question.forwards(radio) || removed[radio] {
                return Err(format!(
                    "the cut {:?} names S or T, a handheld, or a radio twice",
                    outcome.cut
                ));
            }
            removed[radio] = true;
        }
    }
    let without_direct_link = outcome.cut.contains(&CutItem::DirectLink);
    if parts_ends(question, &removed, without_direct_link) {
        return Ok(());
    }
    Err(format!(
        "the cut {:?} leaves a path from S to T",
        outcome.cut
    ))
}

/// The strong form of the bound: in one round no step carries a PDT twice, in either direction.
/// Two halves have at most one step between them, so a step is known by its two ends.
fn check_no_step_carries_two_pdts(log: &[Message], rounds: usize) -> Result<(), String> {
    for round in 1..=rounds {
        let mut steps: Vec<(usize, usize)> = log
            .iter()
            .filter(|message| message.kind == Kind::Pdt && message.round == round)
            .map(|message| (message.from.min(message.to), message.from.max(message.to)))
            .collect();
        steps.sort_unstable();
        if let Some(pair) = steps.windows(2).find(|pair| pair[0] == pair[1]) {
            return Err(format!(
                "round {round}: two PDTs over the step between halves {:?}",
                pair[0]
            ));
        }
    }
    Ok(())
}

/// Marks after the run: both ends of a step agree, A is right, and marks form paths and rings only.
/// Gives the number of marked steps that lie in rings.
pub fn check_marks(question: &Question, search: &Search) -> Result<usize, String> {
    let halves: Vec<(usize, &Half)> = search
        .halves
        .iter()
        .enumerate()
        .filter_map(|(number, half)| Some((number, half.as_ref()?)))
        .collect();
    let leaving: usize = halves
        .iter()
        .map(|(_, half)| count_steps(half, true, false))
        .sum();
    expect_equal(
        "A by its formula against the steps",
        question.number_of_steps(),
        leaving,
    )?;
    for (number, half) in &halves {
        check_both_ends_agree(search, *number, half)?;
        check_ways_out_of_in_half(question, *number, half)?;
    }
    check_marks_go_through(question, search)?;
    let marked: usize = halves
        .iter()
        .map(|(_, half)| count_steps(half, true, true))
        .sum();
    let walked_by_done = search
        .log
        .iter()
        .filter(|message| message.kind == Kind::Done)
        .count();
    marked
        .checked_sub(walked_by_done)
        .ok_or_else(|| "DONE walked more steps than are marked".to_string())
}

fn count_steps(half: &Half, leaves_here: bool, only_marked: bool) -> usize {
    half.steps
        .iter()
        .filter(|step| step.leaves_here == leaves_here && (step.marked || !only_marked))
        .count()
}

fn check_both_ends_agree(search: &Search, number: usize, half: &Half) -> Result<(), String> {
    for step in &half.steps {
        let other = search.halves[step.other].as_ref();
        let note = other.and_then(|other| other.steps.iter().find(|back| back.other == number));
        let agree = note
            .is_some_and(|back| back.marked == step.marked && back.leaves_here != step.leaves_here);
        if !agree {
            return Err(format!(
                "halves {number} and {} differ about their step",
                step.other
            ));
        }
    }
    Ok(())
}

/// In a finished marking an inner in half has exactly one step to walk; a handheld's has none.
fn check_ways_out_of_in_half(
    question: &Question,
    number: usize,
    half: &Half,
) -> Result<(), String> {
    if !is_in_half(number) || number == in_half(question.destination) {
        return Ok(());
    }
    expect_equal(
        "steps an in half can walk",
        usize::from(question.forwards(radio_of(number))),
        half.steps_it_can_walk().len(),
    )
}

/// At each inner radio as many marked steps arrive as leave: none, or one through its own step,
/// which a handheld has not.
fn check_marks_go_through(question: &Question, search: &Search) -> Result<(), String> {
    for radio in (0..question.map.radios).filter(|&radio| question.is_inner(radio)) {
        let (Some(front), Some(back)) = (
            &search.halves[in_half(radio)],
            &search.halves[out_half(radio)],
        ) else {
            return Err(format!("radio {radio} lacks a half"));
        };
        let through = count_steps(front, true, true);
        expect_equal(
            "marked steps into a radio",
            through,
            count_steps(front, false, true),
        )?;
        expect_equal(
            "marked steps out of a radio",
            through,
            count_steps(back, true, true),
        )?;
    }
    Ok(())
}
