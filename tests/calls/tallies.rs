//! What the random calls showed, and the random route lists.

use std::collections::BTreeMap;

use crate::random_calls;
use crate::random_routes;
use crate::refusals::Call;
use crate::smaller;
use crate::smaller_routes;
use crate::work::Tally;

/// Each call's refusal numbers, 0 for none, in the order in which they are tried.
const OF_SURVEYS: [usize; 10] = [0, 1, 2, 3, 13, 4, 5, 6, 7, 8];
const OF_ROUTES: [usize; 4] = [0, 1, 20, 21];

/// How many calls had a number: that of their refusal, 0 for none, or that of their paths.
#[derive(Default)]
struct Counts {
    by_number: BTreeMap<usize, usize>,
}

impl Counts {
    fn add(&mut self, number: usize) {
        *self.by_number.entry(number).or_default() += 1;
    }

    fn join(&mut self, other: Counts) {
        for (number, count) in other.by_number {
            *self.by_number.entry(number).or_default() += count;
        }
    }

    fn of(&self, number: usize) -> usize {
        self.by_number.get(&number).copied().unwrap_or(0)
    }

    /// Each of these numbers has to come, and no other may.
    fn fault(&self, numbers: &[usize]) -> Option<String> {
        let left_out = numbers.iter().find(|&&number| self.of(number) == 0);
        let unknown = self
            .by_number
            .keys()
            .find(|number| !numbers.contains(number));
        match (left_out, unknown) {
            (Some(number), _) => Some(format!("none had refusal number {number}: try more")),
            (_, Some(number)) => Some(format!("there is no refusal number {number}")),
            (None, None) => None,
        }
    }

    fn write_from(&self, least: usize) -> String {
        let counts = self.by_number.range(least..);
        let written: Vec<String> = counts
            .map(|(number, count)| format!("{number}: {count}"))
            .collect();
        written.join(", ")
    }
}

/// Told before anything smaller is tried: a faulty library may end the program there.
fn tell_difference(what: &str, mode: &str, seed: u64, number: usize) {
    eprintln!(
        "calls: {what} (call {number} of seed {seed}; `{} {mode} {seed} {number}` shows it as it was made)",
        std::env::args().next().unwrap_or_default()
    );
}

/// Calls of fog_survey.
#[derive(Default)]
pub struct Surveys {
    by_refusal: Counts,
    messages: usize,
    most_messages: usize,
    full: usize,
    most_paths: usize,
    handhelds: Handhelds,
}

/// How many accepted calls had them.
#[derive(Default)]
struct Handhelds {
    at_an_end: usize,
    among_the_others: usize,
    all_others: usize,
}

impl Handhelds {
    fn add(&mut self, call: &Call) {
        let cell = |radio: &usize| call.table[radio * call.radios + radio];
        let (ends, others): (Vec<usize>, Vec<usize>) =
            (0..call.radios).partition(|&radio| radio == call.source || radio == call.destination);
        let handhelds = others.iter().filter(|radio| cell(radio) == 1).count();
        self.at_an_end += usize::from(ends.iter().any(|radio| cell(radio) == 1));
        self.among_the_others += usize::from(handhelds > 0);
        self.all_others += usize::from(handhelds > 0 && handhelds == others.len());
    }

    fn join(&mut self, other: Handhelds) {
        self.at_an_end += other.at_an_end;
        self.among_the_others += other.among_the_others;
        self.all_others += other.all_others;
    }

    fn write(&self) -> String {
        format!(
            "S or T a handheld in {}, another radio in {}, all others in {}",
            self.at_an_end, self.among_the_others, self.all_others
        )
    }

    fn fault(&self) -> Option<String> {
        let counts = [self.at_an_end, self.among_the_others, self.all_others];
        counts
            .contains(&0)
            .then(|| format!("{}: try more", self.write()))
    }
}

impl Tally for Surveys {
    const CASES: &'static str = "calls";

    fn take(&mut self, seed: u64, number: usize) -> bool {
        let trial = random_calls::trial_of(seed, number);
        let Ok(left) = trial.compare() else {
            return false;
        };
        let numbers = left.numbers;
        self.by_refusal.add(numbers.refusal);
        self.messages += numbers.messages;
        self.most_messages = self.most_messages.max(numbers.messages);
        self.most_paths = self.most_paths.max(numbers.paths);
        if numbers.refusal == 0 {
            self.full += usize::from(numbers.paths == trial.call.wanted);
            self.handhelds.add(&trial.call);
        }
        true
    }

    fn join(&mut self, other: Surveys) {
        self.by_refusal.join(other.by_refusal);
        self.messages += other.messages;
        self.most_messages = self.most_messages.max(other.most_messages);
        self.most_paths = self.most_paths.max(other.most_paths);
        self.full += other.full;
        self.handhelds.join(other.handhelds);
    }

    fn write(&self) -> String {
        format!(
            "accepted {} ({} full, at most {} paths and {} messages, {} messages in all; {}); refused by number {}",
            self.by_refusal.of(0),
            self.full,
            self.most_paths,
            self.most_messages,
            self.messages,
            self.handhelds.write(),
            self.by_refusal.write_from(1)
        )
    }

    fn fault(&self) -> Option<String> {
        let of_numbers = self.by_refusal.fault(&OF_SURVEYS);
        of_numbers.or_else(|| self.handhelds.fault())
    }

    fn describe_difference(seed: u64, number: usize) -> String {
        let trial = random_calls::trial_of(seed, number);
        tell_difference(&trial.what_differs(), "one", seed, number);
        let smallest = smaller::shrink(trial);
        format!("the call made smaller\n{}", smallest.describe())
    }
}

/// Calls of fog_routes.
#[derive(Default)]
pub struct Routes {
    by_refusal: Counts,
    by_paths: Counts,
    most_on_paths: usize,
}

impl Tally for Routes {
    const CASES: &'static str = "route lists";

    fn take(&mut self, seed: u64, number: usize) -> bool {
        let trial = random_routes::trial_of(seed, number);
        let Ok(left) = trial.compare() else {
            return false;
        };
        self.by_refusal.add(left.refusal);
        if left.refusal == 0 {
            self.by_paths.add(trial.call.count);
            let filled = &left.records[..trial.call.radios];
            let on_paths = filled.iter().filter(|record| record[0] != 0).count();
            self.most_on_paths = self.most_on_paths.max(on_paths);
        }
        true
    }

    fn join(&mut self, other: Routes) {
        self.by_refusal.join(other.by_refusal);
        self.by_paths.join(other.by_paths);
        self.most_on_paths = self.most_on_paths.max(other.most_on_paths);
    }

    fn write(&self) -> String {
        format!(
            "accepted {} (by paths {}; at most {} radios on paths); refused by number {}",
            self.by_refusal.of(0),
            self.by_paths.write_from(0),
            self.most_on_paths,
            self.by_refusal.write_from(1)
        )
    }

    fn fault(&self) -> Option<String> {
        self.by_refusal.fault(&OF_ROUTES)
    }

    fn describe_difference(seed: u64, number: usize) -> String {
        let trial = random_routes::trial_of(seed, number);
        tell_difference(&trial.what_differs(), "routes one", seed, number);
        let smallest = smaller_routes::shrink(trial);
        format!("the call made smaller\n{}", smallest.describe())
    }
}
