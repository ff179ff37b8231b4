//! Runs the compiled program on random texts and holds every byte of its sheets to the second
//! program.
//!
//! Each text has a number and is made from the seed and that number alone, so a text whose sheet
//! differs can be made again by itself.

#[path = "texts/both_sheets.rs"]
mod both_sheets;
#[path = "texts/capture.rs"]
mod capture;
#[path = "calls/chance.rs"]
mod chance;
#[path = "../second/checks.rs"]
mod checks;
#[path = "../second/halves.rs"]
mod halves;
#[path = "../second/largest.rs"]
mod largest;
#[allow(dead_code)]
#[path = "../second/map.rs"]
mod map;
#[allow(dead_code)]
#[path = "../second/outcome.rs"]
mod outcome;
#[allow(dead_code)]
#[path = "texts/program.rs"]
mod program;
#[path = "texts/random.rs"]
mod random_texts;
#[allow(dead_code)]
#[path = "../second/refusals.rs"]
mod refusals;
#[path = "calls/shapes.rs"]
mod shapes;
#[path = "../second/sheet.rs"]
mod sheet;
#[path = "calls/smaller_maps.rs"]
mod smaller_maps;
#[path = "texts/smaller.rs"]
mod smaller_texts;

use std::collections::BTreeMap;
use std::io::{self, IsTerminal};
use std::process::ExitCode;
use std::sync::atomic::{AtomicBool, AtomicUsize, Ordering};
use std::sync::Mutex;
use std::time::{Duration, Instant};

use both_sheets::{compare, describe};
use program::Program;
use random_texts::{text_of, Text};
use smaller_texts::shrink;

const USAGE: &str = "\
usage: texts random SEED COUNT PROGRAM [WORDS]    COUNT random texts, the same for the same seed
       texts one SEED NUMBER PROGRAM [WORDS]      only the text with that number, with both sheets
";

const EXIT_FAULT: u8 = 1;
const EXIT_USAGE: u8 = 2;

/// The machine that runs this is shared; two are enough for a minute's work.
const MOST_THREADS: usize = 2;
const BETWEEN_PROGRESS_LINES: Duration = Duration::from_secs(1);
/// How a sheet may begin: two words of its report, or its refusal number, in the order of the paper.
const KINDS: [&str; 9] = [
    "full",
    "short",
    "refused 10",
    "refused 9",
    "refused 1",
    "refused 11",
    "refused 4",
    "refused 5",
    "refused 6",
];

fn main() -> ExitCode {
    let arguments: Vec<String> = std::env::args().skip(1).collect();
    let words: Vec<&str> = arguments.iter().map(String::as_str).collect();
    let Some(result) = answer(&words) else {
        eprint!("{USAGE}");
        return ExitCode::from(EXIT_USAGE);
    };
    match result {
        Ok(()) => ExitCode::SUCCESS,
        Err(fault) => {
            eprintln!("texts: {fault}");
            ExitCode::from(EXIT_FAULT)
        }
    }
}

/// Nothing where the arguments are wrong.
fn answer(words: &[&str]) -> Option<Result<(), String>> {
    let [what, seed, number, program @ ..] = words else {
        return None;
    };
    let (seed, number) = (seed.parse().ok()?, number.parse().ok()?);
    if program.is_empty() {
        return None;
    }
    let program = Program::new(program);
    match *what {
        "random" => Some(random_texts(seed, number, &program)),
        "one" => Some(one_text(seed, number, &program)),
        _ => None,
    }
}

fn kind_of(sheet: &str) -> String {
    let fields: Vec<&str> = sheet
        .lines()
        .next()
        .unwrap_or_default()
        .split('\t')
        .collect();
    match fields[..] {
        ["report", _, word, ..] => word.to_string(),
        ["refused", number, _] => format!("refused {number}"),
        _ => "no sheet".to_string(),
    }
}

/// What the texts showed, for the lines at the end.
#[derive(Default)]
struct Tally {
    by_kind: BTreeMap<String, usize>,
    damaged: usize,
    damaged_and_accepted: usize,
    with_hands: usize,
    with_hands_and_accepted: usize,
    longest_sheet: usize,
}

impl Tally {
    fn add(&mut self, text: &Text, sheet: &str) {
        *self.by_kind.entry(kind_of(sheet)).or_default() += 1;
        let is_accepted = sheet.starts_with("report");
        self.damaged += usize::from(text.is_damaged);
        self.damaged_and_accepted += usize::from(text.is_damaged && is_accepted);
        self.with_hands += usize::from(text.has_hands);
        self.with_hands_and_accepted += usize::from(text.has_hands && is_accepted);
        self.longest_sheet = self.longest_sheet.max(sheet.len());
    }

    fn join(&mut self, other: Tally) {
        for (kind, count) in other.by_kind {
            *self.by_kind.entry(kind).or_default() += count;
        }
        self.damaged += other.damaged;
        self.damaged_and_accepted += other.damaged_and_accepted;
        self.with_hands += other.with_hands;
        self.with_hands_and_accepted += other.with_hands_and_accepted;
        self.longest_sheet = self.longest_sheet.max(other.longest_sheet);
    }

    fn count(&self, kind: &str) -> usize {
        self.by_kind.get(kind).copied().unwrap_or_default()
    }

    fn write(&self) -> String {
        let counts: Vec<String> = KINDS
            .iter()
            .map(|kind| format!("{kind}: {}", self.count(kind)))
            .collect();
        format!(
            "{}; {} damaged ({} of them accepted), {} with hand lines ({} of them accepted), the longest sheet {} bytes",
            counts.join(", "),
            self.damaged,
            self.damaged_and_accepted,
            self.with_hands,
            self.with_hands_and_accepted,
            self.longest_sheet
        )
    }

    /// Texts that leave out a refusal would compare less than they say.
    fn kind_left_out(&self) -> Option<&'static str> {
        KINDS.into_iter().find(|kind| self.count(kind) == 0)
    }
}

/// What the threads share: the next text's number, and the first difference found.
struct Work<'program> {
    seed: u64,
    count: usize,
    program: &'program Program<'program>,
    next: AtomicUsize,
    ended: AtomicUsize,
    stopped: AtomicBool,
    first_difference: Mutex<Option<usize>>,
}

impl Work<'_> {
    fn run(&self) -> Tally {
        let mut tally = Tally::default();
        while !self.stopped.load(Ordering::Relaxed) {
            let number = self.next.fetch_add(1, Ordering::Relaxed);
            if number >= self.count {
                break;
            }
            let text = text_of(self.seed, number);
            match compare(&text, self.program) {
                Ok(sheet) => tally.add(&text, &sheet),
                Err(_) => self.found_difference(number),
            }
        }
        tally
    }

    fn found_difference(&self, number: usize) {
        self.stopped.store(true, Ordering::Relaxed);
        let mut first = self.first_difference.lock().expect("no thread panics here");
        *first = Some(first.map_or(number, |before| before.min(number)));
    }

    /// For a person who waits; a file or another program gets no progress lines.
    fn show_progress(&self, threads: usize) {
        let shown = io::stderr().is_terminal();
        let mut last = Instant::now();
        while self.ended.load(Ordering::Acquire) < threads {
            std::thread::sleep(Duration::from_millis(20));
            if shown && last.elapsed() >= BETWEEN_PROGRESS_LINES {
                let made = self.next.load(Ordering::Relaxed).min(self.count);
                eprint!("\r{made} of {} texts", self.count);
                last = Instant::now();
            }
        }
        if shown {
            eprint!("\r\x1b[K");
        }
    }
}

struct CountedAtEnd<'counter>(&'counter AtomicUsize);

impl Drop for CountedAtEnd<'_> {
    fn drop(&mut self) {
        self.0.fetch_add(1, Ordering::Release);
    }
}

fn random_texts(seed: u64, count: usize, program: &Program) -> Result<(), String> {
    println!("seed {seed}, {count} texts");
    let work = Work {
        seed,
        count,
        program,
        next: AtomicUsize::new(0),
        ended: AtomicUsize::new(0),
        stopped: AtomicBool::new(false),
        first_difference: Mutex::new(None),
    };
    let threads = std::thread::available_parallelism()
        .map_or(1, |number| number.get())
        .min(MOST_THREADS);
    let mut tally = Tally::default();
    std::thread::scope(|scope| {
        let handles: Vec<_> = (0..threads)
            .map(|_| {
                scope.spawn(|| {
                    // Counted also where the thread panics, or the progress would never end.
                    let _counted = CountedAtEnd(&work.ended);
                    work.run()
                })
            })
            .collect();
        work.show_progress(threads);
        for handle in handles {
            tally.join(handle.join().expect("a thread of this comparison panicked"));
        }
    });
    let first = *work
        .first_difference
        .lock()
        .expect("all threads have ended");
    if let Some(number) = first {
        return Err(describe_difference(seed, number, program));
    }
    println!("{}", tally.write());
    if let Some(kind) = tally.kind_left_out() {
        return Err(format!("no text had the sheet '{kind}': try more texts"));
    }
    println!("{count} texts equal");
    Ok(())
}

fn describe_difference(seed: u64, number: usize, program: &Program) -> String {
    let text = text_of(seed, number);
    let what = match compare(&text, program) {
        Ok(_) => return format!("text {number} of seed {seed} differed once and not again"),
        Err(what) => what,
    };
    format!(
        "{what}\n(text {number} of seed {seed}; `{} one {seed} {number} {}` shows it as it was made)\n\
         the text made smaller\n{}",
        std::env::args().next().unwrap_or_default(),
        program.words.join(" "),
        describe(&shrink(text, program), program)
    )
}

fn one_text(seed: u64, number: usize, program: &Program) -> Result<(), String> {
    let text = text_of(seed, number);
    println!("{}", text.bytes.escape_ascii());
    match compare(&text, program) {
        Ok(sheet) => {
            println!("both: {}", sheet.as_bytes().escape_ascii());
            Ok(())
        }
        Err(what) => Err(format!("text {number} of seed {seed}: {what}")),
    }
}
