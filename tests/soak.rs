//! Random calls, route lists and texts, held against the second program until the time is up.
//!
//! The library is called in this process, the compiled program is started once a text. They are
//! those of calls.rs and texts.rs: each comes from the seed and its number alone.

#[path = "texts/both_sheets.rs"]
mod both_sheets;
#[path = "calls/both_sides.rs"]
mod both_sides;
#[path = "texts/capture.rs"]
mod capture;
#[path = "calls/chance.rs"]
mod chance;
#[path = "../second/checks.rs"]
mod checks;
#[path = "calls/guarded.rs"]
mod guarded;
#[path = "../second/halves.rs"]
mod halves;
#[path = "../second/largest.rs"]
mod largest;
#[allow(dead_code)]
#[path = "calls/lines.rs"]
mod lines;
#[allow(dead_code)]
#[path = "../second/map.rs"]
mod map;
#[allow(dead_code)]
#[path = "../second/outcome.rs"]
mod outcome;
#[path = "texts/program.rs"]
mod program;
#[path = "calls/random.rs"]
mod random_calls;
#[path = "calls/random_routes.rs"]
mod random_routes;
#[allow(dead_code)]
#[path = "texts/random.rs"]
mod random_texts;
#[path = "../rust/src/raw.rs"]
mod raw;
#[allow(dead_code)]
#[path = "../second/refusals.rs"]
mod refusals;
#[path = "calls/route_sides.rs"]
mod route_sides;
#[path = "../second/routes.rs"]
mod routes;
#[path = "../second/calls.rs"]
mod second_calls;
#[path = "calls/shapes.rs"]
mod shapes;
#[path = "../second/sheet.rs"]
mod sheet;
#[path = "calls/smaller.rs"]
mod smaller;
#[path = "calls/smaller_maps.rs"]
mod smaller_maps;
#[path = "calls/smaller_routes.rs"]
mod smaller_routes;
#[path = "texts/smaller.rs"]
mod smaller_texts;

use std::collections::HashSet;
use std::fs::File;
use std::io::{self, IsTerminal};
use std::os::unix::fs::FileExt;
use std::process::ExitCode;
use std::sync::atomic::{AtomicUsize, Ordering};
use std::sync::Mutex;
use std::time::{Duration, Instant};

use program::Program;

const USAGE: &str = "\
usage: soak MINUTES SEED NOTES PROGRAM [WORDS]    random cases for so many minutes
the file NOTES is written with what each thread is at, for a library that ends this process
";

const EXIT_FAULT: u8 = 1;
const EXIT_USAGE: u8 = 2;

/// The machine that runs this is shared; one calls while the other waits for the program.
const THREADS: usize = 2;
/// The kinds take turns of this length, so that each gets as much of the time.
const TURN: Duration = Duration::from_millis(100);
/// A terminal's one line is written again and again; a file gets fewer.
const BETWEEN_LINES_ON_TERMINAL: Duration = Duration::from_millis(500);
const BETWEEN_LINES_IN_FILE: Duration = Duration::from_secs(10);
/// No case takes a second, and making one smaller takes a few.
const LONGEST_CASE: Duration = Duration::from_secs(30);

fn main() -> ExitCode {
    let arguments: Vec<String> = std::env::args().skip(1).collect();
    let words: Vec<&str> = arguments.iter().map(String::as_str).collect();
    let Some(soak) = Soak::read(&words) else {
        eprint!("{USAGE}");
        return ExitCode::from(EXIT_USAGE);
    };
    soak.run();
    println!("{}", soak.last_line());
    if soak.differences() > 0 {
        return ExitCode::from(EXIT_FAULT);
    }
    ExitCode::SUCCESS
}

#[derive(Clone, Copy, PartialEq, Eq, Hash)]
enum Kind {
    Call,
    Route,
    Text,
}

impl Kind {
    fn name(self) -> &'static str {
        match self {
            Kind::Call => "call",
            Kind::Route => "route list",
            Kind::Text => "text",
        }
    }
}

/// The cases of one kind.
#[derive(Default)]
struct Cases {
    next: AtomicUsize,
    compared: AtomicUsize,
    different: AtomicUsize,
}

/// What one thread is at, so that a case that never ends can be named.
#[derive(Clone, Copy)]
struct Doing {
    kind: Kind,
    number: usize,
    since: Instant,
}

struct Soak<'words> {
    minutes: &'words str,
    time: Duration,
    seed: u64,
    /// One a thread, so that each knows its own run.
    programs: [Program<'words>; THREADS],
    started: Instant,
    calls: Cases,
    routes: Cases,
    texts: Cases,
    doing: [Mutex<Option<Doing>>; THREADS],
    notes: File,
    ended: AtomicUsize,
    /// What has been shown: one fault differs in many cases, so the first of each kind and refusal
    /// number is. Held while something is written.
    shown: Mutex<HashSet<(Kind, Option<usize>)>>,
}

impl<'words> Soak<'words> {
    /// Nothing where the arguments are wrong.
    fn read(words: &'words [&'words str]) -> Option<Soak<'words>> {
        let [minutes, seed, notes, program @ ..] = words else {
            return None;
        };
        let number: f64 = minutes.parse().ok()?;
        let time = Duration::try_from_secs_f64(60.0 * number).ok()?;
        let started = Instant::now();
        started.checked_add(time)?;
        if time.is_zero() || program.is_empty() {
            return None;
        }
        Some(Soak {
            minutes,
            time,
            seed: seed.parse().ok()?,
            programs: std::array::from_fn(|_| Program::new(program)),
            started,
            calls: Cases::default(),
            routes: Cases::default(),
            texts: Cases::default(),
            doing: Default::default(),
            notes: File::create(notes).ok()?,
            ended: AtomicUsize::new(0),
            shown: Mutex::default(),
        })
    }

    fn run(&self) {
        println!("seed {}", self.seed);
        std::thread::scope(|scope| {
            for thread in 0..THREADS {
                scope.spawn(move || {
                    // Counted also where the thread panics, or the progress would never end.
                    let _counted = CountedAtEnd(&self.ended);
                    self.take_turns(thread);
                });
            }
            self.show_progress();
        });
    }

    /// A thread ends before its time where it panics; then the others do not go on.
    fn is_over(&self) -> bool {
        self.started.elapsed() >= self.time || self.ended.load(Ordering::Relaxed) > 0
    }

    /// Each thread begins with another kind.
    fn take_turns(&self, thread: usize) {
        let kinds = [Kind::Call, Kind::Text, Kind::Route];
        for turn in thread.. {
            let turn_started = Instant::now();
            while turn_started.elapsed() < TURN {
                if self.is_over() {
                    return;
                }
                self.take_case(thread, kinds[turn % kinds.len()]);
            }
        }
    }

    fn cases(&self, kind: Kind) -> &Cases {
        match kind {
            Kind::Call => &self.calls,
            Kind::Route => &self.routes,
            Kind::Text => &self.texts,
        }
    }

    fn take_case(&self, thread: usize, kind: Kind) {
        let cases = self.cases(kind);
        let number = cases.next.fetch_add(1, Ordering::Relaxed);
        self.note(thread, kind, number);
        let differs_in = match kind {
            Kind::Call => {
                let trial = random_calls::trial_of(self.seed, number);
                let refusal = || smaller::refusal_number(&trial.call);
                trial.differs().then(refusal)
            }
            Kind::Route => {
                let trial = random_routes::trial_of(self.seed, number);
                let refusal = || Some(smaller_routes::refusal_number(&trial));
                trial.differs().then(refusal)
            }
            Kind::Text => {
                let text = random_texts::text_of(self.seed, number);
                let refusal = |_| smaller_texts::refusal_number(&text.bytes);
                both_sheets::compare(&text, &self.programs[thread])
                    .err()
                    .map(refusal)
            }
        };
        cases.compared.fetch_add(1, Ordering::Relaxed);
        if let Some(refusal) = differs_in {
            cases.different.fetch_add(1, Ordering::Relaxed);
            let is_first = lock(&self.shown).insert((kind, refusal));
            if is_first {
                self.show_difference(thread, kind, number);
            }
        }
        *lock(&self.doing[thread]) = None;
    }

    fn note(&self, thread: usize, kind: Kind, number: usize) {
        *lock(&self.doing[thread]) = Some(Doing {
            kind,
            number,
            since: Instant::now(),
        });
        let line = format!("{:10} {number:20}\n", kind.name());
        let place = thread * line.len();
        self.notes
            .write_all_at(line.as_bytes(), place as u64)
            .expect("the notes can be written");
    }

    /// Told before anything smaller is tried: a faulty library may end the program there.
    fn show_difference(&self, thread: usize, kind: Kind, number: usize) {
        let (name, seed) = (kind.name(), self.seed);
        self.write(&format!(
            "{name} {number} of seed {seed} differs, and is made smaller"
        ));
        let smaller = match kind {
            Kind::Call => {
                let smallest = smaller::shrink(random_calls::trial_of(seed, number));
                format!("  {}\n{}", smallest.what_differs(), smallest.describe())
            }
            Kind::Route => {
                let smallest = smaller_routes::shrink(random_routes::trial_of(seed, number));
                format!("  {}\n{}", smallest.what_differs(), smallest.describe())
            }
            Kind::Text => {
                let program = &self.programs[thread];
                let text = random_texts::text_of(seed, number);
                both_sheets::describe(&smaller_texts::shrink(text, program), program)
            }
        };
        self.write(&format!(
            "{name} {number} of seed {seed}, made smaller:\n{smaller}"
        ));
    }

    fn write(&self, told: &str) {
        let _held = lock(&self.shown);
        clear_progress();
        println!("{told}");
    }

    fn show_progress(&self) {
        let between = if io::stderr().is_terminal() {
            BETWEEN_LINES_ON_TERMINAL
        } else {
            BETWEEN_LINES_IN_FILE
        };
        let mut last = Instant::now();
        while self.ended.load(Ordering::Acquire) < THREADS {
            std::thread::sleep(Duration::from_millis(20));
            if last.elapsed() >= between {
                self.end_where_stuck();
                let _held = lock(&self.shown);
                clear_progress();
                eprint!("{}", self.progress_line());
                if !io::stderr().is_terminal() {
                    eprintln!();
                }
                last = Instant::now();
            }
        }
        clear_progress();
    }

    /// A case that never ends would keep the reader waiting, and nobody would know which it is.
    fn end_where_stuck(&self) {
        let is_stuck = |doing: &Doing| doing.since.elapsed() >= LONGEST_CASE;
        let mut all = self.doing.iter().filter_map(|doing| *lock(doing));
        let Some(stuck) = all.find(is_stuck) else {
            return;
        };
        self.cases(stuck.kind)
            .different
            .fetch_add(1, Ordering::Relaxed);
        // Held to the end, so that nothing is written after the last line.
        let _held = lock(&self.shown);
        clear_progress();
        let (name, number, seed) = (stuck.kind.name(), stuck.number, self.seed);
        println!("{name} {number} of seed {seed} does not come back");
        println!("{}", self.last_line());
        for program in &self.programs {
            program.stop();
        }
        std::process::exit(EXIT_FAULT.into());
    }

    fn differences(&self) -> usize {
        let kinds = [&self.calls, &self.routes, &self.texts];
        let different = |cases: &Cases| cases.different.load(Ordering::Relaxed);
        kinds.into_iter().map(different).sum()
    }

    fn progress_line(&self) -> String {
        let gone = self.started.elapsed().as_secs_f64() / 60.0;
        format!("{gone:.1} of {} minutes, {}", self.minutes, self.counts())
    }

    fn last_line(&self) -> String {
        if self.started.elapsed() < self.time {
            return format!("soak: {}", self.progress_line());
        }
        let word = if self.minutes == "1" {
            "minute"
        } else {
            "minutes"
        };
        format!("soak: {} {word}, {}", self.minutes, self.counts())
    }

    fn counts(&self) -> String {
        let differences = self.differences();
        format!(
            "{} calls, {} route lists and {} texts, {} difference{}",
            with_commas(self.calls.compared.load(Ordering::Relaxed)),
            with_commas(self.routes.compared.load(Ordering::Relaxed)),
            with_commas(self.texts.compared.load(Ordering::Relaxed)),
            with_commas(differences),
            if differences == 1 { "" } else { "s" }
        )
    }
}

struct CountedAtEnd<'counter>(&'counter AtomicUsize);

impl Drop for CountedAtEnd<'_> {
    fn drop(&mut self) {
        self.0.fetch_add(1, Ordering::Release);
    }
}

fn lock<Held>(mutex: &Mutex<Held>) -> std::sync::MutexGuard<'_, Held> {
    mutex.lock().expect("no thread panics while it holds this")
}

fn clear_progress() {
    if io::stderr().is_terminal() {
        eprint!("\r\x1b[K");
    }
}

/// 12,345,678
fn with_commas(number: usize) -> String {
    let digits = number.to_string();
    let mut written = String::new();
    for (place, digit) in digits.chars().enumerate() {
        if place > 0 && (digits.len() - place) % 3 == 0 {
            written.push(',');
        }
        written.push(digit);
    }
    written
}
