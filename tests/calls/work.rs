//! Random cases of one kind, tried by two threads.

use std::io::{self, IsTerminal};
use std::sync::atomic::{AtomicBool, AtomicUsize, Ordering};
use std::sync::Mutex;
use std::time::{Duration, Instant};

/// The machine that runs this is shared; two are enough for a minute's work.
const MOST_THREADS: usize = 2;
const BETWEEN_PROGRESS_LINES: Duration = Duration::from_secs(1);

/// What the cases of one kind showed. A case comes from the seed and its number alone.
pub trait Tally: Default + Send {
    /// What the cases are, as in "20 of 100 calls".
    const CASES: &'static str;

    /// Tries one case and counts it; false where the two sides differ.
    fn take(&mut self, seed: u64, number: usize) -> bool;
    fn join(&mut self, other: Self);
    fn write(&self) -> String;

    /// What the cases left out, since they would compare less than they say, or what may not come.
    fn fault(&self) -> Option<String>;

    /// The case in words, made smaller.
    fn describe_difference(seed: u64, number: usize) -> String;
}

pub fn try_all<Kind: Tally>(seed: u64, count: usize) -> Result<(), String> {
    println!("seed {seed}, {count} {}", Kind::CASES);
    let work = Work {
        seed,
        count,
        next: AtomicUsize::new(0),
        stopped: AtomicBool::new(false),
        first_difference: Mutex::new(None),
    };
    let tally = work.run_threads::<Kind>();
    let first = *work
        .first_difference
        .lock()
        .expect("all threads have ended");
    if let Some(number) = first {
        return Err(Kind::describe_difference(seed, number));
    }
    println!("{}", tally.write());
    if let Some(fault) = tally.fault() {
        return Err(fault);
    }
    println!("{count} {} equal", Kind::CASES);
    Ok(())
}

/// What the threads share: the next case's number, and the first difference found.
struct Work {
    seed: u64,
    count: usize,
    next: AtomicUsize,
    stopped: AtomicBool,
    first_difference: Mutex<Option<usize>>,
}

impl Work {
    fn run_threads<Kind: Tally>(&self) -> Kind {
        let threads = std::thread::available_parallelism()
            .map_or(1, |number| number.get())
            .min(MOST_THREADS);
        let ended = AtomicUsize::new(0);
        let mut tally = Kind::default();
        std::thread::scope(|scope| {
            let handles: Vec<_> = (0..threads)
                .map(|_| {
                    scope.spawn(|| {
                        // Counted also where the thread panics, or the progress would never end.
                        let _counted = CountedAtEnd(&ended);
                        self.run::<Kind>()
                    })
                })
                .collect();
            self.show_progress(Kind::CASES, &ended, threads);
            for handle in handles {
                tally.join(handle.join().expect("a thread of this comparison panicked"));
            }
        });
        tally
    }

    fn run<Kind: Tally>(&self) -> Kind {
        let mut tally = Kind::default();
        while !self.stopped.load(Ordering::Relaxed) {
            let number = self.next.fetch_add(1, Ordering::Relaxed);
            if number >= self.count {
                break;
            }
            if !tally.take(self.seed, number) {
                self.found_difference(number);
            }
        }
        tally
    }

    fn found_difference(&self, number: usize) {
        self.stopped.store(true, Ordering::Relaxed);
        let mut first = self.first_difference.lock().expect("no thread panics here");
        *first = Some(first.map_or(number, |before| before.min(number)));
    }

    /// For a person who waits; a file or another program gets no progress lines.
    fn show_progress(&self, cases: &str, ended: &AtomicUsize, threads: usize) {
        let shown = io::stderr().is_terminal();
        let mut last = Instant::now();
        while ended.load(Ordering::Acquire) < threads {
            std::thread::sleep(Duration::from_millis(20));
            if shown && last.elapsed() >= BETWEEN_PROGRESS_LINES {
                let made = self.next.load(Ordering::Relaxed).min(self.count);
                eprint!("\r{made} of {} {cases}", self.count);
                last = Instant::now();
            }
        }
        if shown {
            eprint!("\r\x1b[K");
        }
    }
}

struct CountedAtEnd<'counter>(&'counter AtomicUsize);

impl Drop for CountedAtEnd<'_> {
    fn drop(&mut self) {
        self.0.fetch_add(1, Ordering::Release);
    }
}
