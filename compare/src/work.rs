//! Numbered cases, split over threads, with a progress line.
use crate::classes::ALL;
use crate::library::Library;
use crate::reads::{compared, Comparison, Met, Verdict};
use std::io::{IsTerminal, Write};
use std::sync::atomic::{AtomicU64, Ordering};
use std::thread;
use std::time::{Duration, Instant};

/// Cases that a thread takes at a time.
const BLOCK: u64 = 1024;
/// Unlisted differences whose cases are kept.
const KEPT: usize = 12;

/// What became of the cases.
#[derive(Clone, Default)]
pub struct Tally {
    /// All.
    pub cases: u64,
    /// Those without any difference.
    pub agreed: u64,
    /// By class, the cases in which a listed difference was met.
    pub listed: Vec<u64>,
    /// Cases with a difference of no class.
    pub unlisted: u64,
    /// Some of these: number of the case and what differs.
    pub kept: Vec<(u64, String)>,
    /// What was met on the way.
    pub met: Met,
}

impl Tally {
    fn add(&mut self, index: u64, Verdict { listed, unlisted, met }: Verdict) {
        self.listed.resize(ALL.len(), 0);
        self.cases += 1;
        join(&mut self.met, &met);
        if listed.is_empty() && unlisted.is_none() {
            self.agreed += 1;
        }
        let mut classes = [false; ALL.len()];
        listed.iter().for_each(|class| classes[class.index()] = true);
        self.listed.iter_mut().zip(classes).for_each(|(count, met)| *count += u64::from(met));
        if let Some(what) = unlisted {
            self.unlisted += 1;
            // one of each sort
            if self.kept.len() < KEPT && !self.kept.iter().any(|(_, other)| *other == what) {
                self.kept.push((index, what));
            }
        }
    }

    /// Puts another tally to this one.
    pub fn join(&mut self, other: &Tally) {
        self.listed.resize(ALL.len(), 0);
        self.cases += other.cases;
        self.agreed += other.agreed;
        self.unlisted += other.unlisted;
        join(&mut self.met, &other.met);
        self.listed.iter_mut().zip(&other.listed).for_each(|(count, more)| *count += more);
        for (index, what) in &other.kept {
            match self.kept.iter_mut().find(|(_, mine)| mine == what) {
                Some(mine) => mine.0 = mine.0.min(*index),
                None => self.kept.push((*index, what.clone())),
            }
        }
        self.kept.sort();
        self.kept.truncate(KEPT);
    }
}

fn join(met: &mut Met, other: &Met) {
    met.kinds.iter_mut().zip(other.kinds).for_each(|(count, more)| *count += more);
    met.ends.iter_mut().zip(other.ends).for_each(|(count, more)| *count += more);
    met.runs += other.runs;
    met.raised.iter_mut().zip(other.raised).for_each(|(count, more)| *count += more);
    let edited = met.edited.iter_mut().flatten().zip(other.edited.iter().flatten());
    edited.for_each(|(count, more)| *count += more);
    met.fits.iter_mut().zip(other.fits).for_each(|(count, more)| *count += more);
    met.anew += other.anew;
    met.unplain += other.unplain;
}

/// Compares the cases below a number.
pub fn run(name: &str, count: u64, threads: usize, case: impl Fn(u64, &mut Comparison) + Sync) -> Tally {
    let next = AtomicU64::new(0);
    let done = AtomicU64::new(0);
    let mut total = Tally::default();
    thread::scope(|scope| {
        let workers: Vec<_> = (0..threads)
            .map(|_| {
                thread::Builder::new()
                    .stack_size(oracle::BIG_STACK)
                    .spawn_scoped(scope, || worker(count, &next, &done, &case))
                    .expect("a thread can be started")
            })
            .collect();
        progress(name, count, &done, || workers.iter().all(|worker| worker.is_finished()));
        for worker in workers {
            match worker.join() {
                Ok(tally) => total.join(&tally),
                Err(payload) => std::panic::resume_unwind(payload),
            }
        }
    });
    total
}

fn worker(count: u64, next: &AtomicU64, done: &AtomicU64, case: &(impl Fn(u64, &mut Comparison) + Sync)) -> Tally {
    let mut library = Library::new();
    let mut tally = Tally::default();
    loop {
        let from = next.fetch_add(BLOCK, Ordering::Relaxed);
        if from >= count {
            return tally;
        }
        block(&mut library, (from..count.min(from + BLOCK)).collect(), &mut tally, case);
        done.fetch_add(BLOCK, Ordering::Relaxed);
    }
}

// cases for which an answer is missing come again when it is there
fn block(library: &mut Library, mut cases: Vec<u64>, tally: &mut Tally, case: &impl Fn(u64, &mut Comparison)) {
    while !cases.is_empty() {
        cases.retain(|index| {
            let verdict = compared(library, |comparison| case(*index, comparison));
            let again = library.take_waiting();
            if !again {
                tally.add(*index, verdict);
            }
            again
        });
        library.fetch();
    }
    library.forget();
}

// a line on a terminal, twice a second
fn progress(name: &str, count: u64, done: &AtomicU64, over: impl Fn() -> bool) {
    let shown = std::io::stderr().is_terminal();
    let began = Instant::now();
    while !over() {
        if shown {
            let done = done.load(Ordering::Relaxed).min(count);
            let share = 100 * done / count.max(1);
            eprint!("\r\x1b[K{share:3}% of {count} {name:.60}, {} s", began.elapsed().as_secs());
            let _ = std::io::stderr().flush();
        }
        thread::sleep(Duration::from_millis(if shown { 500 } else { 20 }));
    }
    if shown {
        eprint!("\r\x1b[K");
    }
}
