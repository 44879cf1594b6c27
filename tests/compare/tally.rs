// Counts of checks, and the differences found, of which the first 20 of a run are printed; a run in parts; counts of what came up.

use std::collections::BTreeMap;
use std::fmt::Debug;
use std::sync::atomic::{AtomicU64, Ordering};
use std::thread;

const SHOWN: u64 = 20;
// How many parts a long run has.
pub const PARTS: u64 = 2;
static DIFFERENCES: AtomicU64 = AtomicU64::new(0);

#[derive(Default)]
pub struct Tally {
    pub checks: u64,
    pub differences: u64,
}

impl Tally {
    pub fn check(&mut self, holds: bool, what: impl FnOnce() -> String) {
        self.checks += 1;
        if !holds {
            self.differences += 1;
            if DIFFERENCES.fetch_add(1, Ordering::Relaxed) < SHOWN {
                println!("difference: {}", what());
            }
        }
    }

    pub fn equal<T: PartialEq + Debug>(&mut self, got: T, expected: T, what: impl FnOnce() -> String) {
        let holds = got == expected;
        self.check(holds, || format!("{}: got {got:?}, expected {expected:?}", what()));
    }

    pub fn add(&mut self, other: Tally) {
        self.checks += other.checks;
        self.differences += other.differences;
    }
}

// The parts of a run, told by their numbers from 0 on, each on a thread of its own.
pub fn in_parts(part: impl Fn(u64) -> Tally + Copy + Send) -> Tally {
    thread::scope(|scope| {
        let threads: Vec<_> = (0..PARTS).map(|number| scope.spawn(move || part(number))).collect();
        let mut total = Tally::default();
        for thread in threads {
            total.add(thread.join().expect("a part ends"));
        }
        total
    })
}

// How often each outcome came up in a random run.
#[derive(Default)]
pub struct Outcomes(BTreeMap<String, u64>);

impl Outcomes {
    pub fn seen(&mut self, outcome: String) {
        *self.0.entry(outcome).or_default() += 1;
    }

    // Each of these must come up, or the run shows less than it seems to.
    pub fn cover(&self, tally: &mut Tally, outcomes: &[&str], least: u64) {
        for &outcome in outcomes {
            let seen = self.0.get(outcome).copied().unwrap_or(0);
            tally.check(seen >= least, || format!("outcome {outcome} came up {seen} times only"));
        }
    }

    pub fn print(&self) {
        let seen: Vec<String> = self.0.iter().map(|(outcome, count)| format!("{outcome} {count}")).collect();
        println!("outcomes: {}", seen.join(", "));
    }
}
