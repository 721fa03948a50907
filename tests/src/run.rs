//! Runs suites of cases on all processors. A case is named by its suite and its seed, and is the same in every run.

use crate::counts::Counts;
use crate::random::Random;
use std::panic::{catch_unwind, AssertUnwindSafe};
use std::sync::atomic::{AtomicUsize, Ordering};
use std::sync::Mutex;
use std::thread;

/// A case of a suite: its seed, random numbers of its own, the counts.
pub type Case = fn(u64, &mut Random, &mut Counts) -> Result<(), String>;

pub struct Suite {
    pub name: &'static str,
    pub cases: u64,
    pub case: Case,
}

impl Suite {
    pub fn run(&self, seed: u64, counts: &mut Counts) -> Result<(), String> {
        let name = self.name.bytes().fold(0, |hash: u64, byte| hash.wrapping_mul(0x100_0000_01b3) ^ u64::from(byte));
        let mut random = Random::new(name.wrapping_add(seed));
        let case = AssertUnwindSafe(|| (self.case)(seed, &mut random, counts));
        let result = catch_unwind(case).unwrap_or(Err("panicked".into()));
        result.map_err(|what| format!("suite {}, seed {seed}: {what}", self.name))
    }
}

/// Runs all cases of all suites, or stops after the first failures.
pub fn run(suites: &[Suite]) -> Result<Counts, Vec<String>> {
    let cases: Vec<(&Suite, u64)> =
        suites.iter().flat_map(|suite| (0..suite.cases).map(move |seed| (suite, seed))).collect();
    let next = AtomicUsize::new(0);
    let total = Mutex::new(Counts::default());
    let failures = Mutex::new(Vec::new());
    let work = || {
        let mut counts = Counts::default();
        while let Some((suite, seed)) = cases.get(next.fetch_add(1, Ordering::Relaxed)) {
            if let Err(failure) = suite.run(*seed, &mut counts) {
                failures.lock().unwrap().push(failure);
                next.store(cases.len(), Ordering::Relaxed);
            }
        }
        total.lock().unwrap().add(&counts);
    };
    thread::scope(|scope| {
        for _ in 0..thread::available_parallelism().map_or(1, usize::from) {
            scope.spawn(work);
        }
    });
    let failures = failures.into_inner().unwrap();
    match failures.is_empty() {
        true => Ok(total.into_inner().unwrap()),
        false => Err(failures),
    }
}
