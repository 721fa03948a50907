//! Holds the twenty-two calls against the independent decoder, the theory and document 01's own cases.
//!
//! `calls` runs everything, `calls SUITE` one suite, `calls SUITE SEED` one case; a failure names both.

mod suites;

use std::process::ExitCode;
use traymark_tests::counts::Counts;
use traymark_tests::run::{run, Suite};

fn main() -> ExitCode {
    let suites = suites::all();
    let words: Vec<String> = std::env::args().skip(1).collect();
    let result = match words.as_slice() {
        [] => run(&suites).and_then(covered),
        [name] => named(&suites, name).and_then(|suite| run(std::slice::from_ref(suite))),
        [name, seed] => named(&suites, name).and_then(|suite| again(suite, seed)),
        _ => Err(vec!["usage: calls [SUITE [SEED]]".into()]),
    };
    match result {
        Ok(counts) => {
            println!("calls: ok: {counts}");
            ExitCode::SUCCESS
        }
        Err(failures) => {
            failures.iter().for_each(|failure| println!("calls: FAILED: {failure}"));
            ExitCode::FAILURE
        }
    }
}

fn covered(counts: Counts) -> Result<Counts, Vec<String>> {
    match counts.missing() {
        None => Ok(counts),
        Some(what) => Err(vec![format!("{what}: {counts}")]),
    }
}

fn named<'a>(suites: &'a [Suite], name: &str) -> Result<&'a Suite, Vec<String>> {
    suites.iter().find(|suite| suite.name == name).ok_or(vec![format!("no suite {name}")])
}

fn again(suite: &Suite, seed: &str) -> Result<Counts, Vec<String>> {
    let seed = seed.parse().map_err(|_| vec![format!("no seed {seed}")])?;
    let mut counts = Counts::default();
    suite.run(seed, &mut counts).map_err(|failure| vec![failure])?;
    Ok(counts)
}
