//! Runs the program `planwiden` over some 200 inputs, good and bad, and compares what it prints byte for byte; looks at its
//! conduct; then hands plans that it widened, with photographs, to the program `trayread`.
//!
//! `widener PLANWIDEN TRAYREAD`, the paths of the two programs. A failure names the input; inputs are the same in every run.

mod inputs;
mod piped;

use std::process::ExitCode;
use traymark_tests::program::{any_arguments, exit, Program};

fn main() -> ExitCode {
    exit("widener", tested())
}

fn tested() -> Result<String, String> {
    let paths: Vec<String> = std::env::args().skip(1).collect();
    let [planwiden, trayread] = paths.try_into().map_err(|_| "usage: widener PLANWIDEN TRAYREAD")?;
    let planwiden = Program::planwiden(planwiden);
    let trayread = Program::trayread(trayread);
    let inputs = inputs::inputs();
    planwiden.hold(&inputs, &any_arguments())?;
    let piped = piped::hold(&planwiden, &trayread)?;
    Ok(format!("{} inputs, {piped} plans widened and read with", inputs.len()))
}
