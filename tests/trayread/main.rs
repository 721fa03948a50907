//! Runs the program `trayread` over some 1,800 inputs, good and bad, and compares what it prints byte for byte; then looks at
//! its conduct.
//!
//! `program PATH`, where PATH is the program. A failure names the input; inputs are the same in every run.

mod inputs;
mod printed;

use std::process::ExitCode;
use traymark_tests::program::{any_arguments, exit, Program};

fn main() -> ExitCode {
    exit("program", tested())
}

fn tested() -> Result<String, String> {
    let path = std::env::args().nth(1).ok_or("usage: program PATH")?;
    let inputs = inputs::inputs();
    Program::trayread(path).hold(&inputs, &any_arguments())?;
    Ok(format!("{} inputs", inputs.len()))
}
