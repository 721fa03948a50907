//! Runs the program `trayseason` over some 1,600 dates and window files, good and bad, and compares what it prints byte for byte;
//! looks at its conduct; then gives it what is no date in its form.
//!
//! `dater PATH`, where PATH is the program. A failure names the input; inputs are the same in every run.

mod inputs;
mod misuses;

use std::process::ExitCode;
use traymark_tests::program::{exit, Input, Program};

/// The refusals that it prints, and the least number of inputs that get them; the others get a season.
const REFUSALS: [(&str, usize); 3] = [("REFUSED 14\n", 200), ("REFUSED 15\n", 150), ("REFUSED 16\n", 300)];
const SEASONS: usize = 500;

fn main() -> ExitCode {
    exit("dater", tested())
}

fn tested() -> Result<String, String> {
    let path = std::env::args().nth(1).ok_or("usage: dater PATH")?;
    let (inputs, misuses) = (inputs::inputs(), misuses::misuses());
    Program::trayseason(path).hold(&inputs, &misuses)?;
    let mut seasons = inputs.len();
    let mut seen = Vec::new();
    for (line, least) in REFUSALS {
        let number = inputs.iter().filter(|input: &&Input| input.printed == line.as_bytes()).count();
        if number < least {
            return Err(format!("{} for {number} inputs, fewer than {least}", line.trim_end()));
        }
        seen.push(format!("{number} {}", line.trim_end()));
        seasons -= number;
    }
    if seasons < SEASONS {
        return Err(format!("a season for {seasons} inputs, fewer than {SEASONS}"));
    }
    Ok(format!("{} inputs: {seasons} seasons, {}; {} misuses", inputs.len(), seen.join(", "), misuses.len()))
}
