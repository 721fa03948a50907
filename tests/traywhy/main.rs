//! Runs the program `traywhy` over some 2,900 inputs, good and bad, and compares what it prints byte for byte; then looks at its
//! conduct.
//!
//! `explainer PATH`, where PATH is the program. A failure names the input; inputs are the same in every run.

mod inputs;
mod printed;

use std::process::ExitCode;
use traymark_tests::program::{any_arguments, exit, Input, Program};

/// The first words of what it prints, and the least number of inputs that get them.
const WORDS: [(&str, usize); 4] = [("ANSWER", 50), ("OTHER", 50), ("NONE", 50), ("REFUSED", 1_000)];

fn main() -> ExitCode {
    exit("explainer", tested())
}

fn tested() -> Result<String, String> {
    let path = std::env::args().nth(1).ok_or("usage: explainer PATH")?;
    let inputs = inputs::inputs();
    Program::traywhy(path).hold(&inputs, &any_arguments())?;
    let mut seen = Vec::new();
    for (word, least) in WORDS {
        let number = inputs.iter().filter(|input: &&Input| input.printed.starts_with(word.as_bytes())).count();
        if number < least {
            return Err(format!("{word} for {number} inputs, fewer than {least}"));
        }
        seen.push(format!("{number} {word}"));
    }
    Ok(format!("{} inputs: {}", inputs.len(), seen.join(", ")))
}
