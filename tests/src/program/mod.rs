//! A program that reads standard input and prints an answer: run on inputs, and what it prints held against what it is to
//! print, byte for byte; then its conduct.

mod conduct;

use crate::random::Random;
use independent::PLAN;
use std::ffi::OsString;
use std::io::Write;
use std::process::{Command, ExitCode, Output, Stdio};
use std::thread::sleep;
use std::time::Duration;

pub struct Program {
    /// its name in what it says on standard error
    name: &'static str,
    path: String,
    /// what it says to arguments that it does not take
    usage: &'static str,
}

pub struct Input {
    pub name: String,
    pub arguments: Vec<OsString>,
    pub bytes: Vec<u8>,
    /// how many pieces it is handed over in
    pub pieces: usize,
    pub printed: Vec<u8>,
}

impl Input {
    /// An input that is handed over in one piece, without an argument.
    pub fn new(name: impl Into<String>, bytes: Vec<u8>, printed: impl Into<Vec<u8>>) -> Input {
        Input { name: name.into(), arguments: Vec::new(), bytes, pieces: 1, printed: printed.into() }
    }
}

/// Arguments of a program that takes none.
pub fn any_arguments() -> Vec<Vec<OsString>> {
    let any = [&["--help"] as &[&str], &["-h"], &["input"], &[""], &["input", "output"], &["a", "b", "c"]];
    any.map(|arguments| arguments.iter().map(OsString::from).collect()).to_vec()
}

impl Program {
    pub fn trayread(path: String) -> Program {
        let usage = "usage: trayread < input\n\
                     reads a plan, symbols and doubts, and prints the reading or a refusal; see man trayread\n";
        Program { name: "trayread", path, usage }
    }

    pub fn traywhy(path: String) -> Program {
        let usage = "usage: traywhy < input\n\
                     tells why the expected record did not come up; see man traywhy\n";
        Program { name: "traywhy", path, usage }
    }

    pub fn planwiden(path: String) -> Program {
        let usage = "usage: planwiden < old > new\n\
                     turns plans of 24 bytes into plans of 40 bytes; see man planwiden\n";
        Program { name: "planwiden", path, usage }
    }

    pub fn trayseason(path: String) -> Program {
        let usage = "usage: trayseason YYYY-MM-DD < windows\n\
                     prints the season of the date, by a file of windows; see man trayseason\n";
        Program { name: "trayseason", path, usage }
    }

    /// All inputs, of which one is empty, then its conduct, also with arguments that it does not take.
    pub fn hold(&self, inputs: &[Input], misuses: &[Vec<OsString>]) -> Result<(), String> {
        for input in inputs {
            self.compare(input).map_err(|what| format!("{}: {what}; input {:?}", input.name, input.bytes))?;
        }
        self.behaves(inputs, misuses)
    }

    fn compare(&self, input: &Input) -> Result<(), String> {
        let output = self.run(input, Stdio::piped()).map_err(|error| format!("{}: {error}", self.path))?;
        let right = output.status.success() && output.stderr.is_empty() && output.stdout == input.printed;
        if !right {
            return Err(format!("{output:?}, expected {:?}", String::from_utf8_lossy(&input.printed)));
        }
        Ok(())
    }

    /// The shortest and the longest answer; arguments; an input that can't be read.
    fn behaves(&self, inputs: &[Input], misuses: &[Vec<OsString>]) -> Result<(), String> {
        let answered = || inputs.iter().filter(|input| !input.printed.is_empty());
        let longest = answered().max_by_key(|input| input.printed.len()).expect("there are inputs");
        let shortest = answered().min_by_key(|input| input.printed.len()).expect("there are inputs");
        for input in [shortest, longest] {
            told("an answer in one write", self.answers_in_one_write(input))?;
            told("a write that fails", self.tells_of_a_failed_write(input))?;
            told("a closed output", self.tells_of_a_closed_output(input))?;
            told("a pipe that nobody reads", self.ends_at_a_closed_pipe(input))?;
        }
        for arguments in misuses {
            told(&format!("the arguments {arguments:?}"), self.tells_its_usage(arguments))?;
        }
        let nothing = inputs.iter().find(|input| input.bytes.is_empty()).expect("no input at all is among them");
        told("a read that fails", self.takes_a_failed_read_for_the_end(nothing))
    }

    /// Runs it with the input.
    pub fn run(&self, input: &Input, stdout: Stdio) -> std::io::Result<Output> {
        hand_over(Command::new(&self.path).args(&input.arguments).stdout(stdout), input)
    }
}

/// Runs a command with the input, handed over in as many pieces.
fn hand_over(command: &mut Command, input: &Input) -> std::io::Result<Output> {
    let mut child = command.stdin(Stdio::piped()).stderr(Stdio::piped()).spawn()?;
    let mut stdin = child.stdin.take().expect("it is piped");
    for piece in input.bytes.chunks(input.bytes.len().div_ceil(input.pieces).max(1)) {
        // an answer may come before all was read
        let written = stdin.write_all(piece).and_then(|()| stdin.flush());
        if written.is_err() {
            break;
        }
        if input.pieces > 1 {
            sleep(Duration::from_millis(2));
        }
    }
    drop(stdin);
    child.wait_with_output()
}

/// The first bytes of an input that is not refused, and zeros after it, every number of them to some beyond it: fewer than a
/// plan's are 1, and any other count than the input's own is 6.
pub fn all_lengths(name: &str, good: &[u8], printed: &str) -> Vec<Input> {
    let mut bytes = good.to_vec();
    bytes.resize(good.len() + 50, 0);
    let cut = |length: usize| {
        let printed = match length {
            0..PLAN => "REFUSED 1\n",
            _ if length == good.len() => printed,
            _ => "REFUSED 6\n",
        };
        Input::new(format!("{length} bytes of {name}"), bytes[..length].to_vec(), printed)
    };
    (0..=bytes.len()).map(cut).collect()
}

/// Any bytes, fewer than so many, and what they print.
pub fn rubbish(most: usize, printed: impl Fn(&[u8]) -> String) -> Vec<Input> {
    let any = |seed: u64| {
        let random = &mut Random::new(1_000 + seed);
        let length = random.below(most);
        let bytes = random.bytes(length);
        let printed = printed(&bytes);
        Input::new(format!("random bytes {seed}"), bytes, printed)
    };
    (0..20).map(any).collect()
}

/// The input with each of these places changed to the value, and the number that this gets: alone, and where the place is of
/// the plan cut after the plan and with much after it, as the plan's number comes whatever follows.
pub fn changed(name: &str, good: &[u8], changes: &[(usize, u8, u32)]) -> Vec<Input> {
    let mut inputs = Vec::new();
    for &(place, value, number) in changes {
        let mut bytes = good.to_vec();
        bytes[place] = value;
        let name = format!("{name} with byte {place} {value}");
        let mut said = |name: String, bytes: &[u8]| {
            inputs.push(Input::new(name, bytes.to_vec(), format!("REFUSED {number}\n")));
        };
        said(name.clone(), &bytes);
        if place < PLAN {
            said(format!("{name}, cut"), &bytes[..PLAN]);
            bytes.resize(10_000, 255);
            said(format!("{name}, and more"), &bytes);
        }
    }
    inputs
}

fn told(what: &str, right: std::io::Result<bool>) -> Result<(), String> {
    match right {
        Ok(true) => Ok(()),
        other => Err(format!("{what}: {other:?}")),
    }
}

/// Says how the test of that name went.
pub fn exit(test: &str, result: Result<String, String>) -> ExitCode {
    match result {
        Ok(what) => {
            println!("{test}: ok: {what}");
            ExitCode::SUCCESS
        }
        Err(what) => {
            println!("{test}: FAILED: {what}");
            ExitCode::FAILURE
        }
    }
}
