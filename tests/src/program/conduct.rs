//! What a user relies on beside the answer's bytes: that it comes in one write, that arguments which are not taken are answered
//! at once, that an answer which can't be written is told of, and that an input which can't be read is one that ends there.

use super::{hand_over, Input, Program};
use std::ffi::OsString;
use std::fs::{File, OpenOptions};
use std::io::{pipe, Result};
use std::os::fd::OwnedFd;
use std::os::unix::net::UnixDatagram;
use std::process::{Command, Output, Stdio};
use std::thread::sleep;
use std::time::Duration;

impl Program {
    /// The answer comes in one write: on a socket that keeps messages apart it is one message.
    pub(super) fn answers_in_one_write(&self, input: &Input) -> Result<bool> {
        let (ours, theirs) = UnixDatagram::pair()?;
        let output = self.run(input, OwnedFd::from(theirs).into())?;
        ours.set_nonblocking(true)?;
        let mut message = [0; 65_536];
        let length = ours.recv(&mut message)?;
        let another = matches!(ours.recv(&mut [0; 1]), Ok(1..));
        Ok(message[..length] == input.printed && !another && output.stderr.is_empty())
    }

    /// Where the answer can't be written, one line on standard error says so.
    pub(super) fn tells_of_a_failed_write(&self, input: &Input) -> Result<bool> {
        let full = OpenOptions::new().write(true).open("/dev/full")?;
        Ok(self.says_it_was_not_taken(&self.run(input, full.into())?))
    }

    /// Where standard output is closed, the same.
    pub(super) fn tells_of_a_closed_output(&self, input: &Input) -> Result<bool> {
        let mut closing = Command::new("sh");
        closing.args(["-c", r#"exec "$0" "$@" >&-"#, &self.path]).args(&input.arguments);
        Ok(self.says_it_was_not_taken(&hand_over(&mut closing, input)?))
    }

    fn says_it_was_not_taken(&self, output: &Output) -> bool {
        let said = format!("{}: standard output did not take the answer\n", self.name);
        output.status.success() && output.stderr == said.as_bytes()
    }

    /// Where nobody reads the answer any more, the program ends, and nothing is said.
    pub(super) fn ends_at_a_closed_pipe(&self, input: &Input) -> Result<bool> {
        let (reader, writer) = pipe()?;
        drop(reader);
        let output = self.run(input, writer.into())?;
        Ok(output.status.success() && output.stderr.is_empty())
    }

    /// Arguments get the usage on standard error and nothing on standard output, while standard input is open and empty.
    pub(super) fn tells_its_usage(&self, arguments: &[OsString]) -> Result<bool> {
        let mut command = Command::new(&self.path);
        command.args(arguments).stdin(Stdio::piped()).stdout(Stdio::piped()).stderr(Stdio::piped());
        let mut child = command.spawn()?;
        let open = child.stdin.take();
        for _ in 0..5_000 {
            if child.try_wait()?.is_some() {
                break;
            }
            sleep(Duration::from_millis(2));
        }
        let ended = child.try_wait()?.is_some();
        drop(open);
        let Output { status, stdout, stderr } = child.wait_with_output()?;
        Ok(ended && status.success() && stdout.is_empty() && stderr == self.usage.as_bytes())
    }

    /// A folder can be opened and not read: that is answered like no input at all.
    pub(super) fn takes_a_failed_read_for_the_end(&self, nothing: &Input) -> Result<bool> {
        let output = Command::new(&self.path).args(&nothing.arguments).stdin(File::open("/")?).output()?;
        Ok(output.status.success() && output.stderr.is_empty() && output.stdout == nothing.printed)
    }
}
