//! Who is timed.

use crate::port::{self, Plain, Tuned};
use crate::stream::Mark;
use independent::calls::{by_equations, bytes, numbers};
use independent::{Code, Plan};
use traymark::{Reason, Refusal};

/// Room for any record and any mark.
const ROOM: usize = 256;

type Write = fn(&[u8], &[u8], &mut [u8]) -> Result<(), Refusal>;
type Measure = fn(&[u8], &[u8], &[u8], &[u8]) -> Result<u32, Refusal>;
type Read = fn(&[u8], &[u8], &[u8], &mut [u8]) -> Result<u32, Refusal>;
type Explain = fn(&[u8], &[u8], &[u8], &[u8], &mut [u8]) -> Result<Reason, Refusal>;

pub struct Contender {
    pub name: &'static str,
    /// how many marks of a stream it is timed on
    pub marks: usize,
    write: Write,
    measure: Measure,
    read: Read,
    explain: Explain,
}

#[derive(Clone, Copy, Debug, PartialEq, Eq)]
pub enum Call {
    Read,
    Write,
    Measure,
    Explain,
}

/// What the call answers, or the refusal; and what it wrote.
#[derive(Debug, PartialEq, Eq)]
pub struct Outcome {
    answer: Result<Answer, Refusal>,
    written: [u8; ROOM],
}

#[derive(Debug, PartialEq, Eq)]
enum Answer {
    Written,
    Cost(u32),
    Reason(Reason),
}

/// How many marks the library and the ports are timed on.
pub const MARKS: usize = 1_000;

/// The proved library.
pub const LIBRARY: Contender = Contender {
    name: "library",
    marks: MARKS,
    write: traymark::write_mark,
    measure: |plan, record, symbols, doubts| Ok(traymark::measure_mark(plan, record, symbols, doubts)?.cost),
    read: |plan, symbols, doubts, record| Ok(traymark::read_mark(plan, symbols, doubts, record)?.cost),
    explain: traymark::explain_mark,
};

/// Its method in Rust, with division.
pub const PLAIN: Contender = Contender {
    name: "plain",
    marks: MARKS,
    write: port::write_mark::<Plain>,
    measure: |plan, record, symbols, doubts| Ok(port::measure_mark::<Plain>(plan, record, symbols, doubts)?.cost),
    read: |plan, symbols, doubts, record| Ok(port::read_mark::<Plain>(plan, symbols, doubts, record)?.cost),
    explain: port::explain_mark::<Plain>,
};

/// The same with the reciprocal.
pub const TUNED: Contender = Contender {
    name: "tuned",
    marks: MARKS,
    write: port::write_mark::<Tuned>,
    measure: |plan, record, symbols, doubts| Ok(port::measure_mark::<Tuned>(plan, record, symbols, doubts)?.cost),
    read: |plan, symbols, doubts, record| Ok(port::read_mark::<Tuned>(plan, symbols, doubts, record)?.cost),
    explain: port::explain_mark::<Tuned>,
};

/// The tests' decoder, by Berlekamp and Welch's equations for small plans too. Its plans and photographs are sound.
pub const EQUATIONS: Contender = Contender {
    name: "equations",
    marks: 100,
    write: |plan, record, mark| accepted(independent::write(Code::Mark, plan, record, mark)),
    measure: |plan, record, symbols, doubts| {
        let reading = independent::measure(Code::Mark, plan, record, symbols, doubts);
        accepted(reading.number).map(|()| reading.cost)
    },
    read: read_by_equations,
    explain: |plan, record, symbols, doubts, other| {
        let reading = independent::measure(Code::Mark, plan, record, symbols, doubts);
        accepted(reading.number)?;
        if reading.margin > 0 {
            return Ok(Reason::Answer);
        }
        if read_by_equations(plan, symbols, doubts, other).is_err() {
            return Ok(Reason::Nothing { excess: -reading.margin as u32 });
        }
        let plan = Plan::parse(plan).map_err(refusal)?;
        let [expected, found] = [record, other].map(|record| Code::Mark.word(&plan, &numbers(record)));
        let place = (0..found.len()).find(|&cell| expected[cell] != found[cell]).expect("two records have two marks");
        Ok(Reason::Other { place })
    },
};

fn read_by_equations(plan: &[u8], symbols: &[u8], doubts: &[u8], record: &mut [u8]) -> Result<u32, Refusal> {
    let plan = Plan::parse(plan).map_err(refusal)?;
    let found = by_equations(Code::Mark, &plan, &numbers(symbols), &numbers(doubts)).ok_or(Refusal::NoRecord)?;
    record.copy_from_slice(&bytes(&found.record));
    Ok(found.cost)
}

impl Contender {
    /// Writes, measures or reads the record, or explains why its rival did not come up.
    pub fn call(&self, call: Call, mark: &Mark) -> Outcome {
        let Mark { plan, record, rival, symbols, doubts } = mark;
        let mut written = [0; ROOM];
        let room = &mut written[..record.len()];
        let answer = match call {
            Call::Read => (self.read)(plan, symbols, doubts, room).map(Answer::Cost),
            Call::Write => (self.write)(plan, record, &mut written[..symbols.len()]).map(|()| Answer::Written),
            Call::Measure => (self.measure)(plan, record, symbols, doubts).map(Answer::Cost),
            Call::Explain => (self.explain)(plan, rival, symbols, doubts, room).map(Answer::Reason),
        };
        Outcome { answer, written }
    }
}

fn accepted(number: u32) -> Result<(), Refusal> {
    match number {
        0 => Ok(()),
        _ => Err(refusal(number)),
    }
}

fn refusal(number: u32) -> Refusal {
    Refusal::from_number(number).expect("a refusal's number")
}
