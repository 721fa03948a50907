//! The calls on a plan, and what document 01 says that they do.

use crate::counts::Counts;
use crate::library;
use crate::random::Random;
use independent::{Code, Reading, Reason};

/// All that a call on a plan can be given. `record` is the given record, or for reading the buffer for one; `symbols` are changed
/// by masking and unmasking; `other` is the buffer for another record that explaining takes.
#[derive(Clone, Debug, PartialEq, Eq)]
pub struct Arguments {
    pub code: Code,
    pub plan: Vec<u8>,
    pub record: Vec<u8>,
    pub symbols: Vec<u8>,
    pub doubts: Vec<u8>,
    pub mark: Vec<u8>,
    pub other: Vec<u8>,
}

impl Arguments {
    /// A plan, and no byte beside it.
    pub fn on_plan(code: Code, plan: &[u8]) -> Arguments {
        let [record, symbols, doubts, mark, other] = [const { Vec::new() }; 5];
        Arguments { code, plan: plan.to_vec(), record, symbols, doubts, mark, other }
    }
}

/// The calls on a plan.
#[derive(Clone, Copy, Debug, PartialEq, Eq)]
pub enum Call {
    Check,
    Write,
    Measure,
    Read,
    Explain,
    Mask,
    Unmask,
}

impl Call {
    pub const ALL: [Call; 7] =
        [Call::Check, Call::Write, Call::Measure, Call::Read, Call::Explain, Call::Mask, Call::Unmask];
}

/// What a call answers, and what the buffer that it writes holds afterwards. The number is in the reading, whatever the call;
/// the reason is what explaining answers.
#[derive(Clone, Debug, PartialEq, Eq)]
pub struct Outcome {
    pub reading: Reading,
    pub reason: Reason,
    pub buffer: Vec<u8>,
}

impl Outcome {
    /// Of a call that answers with a number.
    pub fn numbered(number: u32, buffer: Vec<u8>) -> Outcome {
        Outcome::read(Reading::refused(number), buffer)
    }

    /// Of measuring or reading.
    pub fn read(reading: Reading, buffer: Vec<u8>) -> Outcome {
        Outcome { reading, reason: Reason::default(), buffer }
    }

    /// Of explaining.
    pub fn explained(reason: Reason, buffer: Vec<u8>) -> Outcome {
        Outcome { reading: Reading::refused(reason.number), reason, buffer }
    }

    /// Whether it is one that the call writes its buffer with.
    pub fn is_written(&self, call: Call) -> bool {
        match call {
            Call::Check | Call::Measure => false,
            Call::Explain => self.reason.reason == 2,
            Call::Write | Call::Read | Call::Mask | Call::Unmask => self.reading.number == 0,
        }
    }
}

/// What document 01 says, by the independent decoder.
pub fn expected(call: Call, given: &Arguments) -> Outcome {
    let Arguments { code, plan, record, symbols, doubts, mark, other } = given;
    match call {
        Call::Check => Outcome::numbered(independent::check_plan(plan), Vec::new()),
        Call::Write => {
            let mut buffer = mark.clone();
            Outcome::numbered(independent::write(*code, plan, record, &mut buffer), buffer)
        }
        Call::Measure => Outcome::read(independent::measure(*code, plan, record, symbols, doubts), Vec::new()),
        Call::Read => {
            let mut buffer = record.clone();
            Outcome::read(independent::read(*code, plan, symbols, doubts, &mut buffer), buffer)
        }
        Call::Explain => {
            let mut buffer = other.clone();
            Outcome::explained(independent::explain(*code, plan, record, symbols, doubts, &mut buffer), buffer)
        }
        Call::Mask => {
            let mut buffer = symbols.clone();
            Outcome::numbered(independent::mask(*code, plan, record, &mut buffer), buffer)
        }
        Call::Unmask => {
            let mut buffer = symbols.clone();
            Outcome::numbered(independent::unmask(*code, plan, record, &mut buffer), buffer)
        }
    }
}

/// Holds the library's outcome against the expected one, and returns it.
pub fn hold(call: Call, given: &Arguments, random: &mut Random, counts: &mut Counts) -> Result<Outcome, String> {
    let expected = expected(call, given);
    let outcome = answered(call, given, random, counts)?;
    if outcome != expected {
        return Err(format!("{call:?} gave {outcome:?}, expected {expected:?}; {given:?}"));
    }
    Ok(outcome)
}

/// The library's outcome, counted.
pub fn answered(call: Call, given: &Arguments, random: &mut Random, counts: &mut Counts) -> Result<Outcome, String> {
    let outcome = library::outcome(call, given, random).map_err(|what| format!("{call:?} {what}; {given:?}"))?;
    counts.answer(call, given, &outcome);
    Ok(outcome)
}
