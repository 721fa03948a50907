//! Rows of a table, each a call and its outcome, worked out by hand: how they are written down and held. Plans are written with
//! season 12, and are held with several seasons of one age.

use independent::Code;
use independent::{Reading, Reason, PLAN};
use std::ops::Range;
use traymark_tests::calls::{hold, Arguments, Call, Outcome};
use traymark_tests::counts::Counts;
use traymark_tests::library::outcome;
use traymark_tests::plans::with_season;
use traymark_tests::random::Random;
use Why::{Answer, Nothing, Other, Refused};

/// A call and its outcome.
pub struct Row {
    pub call: Call,
    pub given: Arguments,
    pub outcome: Outcome,
}

/// Seasons of each age: the first and the last, and of the later ones some of which a byte alone would be an earlier season.
pub const EARLIER: [u16; 4] = [12, 0, 1, 29];
pub const LATER: [u16; 8] = [30, 31, 255, 256, 268, 7_680, 65_292, 65_535];

impl Row {
    /// Holds the row with each of these seasons.
    pub fn hold_at(&self, seasons: &[u16], random: &mut Random, counts: &mut Counts) -> Result<(), String> {
        seasons.iter().try_for_each(|&season| {
            let given = self.at(season);
            self.told(hold(self.call, &given, random, counts)?, &given)
        })
    }

    /// The library's answer with that season is the outcome that was written down.
    pub fn answer_at(&self, season: u16, random: &mut Random, counts: &mut Counts) -> Result<(), String> {
        let given = self.at(season);
        let answer = outcome(self.call, &given, random)?;
        counts.number(answer.reading.number);
        self.told(answer, &given)
    }

    /// Its arguments with that season.
    pub fn at(&self, season: u16) -> Arguments {
        Arguments { plan: with_season(&self.given.plan, season), ..self.given.clone() }
    }

    /// The answer is the outcome that was written down.
    pub fn told(&self, answer: Outcome, given: &Arguments) -> Result<(), String> {
        if answer != self.outcome {
            return Err(format!("{:?} gave {answer:?}, the row says {:?}; {given:?}", self.call, self.outcome));
        }
        Ok(())
    }
}

/// The mark of 3 + X + 2Y by plan A, and doubts of 0.
pub const MARK: [u8; 9] = [6, 1, 5, 0, 2, 6, 2, 4, 1];
pub const SURE: [u8; 9] = [0; 9];

/// The photographs of cases c and d, and the doubts of case e.
pub const CASE_C: [u8; 9] = [0, 1, 5, 0, 2, 6, 2, 4, 0];
pub const CASE_D: [u8; 9] = [0, 0, 0, 0, 2, 6, 2, 4, 1];
pub const CASE_E: [u8; 9] = [1, 1, 1, 0, 0, 0, 0, 0, 0];

/// A plan of season 12 with these rows, columns and d.
pub fn fields(p: u8, [rows, columns, d]: [u8; 3], row_points: &[u8], column_points: &[u8]) -> Vec<u8> {
    let mut plan = vec![0; PLAN];
    plan[..6].copy_from_slice(&[0, 12, p, rows, columns, d]);
    plan[6..6 + row_points.len()].copy_from_slice(row_points);
    plan[22..22 + column_points.len()].copy_from_slice(column_points);
    plan
}

/// The rows and columns are as many as their points.
pub fn oblong(p: u8, d: u8, row_points: &[u8], column_points: &[u8]) -> Vec<u8> {
    fields(p, [row_points.len() as u8, column_points.len() as u8, d], row_points, column_points)
}

/// A square with the same points each way.
pub fn plan(p: u8, n: u8, d: u8, points: &[u8]) -> Vec<u8> {
    fields(p, [n, n, d], points, points)
}

/// The plan with these values at these places.
pub fn with(plan: &[u8], changes: &[(usize, u8)]) -> Vec<u8> {
    let mut plan = plan.to_vec();
    changes.iter().for_each(|&(place, value)| plan[place] = value);
    plan
}

pub fn plan_a() -> Vec<u8> {
    plan(7, 3, 1, &[1, 2, 4])
}

pub fn plan_h() -> Vec<u8> {
    plan(2, 1, 0, &[0])
}

pub fn plan_j() -> Vec<u8> {
    plan(2, 2, 1, &[0, 1])
}

pub fn plan_w() -> Vec<u8> {
    oblong(7, 1, &[1, 3], &[0, 2, 5])
}

pub fn plan_t() -> Vec<u8> {
    oblong(7, 1, &[0, 2, 5], &[1, 3])
}

pub const SIXTEEN: [u8; 16] = [0, 1, 2, 3, 5, 8, 13, 21, 34, 55, 89, 144, 233, 240, 249, 250];

/// p 251, sixteen points.
pub fn plan_16(d: u8) -> Vec<u8> {
    plan(251, 16, d, &SIXTEEN)
}

/// Symbols with some cells unread, and their doubts: the full doubt for these and 0 for the others.
pub fn unread_in<const N: usize>(full: u8, mut symbols: [u8; N], cells: Range<usize>) -> ([u8; N], [u8; N]) {
    let mut doubts = [0; N];
    symbols[cells.clone()].fill(255);
    doubts[cells].fill(full);
    (symbols, doubts)
}

/// Buffers are filled with 9s, so that "unchanged" is seen.
fn nines(length: usize) -> Vec<u8> {
    vec![9; length]
}

fn said([cost, margin, changed, unread, class]: [i32; 5]) -> Reading {
    let [cost, changed, unread, class] = [cost, changed, unread, class].map(|number| number as u32);
    Reading { number: 0, cost, margin, changed, unread, class }
}

pub fn check(plan: &[u8], number: u32) -> Row {
    let outcome = Outcome::numbered(number, Vec::new());
    Row { call: Call::Check, given: Arguments::on_plan(Code::Mark, plan), outcome }
}

pub fn write(code: Code, plan: &[u8], record: &[u8], room: usize, result: Result<&[u8], u32>) -> Row {
    let outcome = match result {
        Ok(mark) => Outcome::numbered(0, mark.to_vec()),
        Err(number) => Outcome::numbered(number, nines(room)),
    };
    let given = Arguments { record: record.to_vec(), mark: nines(room), ..Arguments::on_plan(code, plan) };
    Row { call: Call::Write, given, outcome }
}

/// The symbols are masked, and unmasked they are what they were; or both are refused.
pub fn masks(code: Code, plan: &[u8], record: &[u8], symbols: &[u8], result: Result<&[u8], u32>) -> [Row; 2] {
    let (number, masked) = match result {
        Ok(masked) => (0, masked),
        Err(number) => (number, symbols),
    };
    [(Call::Mask, symbols, masked), (Call::Unmask, masked, symbols)].map(|(call, symbols, left)| {
        let given = Arguments { record: record.to_vec(), symbols: symbols.to_vec(), ..Arguments::on_plan(code, plan) };
        Row { call, given, outcome: Outcome::numbered(number, left.to_vec()) }
    })
}

/// The answer is D, margin, changed, unread and class.
pub fn measure(code: Code, plan: &[u8], record: &[u8], symbols: &[u8], doubts: &[u8], answer: [i32; 5]) -> Row {
    let outcome = Outcome::read(said(answer), Vec::new());
    let [record, symbols, doubts] = [record, symbols, doubts].map(<[u8]>::to_vec);
    Row { call: Call::Measure, given: Arguments { record, symbols, doubts, ..Arguments::on_plan(code, plan) }, outcome }
}

/// The record and its answer; or the refusal and the length of the buffer, which is then unchanged.
pub type Said<'a> = Result<(&'a [u8], [i32; 5]), (u32, usize)>;

pub fn read(code: Code, plan: &[u8], symbols: &[u8], doubts: &[u8], result: Said) -> Row {
    let outcome = match result {
        Ok((record, answer)) => Outcome::read(said(answer), record.to_vec()),
        Err((number, room)) => Outcome::numbered(number, nines(room)),
    };
    let [symbols, doubts] = [symbols, doubts].map(<[u8]>::to_vec);
    let record = nines(outcome.buffer.len());
    Row { call: Call::Read, given: Arguments { record, symbols, doubts, ..Arguments::on_plan(code, plan) }, outcome }
}

/// What explaining says: of another answer its record and the place, of none the excess.
pub enum Why<'a> {
    Answer,
    Other(&'a [u8], usize),
    Nothing(u32),
    Refused(u32),
}

pub fn explain(code: Code, plan: &[u8], record: &[u8], symbols: &[u8], doubts: &[u8], why: Why) -> Row {
    let other = nines(record.len());
    let outcome = match why {
        Answer => Outcome::explained(Reason::answer(), other.clone()),
        Other(record, place) => Outcome::explained(Reason::other(place), record.to_vec()),
        Nothing(excess) => Outcome::explained(Reason::nothing(excess), other.clone()),
        Refused(number) => Outcome::explained(Reason::refused(number), other.clone()),
    };
    let [record, symbols, doubts] = [record, symbols, doubts].map(<[u8]>::to_vec);
    Row {
        call: Call::Explain,
        given: Arguments { record, symbols, doubts, other, ..Arguments::on_plan(code, plan) },
        outcome,
    }
}
