//! What was seen of sets.

use super::SetCall;
use crate::counts::age;
use independent::sets::ranked;
use independent::{Code, Plan, Set, PHOTOGRAPHS};
use std::cmp::Ordering::{Equal, Greater, Less};
use std::collections::BTreeMap;
use std::fmt;

#[derive(Clone, Debug, Default)]
pub struct Seen {
    /// answers by call and number
    answers: BTreeMap<(usize, u32), u64>,
    /// combined cells of each age by how the votes fell: those of each symbol, most first, are the digits of a number
    votes: [BTreeMap<u32, u64>; 2],
    /// combined cells with the symbol 0, with p - 1, and of 256 cells the last
    cells: [u64; 3],
    /// combinations that were read, and that got 10: of squares, and of oblongs with more rows and with more columns, of each age
    readings: [[[u64; 2]; 3]; 2],
    /// sets in use that were started with other cells, for which a start was refused, that were full, and that were emptied
    restarted: u64,
    unstarted: u64,
    full: u64,
    emptied: u64,
    /// numbers that were withdrawn and used again, and that with no combination between
    reused: u64,
    replaced: u64,
}

/// What happened to a set in use.
#[derive(Clone, Copy, Debug)]
pub enum Event {
    Restarted,
    Unstarted,
    Full,
    Emptied,
    Reused,
    Replaced,
}

/// The numbers that a call can give.
fn numbers(call: SetCall) -> Vec<u32> {
    let own: &[u32] = match call {
        SetCall::Start => &[],
        SetCall::Add => &[6, 17, 7, 8],
        SetCall::Withdraw => return vec![0, 18],
        SetCall::Combine => &[6],
        SetCall::Read => &[6, 7, 10],
    };
    [&[0, 1, 2, 3, 13, 4, 5], own].concat()
}

/// Every way in which at most `left` votes can fall on symbols, at most `most` on each: the votes of each, most first.
pub fn falls(most: u32, left: u32) -> Vec<Vec<u32>> {
    let more = (1..=most.min(left))
        .flat_map(|first| falls(first, left - first).into_iter().map(move |rest| [&[first], &rest[..]].concat()));
    [Vec::new()].into_iter().chain(more).collect()
}

fn digits(votes: &[u32]) -> u32 {
    votes.iter().fold(0, |digits, votes| 10 * digits + votes)
}

impl Seen {
    pub fn answer(&mut self, call: SetCall, number: u32) {
        *self.answers.entry((call as usize, number)).or_default() += 1;
    }

    /// A set that was combined.
    pub fn combined(&mut self, set: &Set) {
        let cells = Code::Mark.cells(&set.plan);
        for cell in 0..cells {
            let ranked = ranked(set.symbols(cell));
            let votes: Vec<u32> = ranked.iter().map(|&(_, votes)| votes).collect();
            *self.votes[age(set.plan.season)].entry(digits(&votes)).or_default() += 1;
            let symbol = ranked.first().map(|&(symbol, _)| u32::from(symbol));
            self.cells[0] += u64::from(symbol == Some(0));
            self.cells[1] += u64::from(symbol == Some(set.plan.p - 1));
            self.cells[2] += u64::from(symbol.is_some() && cell == 255);
        }
    }

    /// A set whose combination was read, with that number.
    pub fn read(&mut self, plan: &Plan, number: u32) {
        let kind = match plan.rows().cmp(&plan.columns()) {
            Equal => 0,
            Greater => 1,
            Less => 2,
        };
        self.readings[age(plan.season)][kind][usize::from(number != 0)] += 1;
    }

    pub fn event(&mut self, event: Event) {
        let count = match event {
            Event::Restarted => &mut self.restarted,
            Event::Unstarted => &mut self.unstarted,
            Event::Full => &mut self.full,
            Event::Emptied => &mut self.emptied,
            Event::Reused => &mut self.reused,
            Event::Replaced => &mut self.replaced,
        };
        *count += 1;
    }

    pub fn add(&mut self, other: &Seen) {
        for (&key, n) in &other.answers {
            *self.answers.entry(key).or_default() += n;
        }
        for (sums, votes) in self.votes.iter_mut().zip(&other.votes) {
            for (&key, n) in votes {
                *sums.entry(key).or_default() += n;
            }
        }
        let readings = self.readings.as_flattened_mut().as_flattened_mut().iter_mut();
        readings.zip(other.readings.as_flattened().as_flattened()).for_each(|(sum, n)| *sum += n);
        self.cells.iter_mut().zip(other.cells).for_each(|(sum, n)| *sum += n);
        self.restarted += other.restarted;
        self.unstarted += other.unstarted;
        self.full += other.full;
        self.emptied += other.emptied;
        self.reused += other.reused;
        self.replaced += other.replaced;
    }

    /// What should have been seen and was not.
    pub fn missing(&self) -> Option<&'static str> {
        let answers = |call: SetCall, number: u32| self.answers.get(&(call as usize, number)).copied().unwrap_or(0);
        let few_answers = |call: SetCall| numbers(call).into_iter().any(|number| answers(call, number) < 200);
        let falls = falls(PHOTOGRAPHS as u32, PHOTOGRAPHS as u32);
        let few_votes =
            |votes: &BTreeMap<u32, u64>| falls.iter().any(|fall| votes.get(&digits(fall)).is_none_or(|&n| n < 100));
        [
            (SetCall::ALL.into_iter().any(few_answers), "fewer than 200 of one number that a call on sets can give"),
            (self.votes.iter().any(few_votes), "fewer than 100 cells of one age for one way in which votes can fall"),
            (
                self.cells.iter().any(|&n| n < 300),
                "fewer than 300 combined cells with 0, with p - 1 or the last of 256",
            ),
            (
                self.readings.as_flattened().as_flattened().iter().any(|&n| n < 300),
                "fewer than 300 combinations of one kind read, or refused with 10",
            ),
            (self.restarted < 200, "fewer than 200 sets in use that were started with other cells"),
            (self.unstarted < 300, "fewer than 300 starts refused to sets in use"),
            (self.full < 300, "fewer than 300 full sets"),
            (self.emptied < 300, "fewer than 300 sets emptied by withdrawing"),
            (self.reused < 1_000, "fewer than 1,000 numbers of photographs used again"),
            (self.replaced < 200, "fewer than 200 photographs replaced with no combination between"),
        ]
        .into_iter()
        .find_map(|(missing, what)| missing.then_some(what))
    }
}

impl fmt::Display for Seen {
    fn fmt(&self, f: &mut fmt::Formatter<'_>) -> fmt::Result {
        let Seen { answers, votes, cells, readings, restarted, unstarted, full, emptied, reused, replaced } = self;
        let least = |votes: &BTreeMap<u32, u64>| votes.values().min().copied().unwrap_or(0);
        write!(f, "{} calls; by call and number: ", answers.values().sum::<u64>())?;
        for call in SetCall::ALL {
            let of_call = answers.iter().filter(|((of, _), _)| *of == call as usize);
            let of_call: Vec<String> = of_call.map(|((_, number), n)| format!("{number}: {n}")).collect();
            write!(f, "{call:?} {}; ", of_call.join(", "))?;
        }
        write!(
            f,
            "ways in which votes fell, the rarest: {} {}, {} {}; cells with 0, p - 1, the last of 256: {cells:?}; \
             squares, tall, wide read and not: {readings:?}; started in use: {restarted}, refused: {unstarted}; \
             full: {full}; emptied: {emptied}; numbers used again: {reused}, with no combination between: {replaced}",
            votes[0].len(),
            least(&votes[0]),
            votes[1].len(),
            least(&votes[1]),
        )
    }
}
