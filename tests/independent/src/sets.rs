//! Several photographs of one mark. A set holds the photographs themselves, and combines them afresh whenever that is asked for.

use crate::calls::{check_doubts, check_lengths, check_symbols, read, Reading};
use crate::code::Code;
use crate::plan::{Plan, PLAN};
use crate::UNREAD;
use std::cmp::Reverse;
use std::collections::BTreeMap;

/// How many photographs a set can hold; their numbers are below that.
pub const PHOTOGRAPHS: usize = 9;

/// The bytes of a set: the plan, whether each number is held, and room for 256 symbols of each.
pub const PLACE: usize = 256;
pub const SET: usize = PLAN + PHOTOGRAPHS + PHOTOGRAPHS * PLACE;

/// A set: its plan, and the symbols of each photograph that is held.
#[derive(Clone, Debug)]
pub struct Set {
    pub plan: Plan,
    pub photographs: [Option<Vec<u8>>; PHOTOGRAPHS],
}

impl Set {
    /// A set with a sound plan, or the plan's refusal.
    pub fn start(plan: &[u8]) -> Result<Set, u32> {
        Ok(Set { plan: Plan::parse(plan)?, photographs: [const { None }; PHOTOGRAPHS] })
    }

    /// A photograph arrives, or is refused.
    pub fn add(&mut self, photograph: u32, symbols: &[u8], doubts: &[u8]) -> u32 {
        let place = self.photographs.get_mut(photograph as usize).filter(|place| place.is_none());
        let refusal = check_arriving(&self.plan, place.is_some(), symbols, doubts).err();
        if let (None, Some(place)) = (refusal, place) {
            *place = Some(symbols.to_vec());
        }
        refusal.unwrap_or(0)
    }

    /// A photograph is withdrawn, or refusal 18.
    pub fn withdraw(&mut self, photograph: u32) -> u32 {
        match self.photographs.get_mut(photograph as usize).and_then(Option::take) {
            Some(_) => 0,
            None => 18,
        }
    }

    /// The symbols that the photographs held have in a cell.
    pub fn symbols(&self, cell: usize) -> impl Iterator<Item = u8> + '_ {
        self.photographs.iter().flatten().map(move |symbols| symbols[cell])
    }

    /// The symbols and the doubts of the combination.
    pub fn combined(&self) -> [Vec<u8>; 2] {
        combined(&self.plan, |cell| self.symbols(cell))
    }

    /// The combination is read.
    pub fn read(&self, record: &mut [u8]) -> Reading {
        let [symbols, doubts] = self.combined();
        read(Code::Mark, &self.plan.bytes(), &symbols, &doubts, record)
    }

    /// The bytes that such a set has: 1 where a photograph is held, and 255 wherever there is no symbol of one.
    pub fn memory(&self) -> Vec<u8> {
        let mut memory = self.plan.bytes().to_vec();
        memory.extend(self.photographs.iter().map(|photograph| u8::from(photograph.is_some())));
        for photograph in &self.photographs {
            let mut place = photograph.clone().unwrap_or_default();
            place.resize(PLACE, UNREAD as u8);
            memory.extend(place);
        }
        memory
    }
}

/// Refusals 6 17 7 8 of a photograph that arrives under a number that is free or not.
pub fn check_arriving(plan: &Plan, is_free: bool, symbols: &[u8], doubts: &[u8]) -> Result<(), u32> {
    let cells = Code::Mark.cells(plan);
    check_lengths(&[(symbols.len(), cells), (doubts.len(), cells)])?;
    if !is_free {
        return Err(17);
    }
    check_symbols(plan, symbols)?;
    check_doubts(plan, symbols, doubts)
}

/// The symbols and the doubts that come of the symbols in each cell.
pub fn combined<S: Iterator<Item = u8>>(plan: &Plan, symbols: impl Fn(usize) -> S) -> [Vec<u8>; 2] {
    let cells = (0..Code::Mark.cells(plan)).map(|cell| combined_cell(plan.full_doubt(), symbols(cell)));
    let (symbols, doubts) = cells.unzip();
    [symbols, doubts]
}

/// The symbol with most votes and its doubt.
fn combined_cell(full: u32, symbols: impl Iterator<Item = u8>) -> (u8, u8) {
    let ranked = ranked(symbols);
    let Some(&(symbol, most)) = ranked.first() else { return (UNREAD as u8, full as u8) };
    let next = ranked.get(1).map_or(0, |&(_, votes)| votes);
    let all: u32 = ranked.iter().map(|&(_, votes)| votes).sum();
    // the whole part of a quotient is the largest number that the divisor goes into so many times
    let whole = (0..=full).rev().find(|whole| whole * all <= full * (most - next)).expect("0 is small enough");
    (symbol, (full - whole) as u8)
}

/// The symbols that were read with their votes, most votes first, and the smaller symbol first of those with as many.
pub fn ranked(symbols: impl Iterator<Item = u8>) -> Vec<(u8, u32)> {
    let mut votes: BTreeMap<u8, u32> = BTreeMap::new();
    symbols.filter(|&symbol| u32::from(symbol) != UNREAD).for_each(|symbol| *votes.entry(symbol).or_default() += 1);
    let mut ranked: Vec<(u8, u32)> = votes.into_iter().collect();
    ranked.sort_by_key(|&(symbol, votes)| (Reverse(votes), symbol));
    ranked
}

#[cfg(test)]
mod tests {
    use super::*;
    use crate::calls::tests::plan_a;

    #[test]
    fn a_cell_has_the_symbol_with_most_votes() {
        let cell = |symbols: &[u8]| [100, 250].map(|full| combined_cell(full, symbols.iter().copied()));
        assert_eq!(cell(&[]), [(255, 100), (255, 250)]);
        assert_eq!(cell(&[255, 255]), [(255, 100), (255, 250)]);
        assert_eq!(cell(&[255, 0, 255]), [(0, 0), (0, 0)]);
        assert_eq!(cell(&[6, 2]), [(2, 100), (2, 250)]);
        assert_eq!(cell(&[6, 2, 6]), [(6, 67), (6, 167)]);
        assert_eq!(cell(&[3, 3, 3, 3, 1, 1, 1, 0, 0]), [(3, 89), (3, 223)]);
        assert_eq!(cell(&[5; 9]), [(5, 0), (5, 0)]);
    }

    #[test]
    fn photographs_come_and_go() {
        let mark = [6, 1, 5, 0, 2, 6, 2, 4, 1];
        let mut set = Set::start(&plan_a(12)).unwrap();
        let empty = set.memory();
        assert_eq!(empty, [&plan_a(12)[..], &[0; 9], &[255; 2304]].concat());
        assert_eq!(empty.len(), SET);
        assert_eq!(set.read(&mut [9; 3]).number, 10);
        assert_eq!([9, u32::MAX].map(|photograph| set.add(photograph, &[7; 9], &[101; 9])), [17; 2]);
        assert_eq!(set.add(8, &[7; 8], &[101; 9]), 6);
        assert_eq!(set.add(8, &[7; 9], &[101; 9]), 7);
        assert_eq!(set.add(8, &mark, &[101; 9]), 8);
        assert_eq!(set.memory(), empty);
        assert_eq!(set.add(8, &mark, &[100; 9]), 0);
        assert_eq!(set.add(8, &[7; 9], &[101; 9]), 17);
        let held = set.memory();
        assert_eq!(held[48], 1);
        assert_eq!(held[2097..2107], [6, 1, 5, 0, 2, 6, 2, 4, 1, 255]);
        let mut record = [9; 3];
        assert_eq!(set.read(&mut record).cost, 0);
        assert_eq!(record, [3, 1, 2]);
        assert_eq!([8, 8, 0, 9].map(|photograph| set.withdraw(photograph)), [0, 18, 18, 18]);
        assert_eq!(set.memory(), empty);
    }
}
