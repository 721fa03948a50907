//! A set of up to nine photographs of one mark: their symbols are kept as they came, and combined when they are asked for.

use super::checks::{self, UNREAD};
use super::field::Plain;
use super::mark;
use super::plan::Plan;
use traymark::{Reading, Refusal};

/// How many photographs a set holds at most.
const MOST: usize = 9;

/// How many cells a mark has at most.
const CELLS: usize = 256;

/// A plan, and of each photograph that is held the symbols.
pub struct Set {
    plan: Plan<Plain>,
    photographs: [Option<[u8; CELLS]>; MOST],
}

impl Set {
    /// A set that holds none, as `traymark::Set::start`.
    pub fn start(plan: &[u8]) -> Result<Set, Refusal> {
        Ok(Set { plan: Plan::parse(plan)?, photographs: [None; MOST] })
    }

    /// Begins anew, as `traymark::Set::restart`.
    pub fn restart(&mut self, plan: &[u8]) -> Result<(), Refusal> {
        *self = Set::start(plan)?;
        Ok(())
    }

    /// Adds a photograph, as `traymark::Set::add`.
    pub fn add(&mut self, photograph: u32, symbols: &[u8], doubts: &[u8]) -> Result<(), Refusal> {
        self.check_lengths(symbols, doubts)?;
        let Some(place @ None) = self.photographs.get_mut(photograph as usize) else { return Err(Refusal::NotFree) };
        checks::symbols(&self.plan, symbols)?;
        checks::doubts(&self.plan, symbols, doubts)?;
        place.insert([UNREAD; CELLS])[..symbols.len()].copy_from_slice(symbols);
        Ok(())
    }

    /// Withdraws a photograph, as `traymark::Set::withdraw`.
    pub fn withdraw(&mut self, photograph: u32) -> Result<(), Refusal> {
        let Some(place @ Some(_)) = self.photographs.get_mut(photograph as usize) else { return Err(Refusal::NotHeld) };
        *place = None;
        Ok(())
    }

    /// Combines the photographs that are held, as `traymark::Set::combine`.
    pub fn combine(&self, symbols: &mut [u8], doubts: &mut [u8]) -> Result<(), Refusal> {
        self.check_lengths(symbols, doubts)?;
        for (cell, (symbol, doubt)) in symbols.iter_mut().zip(doubts).enumerate() {
            (*symbol, *doubt) = self.combined(cell);
        }
        Ok(())
    }

    /// Reads the combination, as `traymark::Set::read`.
    pub fn read(&self, record: &mut [u8]) -> Result<Reading, Refusal> {
        checks::lengths(&[(record.len(), self.plan.size())])?;
        let [mut symbols, mut doubts] = [[0; CELLS]; 2];
        let [symbols, doubts] = [&mut symbols, &mut doubts].map(|cells| &mut cells[..self.plan.cells()]);
        self.combine(symbols, doubts)?;
        mark::read(&self.plan, symbols, doubts, record)
    }

    /// Refusal 6 of a photograph.
    fn check_lengths(&self, symbols: &[u8], doubts: &[u8]) -> Result<(), Refusal> {
        let cells = self.plan.cells();
        checks::lengths(&[(symbols.len(), cells), (doubts.len(), cells)])
    }

    /// The symbol and the doubt of a cell.
    fn combined(&self, cell: usize) -> (u8, u8) {
        let mut votes = [UNREAD; MOST];
        let mut cast = 0;
        for photograph in self.photographs.iter().flatten() {
            if photograph[cell] != UNREAD {
                votes[cast] = photograph[cell];
                cast += 1;
            }
        }
        winner(self.plan.full, &mut votes[..cast])
    }
}

/// The symbol with most votes, and its doubt. Sorted, votes for one symbol stand together, and of symbols that tie the smallest
/// comes first.
fn winner(full: u16, votes: &mut [u8]) -> (u8, u8) {
    votes.sort_unstable();
    let (mut winner, mut most, mut next) = (UNREAD, 0, 0);
    for same in votes.chunk_by(|a, b| a == b) {
        match same.len() > most {
            true => (winner, most, next) = (same[0], same.len(), most),
            false => next = next.max(same.len()),
        }
    }
    let full = usize::from(full);
    let sure = (full * (most - next)).checked_div(votes.len()).unwrap_or(0);
    (winner, (full - sure) as u8)
}
