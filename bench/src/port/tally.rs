//! What is counted of a record against a photograph.

use super::checks::UNREAD;
use super::field::Row;
use std::ops::AddAssign;
use traymark::Reading;

/// What cells cost that are wrong where the row is not 0.
pub fn cost(full: u16, doubts: &[u16], wrong: &Row) -> u32 {
    let cells = doubts.iter().zip(wrong);
    cells.map(|(&doubt, &wrong)| u32::from(if wrong == 0 { doubt } else { 2 * full - doubt })).sum()
}

/// The cost of some cells, and how many differ from their values. An unread cell differs from any value.
#[derive(Clone, Copy, Default)]
pub struct Tally {
    pub cost: u32,
    pub differing: u32,
}

impl AddAssign for Tally {
    fn add_assign(&mut self, other: Tally) {
        self.cost += other.cost;
        self.differing += other.differing;
    }
}

impl Tally {
    /// Of a row's cells against these values. The doubts of those that differ are taken off, and twice the full doubt for each
    /// is added at the end, so that the loop over the cells goes without it.
    pub fn new(full: u16, symbols: &[u8], doubts: &[u8], values: &Row) -> Tally {
        let cells = symbols.iter().zip(doubts).zip(values);
        let (doubts, differing) = cells.fold((0, 0), |(doubts, differing), ((&symbol, &doubt), &value)| {
            let right = u16::from(symbol) == value;
            let doubt = i16::from(doubt);
            (doubts + if right { doubt } else { -doubt }, differing + i16::from(!right))
        });
        let cost = 2 * i32::from(full) * i32::from(differing) + i32::from(doubts);
        Tally { cost: cost as u32, differing: differing as u32 }
    }

    /// What is told of a record with this tally over all of these symbols. The cells that differ are changed or unread.
    pub fn reading(self, symbols: &[u8], radius: u32) -> Reading {
        let unread = unread(symbols);
        let changed = self.differing - unread;
        let class = match changed {
            0 => 0,
            1..=3 => 1,
            4..=15 => 2,
            _ => 3,
        };
        Reading { cost: self.cost, margin: radius as i32 - self.cost as i32, changed, unread, class }
    }
}

/// How many cells are unread. A part is counted in a byte, so that sixteen cells are counted at once.
fn unread(symbols: &[u8]) -> u32 {
    let in_part = |part: &[u8]| part.iter().map(|&symbol| u8::from(symbol == UNREAD)).sum::<u8>();
    symbols.chunks(128).map(|part| u32::from(in_part(part))).sum()
}
