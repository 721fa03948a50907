//! Reading by going through all records.

use crate::code::Code;
use crate::cost::cost;
use crate::plan::Plan;
use crate::Found;

/// The number of records of the plan, or none where it is above the limit.
pub fn records(code: Code, plan: &Plan, limit: u64) -> Option<u64> {
    let mut number = 1;
    for _ in 0..code.size(plan) {
        number *= u64::from(plan.p);
        if number > limit {
            return None;
        }
    }
    Some(number)
}

/// All records within the radius.
pub fn within(code: Code, plan: &Plan, symbols: &[u32], doubts: &[u32]) -> Vec<Found> {
    let search = Search {
        p: plan.p,
        full: plan.full_doubt(),
        radius: code.radius(plan),
        symbols,
        doubts,
        steps: (0..code.size(plan)).map(|k| code.word(plan, &unit(k, code.size(plan)))).collect(),
    };
    let mut found = Vec::new();
    search.extend(&mut Vec::new(), &vec![0; symbols.len()], &mut found);
    found
}

/// The record whose only coefficient that is not 0 is a 1 in this place.
fn unit(place: usize, size: usize) -> Vec<u32> {
    (0..size).map(|k| u32::from(k == place)).collect()
}

struct Search<'a> {
    p: u32,
    full: u32,
    radius: u32,
    symbols: &'a [u32],
    doubts: &'a [u32],
    /// for each coefficient what its word adds where it grows by 1
    steps: Vec<Vec<u32>>,
}

impl Search<'_> {
    /// Tries every way to go on from the first coefficients, whose word is given.
    fn extend(&self, record: &mut Vec<u32>, word: &[u32], found: &mut Vec<Found>) {
        let Some(step) = self.steps.get(record.len()) else {
            let cost = cost(self.full, self.symbols, self.doubts, word);
            if cost < self.radius {
                found.push(Found { record: record.clone(), cost });
            }
            return;
        };
        let mut word = word.to_vec();
        for coefficient in 0..self.p {
            record.push(coefficient);
            self.extend(record, &word, found);
            record.pop();
            for (cell, add) in word.iter_mut().zip(step) {
                *cell = (*cell + add) % self.p;
            }
        }
    }
}
