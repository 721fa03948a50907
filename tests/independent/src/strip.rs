//! Reading a strip by the linear equations of Berlekamp and Welch.

use crate::cost::cost;
use crate::field::{powers, Equation, Field};
use crate::Found;

/// A strip's code for any full doubt: polynomials up to a degree at these points.
pub struct Strip<'a> {
    pub field: &'a Field,
    pub points: &'a [u32],
    pub degree: usize,
    pub full: u32,
}

impl Strip<'_> {
    /// The polynomial that costs under full * (n - degree), by trying every level of doubt and every number of errors.
    pub fn nearest(&self, symbols: &[u32], doubts: &[u32]) -> Option<Found> {
        let mut levels: Vec<u32> = doubts.iter().copied().filter(|&doubt| doubt < self.full).collect();
        levels.sort_unstable();
        levels.dedup();
        levels.into_iter().find_map(|level| self.at_level(level, symbols, doubts))
    }

    /// The same with the cells above the level erased.
    fn at_level(&self, level: u32, symbols: &[u32], doubts: &[u32]) -> Option<Found> {
        let radius = self.full * (self.points.len() - self.degree) as u32;
        let kept: Vec<(u32, u32)> =
            (0..self.points.len()).filter(|&k| doubts[k] <= level).map(|k| (self.points[k], symbols[k])).collect();
        for errors in (0..).take_while(|errors| 2 * errors + self.degree < kept.len()) {
            let Some(record) = self.candidate(&kept, errors) else { continue };
            let word: Vec<u32> = self.points.iter().map(|&x| self.field.value(&record, x)).collect();
            let cost = cost(self.full, symbols, doubts, &word);
            if cost < radius {
                return Some(Found { record, cost });
            }
        }
        None
    }

    /// The polynomial Q / E, where Q(x) = y E(x) at each kept cell (x, y), E has degree `errors` and leading
    /// coefficient 1, and Q has degree `errors + degree` at most.
    fn candidate(&self, kept: &[(u32, u32)], errors: usize) -> Option<Vec<u32>> {
        let p = self.field.p;
        let in_q = errors + self.degree + 1;
        let equation = |&(x, y): &(u32, u32)| -> Equation {
            let mut row = [0; 17];
            for (k, power) in powers(x, p).take(in_q).enumerate() {
                row[k] = power;
                if k < errors {
                    row[in_q + k] = power * (p - y) % p;
                }
            }
            row[in_q + errors] = row[errors] * y % p;
            row
        };
        let mut q = self.field.solve(kept.iter().map(equation).collect(), in_q + errors)?;
        let mut e = q.split_off(in_q);
        e.push(1);
        self.field.divide(&q, &e)
    }
}
