//! The strip decoder: cells enter by rising doubt, and the first candidate under the radius is the answer.

use super::field::{joined, Field, Inverses, Reduction, Row};
use super::interpolation::Pairs;
use super::newton::Newton;
use super::order::Order;
use super::tally::cost;

/// A strip's code for any full doubt: polynomials up to a degree at the first n points.
pub struct Strip<'a, R> {
    pub field: &'a Field<R>,
    pub inverses: &'a Inverses,
    pub points: &'a Row,
    pub n: usize,
    pub degree: usize,
    pub full: u16,
}

/// The polynomial under the radius, by its coefficients and its values, and its cost.
pub struct Answer {
    pub coefficients: Row,
    pub values: Row,
    pub cost: u32,
}

impl<R: Reduction> Strip<'_, R> {
    /// The polynomial that costs under the radius. The first cells have one through them, which is measured first.
    pub fn decode(&self, symbols: &Row, doubts: &Row) -> Option<Answer> {
        if self.cost(doubts, &[0; 16]) >= self.radius() {
            return None;
        }
        let all = Order::new(&doubts[..self.n]);
        let mut cells = all.clone();
        let newton = Newton::through(self, symbols, &mut cells);
        self.measured(&newton, symbols, doubts).or_else(|| {
            let mut pairs = Pairs::new(newton, self.degree);
            cells.take_while(|&cell| doubts[cell] < self.full).find_map(|cell| {
                pairs.enter(self, cell);
                self.attempt(&pairs, all.up_to(cell, &pairs.second.e), symbols, doubts)
            })
        })
    }

    /// What a polynomial costs at least that is not the answer.
    pub fn radius(&self) -> u32 {
        u32::from(self.full) * (self.n - self.degree) as u32
    }

    /// The candidate of the cells that have entered, of which those are given where E2 is not 0. A polynomial that is
    /// wrong at few of them makes E2 zero at just these, b in number; then D2 tells where else it is wrong, so that it is
    /// made only if it is under the radius.
    fn attempt(&self, pairs: &Pairs, right: Order, symbols: &Row, doubts: &Row) -> Option<Answer> {
        if pairs.a <= pairs.b + self.degree || right.len() != pairs.a {
            return None;
        }
        let wrong = joined(&pairs.second.d, &pairs.second.e, |d, e| if e == 0 { 1 } else { d });
        if self.cost(doubts, &wrong) >= self.radius() {
            return None;
        }
        self.measured(&Newton::through(self, symbols, right), symbols, doubts)
    }

    /// The polynomial, if it costs under the radius.
    fn measured(&self, newton: &Newton, symbols: &Row, doubts: &Row) -> Option<Answer> {
        let cost = self.cost(doubts, &newton.rest);
        (cost < self.radius()).then(|| Answer {
            coefficients: newton.coefficients(self),
            values: self.field.add(&newton.rest, symbols),
            cost,
        })
    }

    /// What a word costs that is wrong where the row is not 0.
    fn cost(&self, doubts: &Row, wrong: &Row) -> u32 {
        cost(self.full, &doubts[..self.n], wrong)
    }
}
