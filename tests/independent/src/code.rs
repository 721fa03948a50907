//! The two codes of document 01: the strip, polynomials in X, and the mark, polynomials in X and Y.

use crate::field::powers;
use crate::plan::Plan;

#[derive(Clone, Copy, Debug, PartialEq, Eq)]
pub enum Code {
    Strip,
    Mark,
}

impl Code {
    /// The number of cells.
    pub fn cells(self, plan: &Plan) -> usize {
        match self {
            Code::Strip => plan.rows(),
            Code::Mark => plan.rows() * plan.columns(),
        }
    }

    /// The number of a record's coefficients.
    pub fn size(self, plan: &Plan) -> usize {
        self.monomials(plan).len()
    }

    /// The radius R.
    pub fn radius(self, plan: &Plan) -> u32 {
        let [smaller, larger] = plan.sides();
        let distance = match self {
            Code::Strip => plan.rows() - plan.degree,
            Code::Mark => larger * (smaller - plan.degree),
        };
        plan.full_doubt() * distance as u32
    }

    /// For each coefficient of a record the powers of X and Y that go with it.
    pub fn monomials(self, plan: &Plan) -> Vec<(usize, usize)> {
        let degrees = 0..=plan.degree;
        match self {
            Code::Strip => degrees.map(|k| (k, 0)).collect(),
            Code::Mark => degrees.flat_map(|k| (0..=k).map(move |j| (k - j, j))).collect(),
        }
    }

    /// The mark, or strip, of a record: its values, cell after cell.
    pub fn word(self, plan: &Plan, record: &[u32]) -> Vec<u32> {
        let monomials = self.monomials(plan);
        let value = |(x, y): (u32, u32)| {
            let [x, y] = [x, y].map(|point| powers(point, plan.p).take(plan.degree + 1).collect::<Vec<u32>>());
            let terms = monomials.iter().zip(record).map(|(&(i, j), &c)| u64::from(c * x[i] * y[j]));
            (terms.sum::<u64>() % u64::from(plan.p)) as u32
        };
        self.points(plan).into_iter().map(value).collect()
    }

    /// For each cell the points that X and Y take.
    fn points(self, plan: &Plan) -> Vec<(u32, u32)> {
        let rows = plan.row_points.iter();
        match self {
            Code::Strip => rows.map(|&x| (x, 0)).collect(),
            Code::Mark => rows.flat_map(|&x| plan.column_points.iter().map(move |&y| (x, y))).collect(),
        }
    }
}
