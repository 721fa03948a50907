//! Numbers modulo a prime, and linear equations over them.

use std::iter::successors;

/// A linear equation, of sixteen unknowns at most, and its right side; what is not used is 0.
pub type Equation = [u32; 17];

/// The field of p elements.
#[derive(Clone, Debug)]
pub struct Field {
    pub p: u32,
    inverses: Vec<u32>,
}

impl Field {
    pub fn new(p: u32) -> Field {
        // a * (p / a) + p % a = p, so the inverse of a is that of p % a times -(p / a)
        let mut inverses = vec![0, 1];
        for a in 2..p {
            inverses.push((p - p / a) * inverses[(p % a) as usize] % p);
        }
        Field { p, inverses }
    }

    pub fn sub(&self, a: u32, b: u32) -> u32 {
        (a + self.p - b) % self.p
    }

    pub fn mul(&self, a: u32, b: u32) -> u32 {
        a * b % self.p
    }

    /// The inverse of an element that is not 0.
    pub fn inverse(&self, a: u32) -> u32 {
        self.inverses[a as usize]
    }

    /// The value at x of the polynomial with these coefficients, lowest power first.
    pub fn value(&self, coefficients: &[u32], x: u32) -> u32 {
        coefficients.iter().rev().fold(0, |value, &c| (value * x + c) % self.p)
    }

    /// The quotient of two polynomials where the division leaves no remainder. The divisor's last coefficient is not 0.
    pub fn divide(&self, dividend: &[u32], divisor: &[u32]) -> Option<Vec<u32>> {
        let mut rest = dividend.to_vec();
        let top = divisor.len() - 1;
        let lead = self.inverse(divisor[top]);
        let mut quotient = vec![0; dividend.len().saturating_sub(top)];
        for place in (0..quotient.len()).rev() {
            let factor = self.mul(rest[place + top], lead);
            quotient[place] = factor;
            for (k, &c) in divisor.iter().enumerate() {
                rest[place + k] = self.sub(rest[place + k], self.mul(factor, c));
            }
        }
        rest.iter().all(|&c| c == 0).then_some(quotient)
    }

    /// A solution of linear equations, by elimination: for each equation its coefficients and then, at `unknowns`,
    /// its right side. An unknown that the equations leave free is 0.
    pub fn solve(&self, mut rows: Vec<Equation>, unknowns: usize) -> Option<Vec<u32>> {
        let mut pivots = Vec::new();
        for column in 0..unknowns {
            let rank = pivots.len();
            let Some(pivot) = (rank..rows.len()).find(|&r| rows[r][column] != 0) else { continue };
            rows.swap(rank, pivot);
            self.clear_column(&mut rows, rank, column);
            pivots.push(column);
        }
        if rows[pivots.len()..].iter().any(|row| row[unknowns] != 0) {
            return None;
        }
        let mut solution = vec![0; unknowns];
        for (row, &column) in rows.iter().zip(&pivots) {
            solution[column] = row[unknowns];
        }
        Some(solution)
    }

    /// Makes the pivot 1 and all else in its column 0.
    fn clear_column(&self, rows: &mut [Equation], pivot: usize, column: usize) {
        let scale = self.inverse(rows[pivot][column]);
        let lead = rows[pivot].map(|entry| self.mul(entry, scale));
        rows[pivot] = lead;
        for (r, row) in rows.iter_mut().enumerate() {
            if r != pivot && row[column] != 0 {
                let factor = self.p - row[column];
                for (entry, &l) in row.iter_mut().zip(&lead).skip(column) {
                    *entry = (*entry + factor * l) % self.p;
                }
            }
        }
    }
}

/// The powers of x modulo p from the 0th on, which is 1 for 0 too.
pub fn powers(x: u32, p: u32) -> impl Iterator<Item = u32> {
    successors(Some(1), move |power| Some(power * x % p))
}

/// One of them.
pub fn power(x: u32, p: u32, exponent: usize) -> u32 {
    powers(x, p).nth(exponent).expect("there are powers without end")
}

#[cfg(test)]
mod tests {
    use super::*;

    #[test]
    fn inverses_leave_one() {
        for p in [2, 3, 5, 7, 101, 251] {
            let field = Field::new(p);
            assert!((1..p).all(|a| field.mul(a, field.inverse(a)) == 1));
        }
    }

    #[test]
    fn division_leaves_no_remainder_only_where_there_is_none() {
        let field = Field::new(7);
        // (3 + 2X)(1 + X) = 3 + 5X + 2X^2
        assert_eq!(field.divide(&[3, 5, 2], &[1, 1]), Some(vec![3, 2]));
        assert_eq!(field.divide(&[4, 5, 2], &[1, 1]), None);
        assert_eq!(field.divide(&[4], &[1, 1]), None);
        assert_eq!(field.divide(&[0], &[1, 1]), Some(vec![]));
    }

    #[test]
    fn equations_are_solved_or_refused() {
        let solve = |equations: [[u32; 3]; 2]| {
            let rows = equations.map(|equation| {
                let mut row = [0; 17];
                row[..3].copy_from_slice(&equation);
                row
            });
            Field::new(7).solve(rows.to_vec(), 2)
        };
        // x + y = 3, x - y = 1
        assert_eq!(solve([[1, 1, 3], [1, 6, 1]]), Some(vec![2, 1]));
        // the same equation with two right sides
        assert_eq!(solve([[1, 1, 3], [2, 2, 5]]), None);
        // y is free
        assert_eq!(solve([[1, 1, 3], [2, 2, 6]]), Some(vec![3, 0]));
    }
}
