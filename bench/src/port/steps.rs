//! The degree steps: one coefficient of Y at a time, from Y^d down to Y^0, is read from the rows and subtracted. A likely
//! draft of all columns, or of those that remain, is tried before: at most one record is under the radius, so what is
//! under it is the answer.

use super::draft;
use super::field::{Inverses, Reduction, Row, Square};
use super::plan::Plan;
use super::polynomial::Powers;
use super::strip::{Answer, Strip};
use super::tally::cost;
use std::array::from_fn;

/// A mark that is read.
pub struct Steps<'a, R> {
    pub plan: &'a Plan<R>,
    pub inverses: &'a Inverses,
    pub powers: &'a Powers<R>,
    pub doubts: &'a Square,
    /// what is left of the symbols once columns are subtracted
    pub left: &'a mut Square,
}

impl<R: Reduction> Steps<'_, R> {
    /// Puts in the columns of the record under the radius, which are subtracted, and returns its cost.
    pub fn solve(&mut self, columns: &mut Square) -> Option<u32> {
        let columns = &mut columns[..=self.plan.degree];
        if draft::from_cells(self.plan, self.inverses, self.left, columns) {
            if let Some(cost) = self.try_draft(columns) {
                return Some(cost);
            }
        }
        self.solve_by_degrees(columns)
    }

    /// The same by the degree steps. Where one has no answer no record is under the radius.
    fn solve_by_degrees(&mut self, columns: &mut [Row]) -> Option<u32> {
        let mut lines = [const { None }; 16];
        let mut is_drafted = false;
        for t in (0..columns.len()).rev() {
            columns[t] = self.step(t, &mut lines)?;
            let columns = &mut columns[..t];
            if t > 0 && !is_drafted && draft::from_lines(self.plan, self.inverses, &lines, columns) {
                is_drafted = true;
                if let Some(cost) = self.try_draft(columns) {
                    return Some(cost);
                }
            }
        }
        self.measure()
    }

    /// Finds and subtracts the coefficient of Y^t: the rows' leading coefficients are a strip, whose doubts are the rows'
    /// costs. The answers of the rows that it fits are kept.
    fn step(&mut self, t: usize, lines: &mut [Option<Answer>; 16]) -> Option<Row> {
        let Plan { field, full, rows, columns, degree, ref row_points, ref column_points } = *self.plan;
        let inverses = self.inverses;
        let row = Strip { field: &field, inverses, points: column_points, n: columns, degree: t, full };
        for (r, line) in lines.iter_mut().enumerate().take(rows) {
            if line.is_none() {
                *line = row.decode(&self.left[r], &self.doubts[r]);
            }
        }
        let unread = row.radius() as u16;
        let leading: Row = from_fn(|r| lines[r].as_ref().map_or(0, |answer| answer.coefficients[t]));
        let costs: Row = from_fn(|r| lines[r].as_ref().map_or(unread, |answer| answer.cost as u16));
        let strip = Strip { field: &field, inverses, points: row_points, n: rows, degree: degree - t, full: unread };
        let column = strip.decode(&leading, &costs)?;
        self.subtract(t, &column.values);
        for (r, line) in lines.iter_mut().enumerate() {
            if leading[r] != column.values[r] {
                *line = None;
            }
        }
        Some(column.coefficients)
    }

    /// Subtracts a draft of the lowest columns, if what it leaves is under the radius, and returns the cost.
    fn try_draft(&mut self, columns: &[Row]) -> Option<u32> {
        let before = *self.left;
        for (t, column) in columns.iter().enumerate() {
            self.subtract(t, &self.powers.column(column, t));
        }
        let cost = self.measure();
        if cost.is_none() {
            *self.left = before;
        }
        cost
    }

    /// Subtracts the column with these values in the rows, times Y^t. The test keeps the compiler from working across rows.
    fn subtract(&mut self, t: usize, values: &Row) {
        let power = &self.powers.of_columns()[t];
        for (row, &value) in self.left.iter_mut().zip(values).take(self.plan.rows) {
            if value != 0 {
                *row = self.plan.field.subtract_multiple(row, value, power);
            }
        }
    }

    /// The cost of what is left, if it is under the radius.
    fn measure(&self) -> Option<u32> {
        let Plan { full, rows, columns, .. } = *self.plan;
        let rows = self.doubts.iter().zip(self.left.iter()).take(rows);
        let cost = rows.map(|(doubts, left)| cost(full, &doubts[..columns], left)).sum();
        (cost < self.plan.radius()).then_some(cost)
    }
}
