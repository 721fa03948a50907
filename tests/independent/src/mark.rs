//! Reading a mark one coefficient of Y at a time, as documents 000 and 004 do, with doubts that stay whole numbers.

use crate::code::Code;
use crate::cost::cost;
use crate::field::{power, Field};
use crate::plan::Plan;
use crate::strip::Strip;
use crate::{Found, UNREAD};

/// The record within the radius. The coefficients of Y^d, Y^(d - 1), ... are found in turn and subtracted; what comes
/// out is measured against the photograph, since they come out for many words that have no answer. An oblong needs no
/// other method: with r rows and c columns the coefficient of Y^j comes out below a cost of (c - j)(r - d + j) full doubts,
/// and that is lowest at j = 0 or j = d, where the lower of c (r - d) and (c - d) r is the radius.
pub fn nearest(plan: &Plan, symbols: &[u32], doubts: &[u32]) -> Option<Found> {
    let field = Field::new(plan.p);
    let mut left = symbols.to_vec();
    let mut columns = vec![Vec::new(); plan.degree + 1];
    for y_power in (0..=plan.degree).rev() {
        let column = y_coefficient(&field, plan, y_power, &left, doubts)?;
        subtract(&field, plan, y_power, &column, &mut left);
        columns[y_power] = column;
    }
    let record: Vec<u32> = Code::Mark.monomials(plan).into_iter().map(|(i, j)| columns[j][i]).collect();
    let cost = cost(plan.full_doubt(), symbols, doubts, &Code::Mark.word(plan, &record));
    (cost < Code::Mark.radius(plan)).then_some(Found { record, cost })
}

/// The polynomial in X before Y^y_power, where no higher power of Y is left. Each row is read as a strip; the leading
/// coefficients of the answers, with the answers' costs as doubts, are a strip over the row points. A row without an
/// answer is unread there. The full doubt of that strip is the rows' radius, so no doubt is divided or rounded.
fn y_coefficient(field: &Field, plan: &Plan, y_power: usize, left: &[u32], doubts: &[u32]) -> Option<Vec<u32>> {
    let row = Strip { field, points: &plan.column_points, degree: y_power, full: plan.full_doubt() };
    let full = plan.full_doubt() * (plan.columns() - y_power) as u32;
    let (symbols, doubts): (Vec<u32>, Vec<u32>) = left
        .chunks(plan.columns())
        .zip(doubts.chunks(plan.columns()))
        .map(|(symbols, doubts)| match row.nearest(symbols, doubts) {
            Some(found) => (found.record[y_power], found.cost),
            None => (UNREAD, full),
        })
        .unzip();
    let column = Strip { field, points: &plan.row_points, degree: plan.degree - y_power, full };
    Some(column.nearest(&symbols, &doubts)?.record)
}

/// Takes the coefficient times Y^y_power off the read cells.
fn subtract(field: &Field, plan: &Plan, y_power: usize, coefficient: &[u32], left: &mut [u32]) {
    let terms: Vec<u32> = plan.column_points.iter().map(|&y| power(y, plan.p, y_power)).collect();
    for (row, &x) in left.chunks_mut(plan.columns()).zip(&plan.row_points) {
        let value = field.value(coefficient, x);
        for (cell, &term) in row.iter_mut().zip(&terms) {
            if *cell != UNREAD {
                *cell = field.sub(*cell, field.mul(value, term));
            }
        }
    }
}
