//! Drafts of a mark's columns, from cells or from lines that are right as they stand. Nothing is said of a draft but that
//! it is likely: it is measured like any record.

use super::field::{Inverses, Reduction, Row, Square};
use super::plan::Plan;
use super::strip::Answer;

/// Puts in the columns through the cells of the first d + 1 rows and columns. They are likely only where the highest
/// differences of these columns, the coefficient of X^d, are one number.
pub fn from_cells<R: Reduction>(plan: &Plan<R>, inverses: &Inverses, cells: &Square, columns: &mut [Row]) -> bool {
    let d = plan.degree;
    let mut rows = *cells;
    let rows = &mut rows[..=d];
    divide_differences(plan, inverses, &plan.row_points, rows);
    if rows[d][..=d].iter().any(|&number| number != rows[d][0]) {
        return false;
    }
    change_to_powers(plan, &plan.row_points, rows);
    exchange(rows, columns);
    divide_differences(plan, inverses, &plan.column_points, columns);
    change_to_powers(plan, &plan.column_points, columns);
    true
}

/// Puts in the columns that are not yet known, the lowest, through the answers of the first d + 1 rows that have one. They
/// are likely only where there are so many, and where the next answer fits.
pub fn from_lines<R: Reduction>(
    plan: &Plan<R>,
    inverses: &Inverses,
    lines: &[Option<Answer>; 16],
    columns: &mut [Row],
) -> bool {
    let d = plan.degree;
    let known = lines.iter().flatten().count();
    if known <= d {
        return false;
    }
    let answers = lines.iter().zip(&plan.row_points).filter_map(|(line, &point)| Some((line.as_ref()?, point)));
    let mut rows = [[0; 16]; 16];
    let mut points = [0; 16];
    for (place, (answer, point)) in answers.take(d + 2).enumerate() {
        rows[place] = answer.coefficients;
        points[place] = point;
    }
    let rows = &mut rows[..known.min(d + 2)];
    divide_differences(plan, inverses, &points, rows);
    let (rows, next) = rows.split_at_mut(d + 1);
    if next.iter().any(|next| next[..columns.len()].iter().any(|&number| number != 0)) {
        return false;
    }
    change_to_powers(plan, &points, rows);
    exchange(rows, columns);
    true
}

/// Newton's coefficients of sixteen polynomials at once from their values at the first points.
fn divide_differences<R: Reduction>(plan: &Plan<R>, inverses: &Inverses, points: &Row, rows: &mut [Row]) {
    for k in 1..rows.len() {
        let (before, rows) = rows.split_at_mut(k);
        for (row, point) in rows.iter_mut().zip(&points[k..]) {
            let inverse = inverses[usize::from(point - points[k - 1])];
            *row = plan.field.scale_difference(inverse, row, &before[k - 1]);
        }
    }
}

/// The coefficients of sixteen polynomials at once from Newton's coefficients. In each round a row is freed of a multiple
/// of the one above it, as just made, so that the compiler does not work across rows.
fn change_to_powers<R: Reduction>(plan: &Plan<R>, points: &Row, rows: &mut [Row]) {
    let d = rows.len() - 1;
    for round in 0..d {
        let mut high = rows[d];
        for (row, &point) in rows[round..d].iter_mut().zip(points).rev() {
            high = plan.field.subtract_multiple(row, point, &high);
            *row = high;
        }
    }
}

/// Rows become columns.
fn exchange(rows: &[Row], columns: &mut [Row]) {
    for (t, column) in columns.iter_mut().enumerate() {
        for (number, row) in column.iter_mut().zip(rows) {
            *number = row[t];
        }
    }
}
