//! Polynomials in X and Y of total degree d at most, as columns: row t has the coefficients of Y^t, by rising power of X. And
//! those in X alone.

use super::field::{Field, Reduction, Row, Square};
use super::plan::Plan;

/// The columns of a record, which goes by total degree and then by rising power of Y.
pub fn columns(record: &[u8], degree: usize) -> Square {
    let mut columns = [[0; 16]; 16];
    for k in 0..=degree {
        for (t, &coefficient) in record[start(k)..start(k + 1)].iter().enumerate() {
            columns[t][k - t] = coefficient.into();
        }
    }
    columns
}

/// Puts the columns' coefficients into a record.
pub fn put_record(columns: &Square, degree: usize, record: &mut [u8]) {
    for k in 0..=degree {
        for (t, coefficient) in record[start(k)..start(k + 1)].iter_mut().enumerate() {
            *coefficient = columns[t][k - t] as u8;
        }
    }
}

/// Where the coefficients of total degree k begin in a record; a record of degree d has start(d + 1) of them.
pub fn start(k: usize) -> usize {
    k * (k + 1) / 2
}

/// The powers of a plan's points, for values at all points at once.
pub struct Powers<R> {
    field: Field<R>,
    degree: usize,
    of_rows: Square,
    /// none where they are those of the rows, as in every plan that was widened
    of_columns: Option<Square>,
}

impl<R: Reduction> Powers<R> {
    pub fn new(plan: &Plan<R>) -> Powers<R> {
        let Plan { field, degree, row_points, column_points, .. } = *plan;
        let of_columns = (column_points != row_points).then(|| powers(&field, degree, &column_points));
        Powers { field, degree, of_rows: powers(&field, degree, &row_points), of_columns }
    }

    /// The powers of the column points.
    pub fn of_columns(&self) -> &Square {
        self.of_columns.as_ref().unwrap_or(&self.of_rows)
    }

    /// The values in the rows of the mark of the coefficient of Y^t, of which the powers of X up to d - t count.
    pub fn column(&self, coefficients: &Row, t: usize) -> Row {
        self.field.sum_of_multiples(coefficients[..=self.degree - t].iter().copied().zip(&self.of_rows))
    }

    /// X is put in, for all rows of the mark at once: row t has the coefficient of Y^t in each row of the mark.
    pub fn put_in_x(&self, columns: &Square) -> Square {
        let mut in_y = [[0; 16]; 16];
        for (t, column) in columns[..=self.degree].iter().enumerate() {
            in_y[t] = self.column(column, t);
        }
        in_y
    }

    /// Then Y is put in, in row r of the mark: the row's values.
    pub fn row(&self, in_y: &Square, r: usize) -> Row {
        let coefficients = in_y[..=self.degree].iter().map(|coefficients| coefficients[r]);
        self.field.sum_of_multiples(coefficients.zip(self.of_columns()))
    }
}

/// The values at the row points of a polynomial in X, of which a record has the coefficients.
pub fn strip<R: Reduction>(plan: &Plan<R>, record: &[u8]) -> Row {
    let powers = powers(&plan.field, plan.degree, &plan.row_points);
    plan.field.sum_of_multiples(record.iter().map(|&coefficient| coefficient.into()).zip(&powers))
}

/// The powers of some points up to the degree.
fn powers<R: Reduction>(field: &Field<R>, degree: usize, points: &Row) -> Square {
    let mut powers = [[1; 16]; 16];
    for t in 1..=degree {
        powers[t] = field.multiply(&powers[t - 1], points);
    }
    powers
}
