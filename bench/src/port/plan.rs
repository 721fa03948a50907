//! The 40 bytes of a plan.

use super::field::{Field, Reduction, Row};
use super::polynomial::start;
use std::array::from_fn;
use traymark::Refusal;

/// A sound plan, taken apart; the points that are not used are 0.
pub struct Plan<R> {
    pub field: Field<R>,
    /// the full doubt of its season's photographs
    pub full: u16,
    pub rows: usize,
    pub columns: usize,
    pub degree: usize,
    pub row_points: Row,
    pub column_points: Row,
}

impl<R: Reduction> Plan<R> {
    /// The plan, or the first of refusals 1 2 3 13 4 5 that applies.
    pub fn parse(bytes: &[u8]) -> Result<Plan<R>, Refusal> {
        let bytes: &[u8; 40] = bytes.try_into().map_err(|_| Refusal::PlanForm)?;
        let &[high, low, p, rows, columns, d, ref points @ .., 0, 0] = bytes else { return Err(Refusal::PlanForm) };
        if p > 251 || !is_prime(p) {
            return Err(Refusal::Modulus);
        }
        if rows == 0 || rows > 16 || rows > p {
            return Err(Refusal::Rows);
        }
        if columns == 0 || columns > 16 || columns > p {
            return Err(Refusal::Columns);
        }
        if d >= rows.min(columns) {
            return Err(Refusal::Degree);
        }
        let (for_rows, for_columns) = points.split_at(16);
        let row_points = load_points(p, rows, for_rows)?;
        // points that are given twice, as in every plan that was widened, are looked at once
        let column_points = match (columns, for_columns) == (rows, for_rows) {
            true => row_points,
            false => load_points(p, columns, for_columns)?,
        };
        Ok(Plan {
            field: Field::new(p.into()),
            full: full_doubt(u16::from_be_bytes([high, low])),
            rows: rows.into(),
            columns: columns.into(),
            degree: d.into(),
            row_points,
            column_points,
        })
    }

    /// The number of cells of a mark.
    pub fn cells(&self) -> usize {
        self.rows * self.columns
    }

    /// The number of coefficients of a record.
    pub fn size(&self) -> usize {
        start(self.degree + 1)
    }

    /// The radius R.
    pub fn radius(&self) -> u32 {
        let (smaller, larger) = (self.rows.min(self.columns), self.rows.max(self.columns));
        u32::from(self.full) * (larger * (smaller - self.degree)) as u32
    }
}

/// The full doubt of a season: doubts are in 100ths, from season 30 on in 250ths.
fn full_doubt(season: u16) -> u16 {
    match season {
        0..=29 => 100,
        30.. => 250,
    }
}

/// The points of the rows or of the columns, sixteen bytes of which so many are used, or refusal 5.
fn load_points(p: u8, number: u8, bytes: &[u8]) -> Result<Row, Refusal> {
    let (used, unused) = bytes.split_at(number.into());
    let rising = used.windows(2).all(|pair| pair[0] < pair[1]);
    if !rising || used.iter().any(|&point| point >= p) || unused.iter().any(|&point| point != 0) {
        return Err(Refusal::Points);
    }
    Ok(from_fn(|place| bytes[place].into()))
}

fn is_prime(p: u8) -> bool {
    let p = u32::from(p);
    p >= 2 && (2..).take_while(|a| a * a <= p).all(|a| p % a != 0)
}
