//! The mark or the strip of a record, put on symbols in place and taken off again: its values are worked out as by the writer,
//! and added to the cells that were read, or subtracted, modulo p.

use super::checks::{self, UNREAD};
use super::field::{Field, Reduction, Row};
use super::plan::Plan;
use super::polynomial::{self, Powers};
use traymark::Refusal;

/// Puts the mark of a record on, as `traymark::mask_mark`.
pub fn mask_mark<R: Reduction>(plan: &[u8], record: &[u8], symbols: &mut [u8]) -> Result<(), Refusal> {
    shift_mark::<R>(plan, record, symbols, Field::sum)
}

/// Takes it off, as `traymark::unmask_mark`.
pub fn unmask_mark<R: Reduction>(plan: &[u8], record: &[u8], symbols: &mut [u8]) -> Result<(), Refusal> {
    shift_mark::<R>(plan, record, symbols, Field::difference)
}

/// Puts the strip of a record on, as `traymark::mask_strip`.
pub fn mask_strip<R: Reduction>(plan: &[u8], record: &[u8], symbols: &mut [u8]) -> Result<(), Refusal> {
    shift_strip::<R>(plan, record, symbols, Field::sum)
}

/// Takes it off, as `traymark::unmask_strip`.
pub fn unmask_strip<R: Reduction>(plan: &[u8], record: &[u8], symbols: &mut [u8]) -> Result<(), Refusal> {
    shift_strip::<R>(plan, record, symbols, Field::difference)
}

fn shift_mark<R: Reduction>(
    plan: &[u8],
    record: &[u8],
    symbols: &mut [u8],
    shift: impl Fn(&Field<R>, u16, u16) -> u16,
) -> Result<(), Refusal> {
    let plan = checked::<R>(plan, record, symbols, |plan| [plan.size(), plan.cells()])?;
    let powers = Powers::new(&plan);
    let in_y = powers.put_in_x(&polynomial::columns(record, plan.degree));
    for (r, row) in symbols.chunks_exact_mut(plan.columns).enumerate() {
        shift_cells(row, &powers.row(&in_y, r), |symbol, value| shift(&plan.field, symbol, value));
    }
    Ok(())
}

fn shift_strip<R: Reduction>(
    plan: &[u8],
    record: &[u8],
    symbols: &mut [u8],
    shift: impl Fn(&Field<R>, u16, u16) -> u16,
) -> Result<(), Refusal> {
    let plan = checked::<R>(plan, record, symbols, |plan| [plan.degree + 1, plan.rows])?;
    shift_cells(symbols, &polynomial::strip(&plan, record), |symbol, value| shift(&plan.field, symbol, value));
    Ok(())
}

/// The plan, by which a record and symbols have the given lengths and nothing is refused.
fn checked<R: Reduction>(
    plan: &[u8],
    record: &[u8],
    symbols: &[u8],
    lengths: impl Fn(&Plan<R>) -> [usize; 2],
) -> Result<Plan<R>, Refusal> {
    let plan: Plan<R> = Plan::parse(plan)?;
    let [size, cells] = lengths(&plan);
    checks::lengths(&[(record.len(), size), (symbols.len(), cells)])?;
    checks::symbols(&plan, symbols)?;
    checks::record(&plan, record)?;
    Ok(plan)
}

/// The cells that were read, each by its value; the others stay.
fn shift_cells(cells: &mut [u8], values: &Row, shift: impl Fn(u16, u16) -> u16) {
    for (cell, &value) in cells.iter_mut().zip(values) {
        if *cell != UNREAD {
            *cell = shift((*cell).into(), value) as u8;
        }
    }
}
