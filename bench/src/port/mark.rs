//! The mark reader: the record under the radius, and what is counted of it.

use super::checks::UNREAD;
use super::field::{Reduction, Square, INVERSES_251};
use super::plan::Plan;
use super::polynomial::{put_record, Powers};
use super::steps::Steps;
use super::tally::Tally;
use traymark::{Reading, Refusal};

/// Puts in the record under the radius, and returns its reading. The buffers are a photograph of the plan.
pub fn read<R: Reduction>(
    plan: &Plan<R>,
    symbols: &[u8],
    doubts: &[u8],
    record: &mut [u8],
) -> Result<Reading, Refusal> {
    let tally = decode(plan, symbols, doubts, record).ok_or(Refusal::NoRecord)?;
    Ok(tally.reading(symbols, plan.radius()))
}

/// The same, for its tally.
pub fn decode<R: Reduction>(plan: &Plan<R>, symbols: &[u8], doubts: &[u8], record: &mut [u8]) -> Option<Tally> {
    if doubts.iter().map(|&doubt| u32::from(doubt)).sum::<u32>() >= plan.radius() {
        return None;
    }
    let inverses = match plan.field.p {
        251 => &*INVERSES_251,
        _ => &plan.field.inverses(),
    };
    let powers = Powers::new(plan);
    let doubts = load(doubts, plan.columns, |doubt| doubt);
    let mut left = load(symbols, plan.columns, |symbol| if symbol == UNREAD { 0 } else { symbol });
    let mut columns = [[0; 16]; 16];
    let mut steps = Steps { plan, inverses, powers: &powers, doubts: &doubts, left: &mut left };
    let cost = steps.solve(&mut columns)?;
    put_record(&columns, plan.degree, record);
    Some(Tally { cost, differing: differing(symbols, plan.columns, &left) })
}

/// The bytes of a mark as rows, 0 beyond it.
fn load(bytes: &[u8], columns: usize, number: impl Fn(u8) -> u8) -> Square {
    let mut square = [[0; 16]; 16];
    for (row, bytes) in square.iter_mut().zip(bytes.chunks_exact(columns)) {
        for (cell, &byte) in row.iter_mut().zip(bytes) {
            *cell = number(byte).into();
        }
    }
    square
}

/// How many cells are unread, or have something left of their symbols.
fn differing(symbols: &[u8], columns: usize, left: &Square) -> u32 {
    let cells = symbols.chunks_exact(columns).zip(left).flat_map(|(symbols, left)| symbols.iter().zip(left));
    cells.map(|(&symbol, &left)| u32::from((symbol == UNREAD) | (left != 0))).sum()
}
