//! Refusals 6 to 9.

use super::field::Reduction;
use super::plan::Plan;
use traymark::Refusal;

/// The symbol of an unread cell.
pub const UNREAD: u8 = 255;

/// Refusal 6: pairs of the length that is there and the one that is owed.
pub fn lengths(lengths: &[(usize, usize)]) -> Result<(), Refusal> {
    match lengths.iter().all(|(is, owed)| is == owed) {
        true => Ok(()),
        false => Err(Refusal::BufferLength),
    }
}

/// Refusals 6, 7 and 8 of a photograph with a record or the buffer for one.
pub fn photograph<R: Reduction>(plan: &Plan<R>, symbols: &[u8], doubts: &[u8], record: usize) -> Result<(), Refusal> {
    lengths(&[(symbols.len(), plan.cells()), (doubts.len(), plan.cells()), (record, plan.size())])?;
    self::symbols(plan, symbols)?;
    self::doubts(plan, symbols, doubts)
}

/// Refusal 7.
pub fn symbols<R: Reduction>(plan: &Plan<R>, symbols: &[u8]) -> Result<(), Refusal> {
    let p = plan.field.p as u8;
    match any(symbols.iter().map(|&symbol| (symbol >= p) & (symbol != UNREAD))) {
        true => Err(Refusal::Symbol),
        false => Ok(()),
    }
}

/// Refusal 8.
pub fn doubts<R: Reduction>(plan: &Plan<R>, symbols: &[u8], doubts: &[u8]) -> Result<(), Refusal> {
    let full = plan.full as u8;
    let cells = symbols.iter().zip(doubts);
    match any(cells.map(|(&symbol, &doubt)| (doubt > full) | (symbol == UNREAD) & (doubt != full))) {
        true => Err(Refusal::Doubt),
        false => Ok(()),
    }
}

/// Refusal 9.
pub fn record<R: Reduction>(plan: &Plan<R>, record: &[u8]) -> Result<(), Refusal> {
    match any(record.iter().map(|&coefficient| u16::from(coefficient) >= plan.field.p)) {
        true => Err(Refusal::Coefficient),
        false => Ok(()),
    }
}

/// Whether one is true. All are looked at, so that the loop is vectorised.
fn any(cells: impl Iterator<Item = bool>) -> bool {
    cells.fold(false, |any, cell| any | cell)
}
