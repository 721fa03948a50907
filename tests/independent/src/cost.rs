//! What a word costs against symbols and doubts, and how many cells are changed or unread.

use crate::UNREAD;

/// The sum over the cells of the doubt where the symbol is the word's value, else of twice the full doubt less the
/// doubt.
pub fn cost(full: u32, symbols: &[u32], doubts: &[u32], word: &[u32]) -> u32 {
    let cells = symbols.iter().zip(doubts).zip(word);
    cells.map(|((symbol, &doubt), value)| if symbol == value { doubt } else { 2 * full - doubt }).sum()
}

/// The number of cells that were read and whose symbol differs from the word's value.
pub fn changed(symbols: &[u32], word: &[u32]) -> u32 {
    symbols.iter().zip(word).filter(|&(&symbol, &value)| symbol != UNREAD && symbol != value).count() as u32
}

/// The number of cells that were not read.
pub fn unread(symbols: &[u32]) -> u32 {
    symbols.iter().filter(|&&symbol| symbol == UNREAD).count() as u32
}

/// The class of a changed count.
pub fn class(changed: u32) -> u32 {
    [1, 4, 16].into_iter().filter(|&bound| changed >= bound).count() as u32
}
