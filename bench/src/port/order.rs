//! The order in which the cells of a strip enter.

use super::field::{joined, Row};

/// Cells by rising doubt, and by place among those of one doubt. A cell's key is 16 times its doubt and its place.
#[derive(Clone)]
pub struct Order {
    keys: Row,
}

/// The key of no cell. Every other is less, since doubts are at most 4,000: the radius of a row of sixteen cells in 250ths,
/// which is the doubt of a row without an answer.
const NONE: u16 = u16::MAX;

impl Order {
    /// The cells with these doubts.
    pub fn new(doubts: &[u16]) -> Order {
        let mut keys = [NONE; 16];
        for (place, (key, doubt)) in (0..).zip(keys.iter_mut().zip(doubts)) {
            *key = 16 * doubt + place;
        }
        Order { keys }
    }

    /// Those up to this cell where the row is not 0.
    pub fn up_to(&self, cell: usize, row: &Row) -> Order {
        let last = self.keys[cell];
        Order { keys: joined(&self.keys, row, |key, number| if (key <= last) & (number != 0) { key } else { NONE }) }
    }

    /// The least key, found in both halves of the row at once.
    fn least(&self) -> u16 {
        let (low, high) = self.keys.split_at(8);
        low.iter().zip(high).map(|(&a, &b)| a.min(b)).fold(NONE, u16::min)
    }

    /// How many they are.
    pub fn len(&self) -> usize {
        self.keys.iter().filter(|&&key| key != NONE).count()
    }
}

impl Iterator for Order {
    type Item = usize;

    /// The cell of the least key. Its key is dropped by comparing: put in its place, a number would have to be stored
    /// before the row can be loaded for the next one.
    fn next(&mut self) -> Option<usize> {
        let least = self.least();
        for key in &mut self.keys {
            *key = if *key == least { NONE } else { *key };
        }
        (least != NONE).then_some(usize::from(least % 16))
    }
}
