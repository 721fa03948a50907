//! Document 01, with all that was changed in it since, once more, by other methods than those of the proved library: what
//! the tests hold it against.
//!
//! Small plans are read by going through all their records (`exhaustive`), others by Berlekamp and Welch's linear
//! equations at every level of doubt, for every number of errors (`strip`), and for marks one coefficient of Y at a
//! time over that (`mark`). Dates are counted as days (`calendar`), and a window file is the days that its windows have
//! (`windows`). A set is the photographs that it holds, combined afresh each time (`sets`), and what its calls do with bytes
//! that they have not made is told apart (`memory`). Everything is written for being seen to be right; nothing is written for
//! speed.

pub mod calendar;
pub mod calls;
pub mod code;
pub mod cost;
pub mod exhaustive;
pub mod field;
pub mod mark;
pub mod memory;
pub mod plan;
pub mod sets;
pub mod strip;
pub mod windows;

pub use calendar::{Date, DAYS};
pub use calls::{check_plan, explain, find_plan, mask, measure, read, unmask, widen_plans, write, Reading, Reason};
pub use code::Code;
pub use plan::{Plan, FINER, OLD_PLAN, PLAN};
pub use sets::{Set, PHOTOGRAPHS, SET};
pub use windows::{find_season, Window, Windows, WINDOW};

/// The refusals in the order in which they are tested.
pub const ORDER: [u32; 18] = [1, 2, 3, 13, 4, 5, 6, 17, 18, 7, 8, 9, 10, 11, 12, 14, 15, 16];

/// The symbol of an unread cell. It is no value, as p is at most 251.
pub const UNREAD: u32 = 255;

/// A record and its cost.
#[derive(Clone, Debug, PartialEq, Eq)]
pub struct Found {
    pub record: Vec<u32>,
    pub cost: u32,
}
