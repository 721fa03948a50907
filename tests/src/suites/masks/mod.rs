//! Masks: the mark of a record is put on symbols cell by cell, and taken off.

pub mod cells;
pub mod documented;
pub mod photographs;
