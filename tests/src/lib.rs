//! What the tests of the calls and of the programs share: random plans, photographs of a chosen cost, window files, lent
//! buffers and sets, runs of a program.

pub mod calls;
pub mod counts;
pub mod lent;
pub mod library;
pub mod photo;
pub mod plans;
pub mod program;
pub mod random;
pub mod run;
pub mod sets;
pub mod windows;
