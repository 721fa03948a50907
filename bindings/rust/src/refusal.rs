//! The refusals, with their numbers and what they mean in plain words.

use std::error::Error;
use std::fmt;

/// Why a call was refused. Where several reasons apply, the first of them in the order of `ALL` is given; of `widen_plans` alone
/// 11 comes before 6.
#[derive(Clone, Copy, Debug, PartialEq, Eq, Hash)]
#[non_exhaustive]
pub enum Refusal {
    PlanForm = 1,
    Modulus = 2,
    Rows = 3,
    Columns = 13,
    Degree = 4,
    Points = 5,
    BufferLength = 6,
    NotFree = 17,
    NotHeld = 18,
    Symbol = 7,
    Doubt = 8,
    Coefficient = 9,
    NoRecord = 10,
    FileLength = 11,
    NoSuchSeason = 12,
    WindowFile = 14,
    SharedDay = 15,
    NoWindow = 16,
}

impl Refusal {
    /// All refusals, in the order in which they are tested: by rising number, but 13 after 3, and 17 and 18 after 6.
    pub const ALL: [Refusal; 18] = [
        Refusal::PlanForm,
        Refusal::Modulus,
        Refusal::Rows,
        Refusal::Columns,
        Refusal::Degree,
        Refusal::Points,
        Refusal::BufferLength,
        Refusal::NotFree,
        Refusal::NotHeld,
        Refusal::Symbol,
        Refusal::Doubt,
        Refusal::Coefficient,
        Refusal::NoRecord,
        Refusal::FileLength,
        Refusal::NoSuchSeason,
        Refusal::WindowFile,
        Refusal::SharedDay,
        Refusal::NoWindow,
    ];

    /// The refusal with this number.
    pub fn from_number(number: u32) -> Option<Refusal> {
        Refusal::ALL.into_iter().find(|refusal| refusal.number() == number)
    }

    /// Its number, 1 to 18.
    pub fn number(self) -> u32 {
        self as u32
    }

    /// What it means.
    pub fn message(self) -> &'static str {
        match self {
            Refusal::PlanForm => "the plan is not 40 bytes long, or its byte 38 or 39 is not 0",
            Refusal::Modulus => "p is not a prime from 2 to 251",
            Refusal::Rows => "the rows are 0, above 16 or above p",
            Refusal::Columns => "the columns are 0, above 16 or above p",
            Refusal::Degree => "d is not below the smaller side",
            Refusal::Points => {
                "a row or column point is p or more or not above the one before it, or an unused point byte is not 0"
            }
            Refusal::BufferLength => "a lent buffer has not its exact length",
            Refusal::NotFree => "the number of the photograph to add is above 8, or held",
            Refusal::NotHeld => "the number of the photograph to withdraw is not held",
            Refusal::Symbol => "a symbol is p or more and not 255",
            Refusal::Doubt => "a doubt is above the full doubt, or that of an unread cell is not the full doubt",
            Refusal::Coefficient => "a coefficient of the given record is p or more",
            Refusal::NoRecord => "no record is within the radius",
            Refusal::FileLength => {
                "the plan file's length is no multiple of 40, or there are more than 1,000 plans to widen, or their length \
                 is no multiple of 24"
            }
            Refusal::NoSuchSeason => "no plan in the file has the season",
            Refusal::WindowFile => {
                "the window file's length is no multiple of 12, it has more than 64 windows, a date in it is unreal, a last \
                 date is before its first, or one of the last two bytes of a window is not 0"
            }
            Refusal::SharedDay => "two windows share a day",
            Refusal::NoWindow => "the date asked for is unreal, or in no window",
        }
    }
}

impl fmt::Display for Refusal {
    fn fmt(&self, f: &mut fmt::Formatter<'_>) -> fmt::Result {
        write!(f, "refusal {}: {}", self.number(), self.message())
    }
}

impl Error for Refusal {}

#[cfg(test)]
mod tests {
    use super::*;

    #[test]
    fn numbers_go_from_1_to_18_in_the_order_of_the_tests() {
        assert_eq!(Refusal::ALL.map(Refusal::number), [1, 2, 3, 13, 4, 5, 6, 17, 18, 7, 8, 9, 10, 11, 12, 14, 15, 16]);
        assert!(Refusal::ALL.iter().all(|&refusal| Refusal::from_number(refusal.number()) == Some(refusal)));
        assert_eq!([0, 19].map(Refusal::from_number), [None, None]);
    }

    #[test]
    fn messages_name_the_number() {
        assert_eq!(Refusal::NoRecord.to_string(), "refusal 10: no record is within the radius");
    }
}
