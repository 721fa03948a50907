//! Streams of distinct questions for the season of a date, each with a window file of its own.

use crate::port;
use crate::timing::BATCH;
use independent::{Date, Window, DAYS};
use std::array::from_fn;
use std::collections::BTreeSet;
use traymark::Refusal;
use traymark_tests::random::Random;

/// A call that finds the season of a date.
pub type Find = fn(&[u8], u32, u32, u32) -> Result<u16, Refusal>;

/// Who is timed: the proved library, and the port.
pub static FINDERS: [Find; 2] = [traymark::find_season, port::find_season];

/// How many windows the file has, and whether its last window has the date or none has it.
#[derive(Clone, Copy)]
pub struct Kind {
    windows: usize,
    is_found: bool,
}

pub const KINDS: [Kind; 3] =
    [Kind { windows: 64, is_found: true }, Kind { windows: 64, is_found: false }, Kind { windows: 2, is_found: true }];

impl Kind {
    pub fn described(self) -> String {
        let who = if self.is_found { "the last" } else { "none" };
        format!("{} windows, {who} has the date", self.windows)
    }
}

#[derive(Debug)]
pub struct Question {
    file: Vec<u8>,
    date: Date,
}

impl Question {
    pub fn ask(&self, find: Find) -> Result<u16, Refusal> {
        let Date { year, month, day } = self.date;
        find(&self.file, year, month, day)
    }

    /// Windows anywhere, in any order. Each has four days to itself: its first, one within it, its last, and one after it.
    fn new(kind: Kind, random: &mut Random) -> Question {
        let mut days = BTreeSet::new();
        while days.len() < 4 * kind.windows {
            days.insert(random.below(DAYS));
        }
        let days: Vec<usize> = days.into_iter().collect();
        let mut fours: Vec<&[usize]> = days.chunks(4).collect();
        random.shuffle(&mut fours);
        let mut window =
            |four: &&[usize]| Window { season: random.number() as u16, first: four[0], last: four[2] }.bytes();
        let file = fours.iter().flat_map(&mut window).collect();
        let last = fours[kind.windows - 1];
        Question { file, date: Date::of(if kind.is_found { last[1] } else { last[3] }) }
    }
}

/// Questions enough for so many, in batches.
pub fn batches(kind: Kind, number: usize) -> Vec<[Question; BATCH]> {
    let random = &mut Random::new(kind.windows as u64);
    (0..number.div_ceil(BATCH)).map(|_| from_fn(|_| Question::new(kind, random))).collect()
}
