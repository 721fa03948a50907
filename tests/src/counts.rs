//! What was seen, so that tests that test nothing show.

use crate::calls::{Arguments, Call, Outcome};
use crate::plans::primes;
use crate::sets::{Seen, SetCall};
use independent::windows::MOST_WINDOWS;
use independent::{Code, Date, Plan, Reading, Reason, Windows, FINER};
use std::collections::BTreeMap;
use std::fmt;

#[derive(Clone, Debug, Default)]
pub struct Counts {
    /// calls, each made through C and through Rust
    pub calls: u64,
    /// marks read, or refused with 10, oblongs among them, and strips
    pub marks: u64,
    pub oblongs: u64,
    pub strips: u64,
    /// marks that are others with rows and columns exchanged
    pub unlike: u64,
    /// marks and strips read with changed and unread cells at once
    pub mixed_marks: u64,
    pub mixed_strips: u64,
    /// of seasons before 30, and from 30 on
    pub ages: [Age; 2],
    /// marks and strips read by both of the independent methods
    pub twice: u64,
    /// plans found that others of their season stand behind, and of these unsound ones before sound ones
    pub first_of_several: u64,
    pub unsound_first: u64,
    /// plans widened
    pub widened: u64,
    /// explanations by p and reason
    pub reasons: BTreeMap<(u8, u32), u64>,
    /// of those with another answer these whose marks differ at the first cell, at the last, and as late as two marks can
    pub at_first: u64,
    pub at_last: u64,
    pub at_latest: u64,
    /// of those without an answer these whose record costs R, and R + 1
    pub excess_0: u64,
    pub excess_1: u64,
    /// sound window files with 64 windows, with two of one season, and with two that touch
    pub full_files: u64,
    pub one_season: u64,
    pub touching: u64,
    /// dates that are the first day of their window, the last, and beside one and in none
    pub first_days: u64,
    pub last_days: u64,
    pub beside: u64,
    /// records that were masks with every coefficient 0, and with every coefficient p - 1
    pub masks_of_0: u64,
    pub fullest_masks: u64,
    /// cells that were masked: unread; with the symbol 0 and another value; with the value 0; with a sum of p; with 250 and 250
    pub masked_cells: [u64; 5],
    pub sets: Seen,
    /// answers by number, and accepted readings and measurements by class
    pub numbers: [u64; 19],
    pub classes: [u64; 4],
}

/// What was seen of sound plans of one age.
#[derive(Clone, Copy, Debug, Default)]
pub struct Age {
    pub calls: u64,
    /// marks and strips read, or refused with 10
    pub readings: u64,
    /// photographs refused with 8
    pub misdoubted: u64,
    /// photographs that cost R - 1, R and R + 1 against the mark that they are of
    pub around: [u64; 3],
    /// the lowest margin and the highest
    pub margins: [i32; 2],
    /// photographs read with and without a mask, both with 0 and both with 10: of squares, oblongs and strips
    pub masked: [[u64; 2]; 3],
    /// of these that cost R - 1, R and R + 1
    pub masked_around: [u64; 3],
}

/// Whether a cost is R - 1, R and R + 1.
fn around(cost: u32, radius: u32) -> [bool; 3] {
    [cost + 1 == radius, cost == radius, cost == radius + 1]
}

/// Adds to each sum what it has more, or one where it was seen.
fn add_each<const N: usize, A: Into<u64>>(sums: &mut [u64; N], more: [A; N]) {
    sums.iter_mut().zip(more).for_each(|(sum, n)| *sum += n.into());
}

/// The lowest margin of all and the highest, in each age.
const MARGINS: [[i32; 2]; 2] = [[-49_600, 25_600], [-124_000, 64_000]];

impl Age {
    fn answer(&mut self, call: Call, reading: Reading) {
        self.calls += 1;
        self.readings += u64::from(call == Call::Read && matches!(reading.number, 0 | 10));
        self.misdoubted += u64::from(reading.number == 8);
        self.margin([reading.margin; 2]);
    }

    fn margin(&mut self, [low, high]: [i32; 2]) {
        self.margins = [self.margins[0].min(low), self.margins[1].max(high)];
    }

    fn add(&mut self, other: &Age) {
        self.calls += other.calls;
        self.readings += other.readings;
        self.misdoubted += other.misdoubted;
        add_each(&mut self.around, other.around);
        self.margin(other.margins);
        self.masked.iter_mut().zip(other.masked).for_each(|(sums, n)| add_each(sums, n));
        add_each(&mut self.masked_around, other.masked_around);
    }
}

impl fmt::Display for Age {
    fn fmt(&self, f: &mut fmt::Formatter<'_>) -> fmt::Result {
        let Age { calls, readings, misdoubted, around, margins: [lowest, highest], masked, masked_around } = self;
        let [read, none] = [0, 1].map(|k| masked.map(|kind| kind[k]));
        write!(
            f,
            "{calls} calls, {readings} readings, {misdoubted} times 8, cost R - 1, R, R + 1: {}, \
             margins {lowest} to {highest}, masked squares, oblongs, strips read: {}, refused with 10: {}, cost as above: {}",
            list(around),
            list(&read),
            list(&none),
            list(masked_around)
        )
    }
}

/// Which of the two ages the season is of.
pub fn age(season: u16) -> usize {
    usize::from(season >= FINER)
}

impl Counts {
    pub fn answer(&mut self, call: Call, given: &Arguments, outcome: &Outcome) {
        let reading = outcome.reading;
        self.number(reading.number);
        if !matches!(reading.number, 1..=5 | 13) {
            self.ages[age(u16::from_be_bytes([given.plan[0], given.plan[1]]))].answer(call, reading);
        }
        let mixed = u64::from(reading.changed > 0 && reading.unread > 0);
        match (call, given.code, reading.number) {
            (Call::Read, Code::Mark, 0 | 10) => {
                let [rows, columns] = [given.plan[3], given.plan[4]];
                self.marks += 1;
                self.oblongs += u64::from(rows != columns);
                self.mixed_marks += mixed;
            }
            (Call::Read, Code::Strip, 0 | 10) => {
                self.strips += 1;
                self.mixed_strips += mixed;
            }
            (Call::Explain, _, 0) => self.reason(given, outcome.reason),
            (Call::Mask, _, 0) => {
                let cells = given.symbols.iter().zip(&outcome.buffer);
                cells.for_each(|(&symbol, &masked)| self.masked_cell(given.plan[2], symbol, masked));
            }
            _ => (),
        }
        if matches!(call, Call::Measure | Call::Read) && reading.number == 0 {
            self.classes[reading.class as usize] += 1;
        }
    }

    fn reason(&mut self, given: &Arguments, Reason { reason, place, excess, .. }: Reason) {
        let [p, rows, columns, d] = [given.plan[2], given.plan[3], given.plan[4], given.plan[5]];
        let row = match given.code {
            Code::Strip => 1,
            Code::Mark => u32::from(columns),
        };
        *self.reasons.entry((p, reason)).or_default() += 1;
        let with_other = |at: u32| u64::from(reason == 2 && place == at);
        self.at_first += with_other(0);
        self.at_last += with_other(u32::from(rows) * row - 1);
        self.at_latest += with_other(u32::from(d) * row);
        self.excess_0 += u64::from(reason == 3 && excess == 0);
        self.excess_1 += u64::from(reason == 3 && excess == 1);
    }

    /// What a photograph costs against the mark that it is of.
    pub fn cost(&mut self, plan: &Plan, cost: u32, radius: u32) {
        add_each(&mut self.ages[age(plan.season)].around, around(cost, radius));
    }

    /// A photograph that costs so much, read with a mask on and without, both with this number.
    pub fn masked(&mut self, code: Code, plan: &Plan, mask: &[u8], cost: Option<u32>, number: u32) {
        let kind = match code {
            Code::Mark => usize::from(plan.rows() != plan.columns()),
            Code::Strip => 2,
        };
        let age = &mut self.ages[age(plan.season)];
        add_each(&mut age.masked[kind], [number == 0, number == 10]);
        add_each(&mut age.masked_around, cost.map_or([false; 3], |cost| around(cost, code.radius(plan))));
        self.masks_of_0 += u64::from(mask.iter().all(|&coefficient| coefficient == 0));
        self.fullest_masks += u64::from(mask.iter().all(|&coefficient| u32::from(coefficient) + 1 == plan.p));
    }

    /// A cell before masking and after.
    fn masked_cell(&mut self, p: u8, symbol: u8, masked: u8) {
        let value = (i32::from(masked) - i32::from(symbol)).rem_euclid(p.into());
        let is_read = symbol != 255;
        let seen = [
            !is_read,
            symbol == 0 && value > 0,
            is_read && value == 0,
            symbol > 0 && masked == 0,
            symbol == 250 && value == 250,
        ];
        add_each(&mut self.masked_cells, seen);
    }

    /// A window file.
    pub fn file(&mut self, windows: &Result<Windows, u32>) {
        let Ok(Windows(windows)) = windows else { return };
        let pairs =
            || windows.iter().enumerate().flat_map(|(k, one)| windows[..k].iter().map(move |other| (one, other)));
        self.full_files += u64::from(windows.len() == MOST_WINDOWS);
        self.one_season += u64::from(pairs().any(|(one, other)| one.season == other.season));
        self.touching +=
            u64::from(pairs().any(|(one, other)| one.last + 1 == other.first || other.last + 1 == one.first));
    }

    /// A date that is asked for.
    pub fn date(&mut self, windows: &Result<Windows, u32>, date: Date) {
        let (Ok(Windows(windows)), Some(day)) = (windows, date.number()) else { return };
        match windows.iter().find(|window| window.has(day)) {
            Some(window) => {
                self.first_days += u64::from(window.first == day);
                self.last_days += u64::from(window.last == day);
            }
            None => {
                self.beside += u64::from(windows.iter().any(|window| window.last + 1 == day || window.first == day + 1))
            }
        }
    }

    /// What a call on a set answers.
    pub fn set_answer(&mut self, call: SetCall, number: u32) {
        self.number(number);
        self.sets.answer(call, number);
    }

    pub fn number(&mut self, number: u32) {
        self.calls += 1;
        self.numbers[number as usize] += 1;
    }

    pub fn add(&mut self, other: &Counts) {
        self.calls += other.calls;
        self.marks += other.marks;
        self.oblongs += other.oblongs;
        self.strips += other.strips;
        self.unlike += other.unlike;
        self.mixed_marks += other.mixed_marks;
        self.mixed_strips += other.mixed_strips;
        self.ages.iter_mut().zip(&other.ages).for_each(|(sum, age)| sum.add(age));
        self.twice += other.twice;
        self.first_of_several += other.first_of_several;
        self.unsound_first += other.unsound_first;
        self.widened += other.widened;
        for (&key, n) in &other.reasons {
            *self.reasons.entry(key).or_default() += n;
        }
        self.at_first += other.at_first;
        self.at_last += other.at_last;
        self.at_latest += other.at_latest;
        self.excess_0 += other.excess_0;
        self.excess_1 += other.excess_1;
        self.full_files += other.full_files;
        self.one_season += other.one_season;
        self.touching += other.touching;
        self.first_days += other.first_days;
        self.last_days += other.last_days;
        self.beside += other.beside;
        self.masks_of_0 += other.masks_of_0;
        self.fullest_masks += other.fullest_masks;
        add_each(&mut self.masked_cells, other.masked_cells);
        self.sets.add(&other.sets);
        add_each(&mut self.numbers, other.numbers);
        add_each(&mut self.classes, other.classes);
    }

    /// What should have been seen and was not.
    pub fn missing(&self) -> Option<&'static str> {
        [
            (self.marks < 50_000, "fewer than 50,000 marks"),
            (self.oblongs < 60_000, "fewer than 60,000 oblong marks"),
            (self.strips < 50_000, "fewer than 50,000 strips"),
            (self.unlike < 1_000, "fewer than 1,000 marks that are others with rows and columns exchanged"),
            (self.mixed_marks < 10_000, "fewer than 10,000 marks read with changed and unread cells"),
            (self.mixed_strips < 5_000, "fewer than 5,000 strips read with changed and unread cells"),
            (self.few(500_000, |age| age.calls), "fewer than 500,000 calls of one age"),
            (self.few(80_000, |age| age.readings), "fewer than 80,000 readings of one age"),
            (self.few(10_000, |age| age.misdoubted), "fewer than 10,000 photographs of one age refused with 8"),
            ((0..3).any(|k| self.few(5_000, |age| age.around[k])), "few costs around the radius in one age"),
            (self.ages.map(|age| age.margins) != MARGINS, "not the lowest and the highest margin of each age"),
            (self.twice < 5_000, "few readings by both independent methods"),
            (self.first_of_several < 1_500, "fewer than 1,500 plans found before others of their season"),
            (self.unsound_first < 40, "fewer than 40 unsound plans found before sound ones of their season"),
            (self.widened < 50_000, "fewer than 50,000 plans widened"),
            (self.reasons_unseen() > 0, "a prime without one of the three reasons"),
            (
                self.explained().into_iter().any(|n| n < 100_000),
                "fewer than 100,000 explanations with one of the reasons",
            ),
            (self.at_first < 100_000, "fewer than 100,000 answers that differ at the first cell"),
            (self.at_last < 5_000, "fewer than 5,000 answers that differ at the last cell alone"),
            (self.at_latest < 50_000, "fewer than 50,000 answers that differ as late as two marks can"),
            (self.excess_0 < 50_000, "fewer than 50,000 expected records at the radius"),
            (self.excess_1 < 10_000, "fewer than 10,000 expected records one above the radius"),
            (self.full_files < 300, "fewer than 300 sound files of 64 windows"),
            (self.one_season < 2_000, "fewer than 2,000 sound files with two windows of one season"),
            (self.touching < 2_000, "fewer than 2,000 sound files with windows that touch"),
            (self.first_days < 40_000, "fewer than 40,000 first days of windows"),
            (self.last_days < 40_000, "fewer than 40,000 last days of windows"),
            (self.beside < 10_000, "fewer than 10,000 days beside a window and in none"),
            (self.numbers[14..=16].iter().any(|&n| n < 100_000), "fewer than 100,000 refusals of 14, 15 or 16"),
            (
                (0..2).any(|k| self.few(1_000, |age| age.masked[0][k])),
                "fewer than 1,000 squares of one age read with a mask on, or refused with 10",
            ),
            (
                (0..2).any(|k| self.few(8_000, |age| age.masked[1][k].min(age.masked[2][k]))),
                "fewer than 8,000 oblongs or strips of one age read with a mask on, or refused with 10",
            ),
            (
                (0..3).any(|k| self.few(10_000, |age| age.masked_around[k])),
                "fewer than 10,000 costs of R - 1, R or R + 1 with a mask on in one age",
            ),
            (self.masks_of_0 < 10_000, "fewer than 10,000 masks of 0"),
            (self.fullest_masks < 10_000, "fewer than 10,000 masks with the largest coefficients"),
            (self.masked_cells.iter().any(|&n| n < 1_000), "fewer than 1,000 masked cells of one kind"),
            (self.numbers.contains(&0), "a number that was never answered"),
            (self.classes.contains(&0), "a class that was never answered"),
        ]
        .into_iter()
        .find_map(|(missing, what)| missing.then_some(what))
        .or_else(|| self.sets.missing())
    }

    /// Whether one of the ages has fewer than so many.
    fn few(&self, least: u64, number: impl Fn(&Age) -> u64) -> bool {
        self.ages.iter().any(|age| number(age) < least)
    }

    /// Explanations by reason.
    pub fn explained(&self) -> [u64; 3] {
        let number = |k| self.reasons.iter().filter(|((_, reason), _)| *reason == k).map(|(_, n)| n).sum();
        [1, 2, 3].map(number)
    }

    /// How many reasons were never given, of all primes.
    fn reasons_unseen(&self) -> usize {
        primes().flat_map(|p| [1, 2, 3].map(|k| (p as u8, k))).filter(|key| !self.reasons.contains_key(key)).count()
    }
}

fn list(counts: &[u64]) -> String {
    counts.iter().map(u64::to_string).collect::<Vec<_>>().join(" ")
}

impl fmt::Display for Counts {
    fn fmt(&self, f: &mut fmt::Formatter<'_>) -> fmt::Result {
        write!(
            f,
            "{} calls, {} marks, {} of them oblong, {} strips; others exchanged: {}; changed and unread at once: {} {}; \
             before season 30: {}; from it on: {}; \
             both methods: {}; first of several plans: {}, unsound before sound: {}; \
             widened: {}; reasons: {}; other at the first, the last, the latest cell: {} {} {}; excess 0, 1: {} {}; \
             window files with 64, one season twice, touching: {} {} {}; first days, last days, beside a window: {} {} {}; \
             masks of 0, of p - 1: {} {}; cells masked unread, 0, by 0, to p, to 500: {}; sets: {}; numbers: {}; classes: {}",
            self.calls,
            self.marks,
            self.oblongs,
            self.strips,
            self.unlike,
            self.mixed_marks,
            self.mixed_strips,
            self.ages[0],
            self.ages[1],
            self.twice,
            self.first_of_several,
            self.unsound_first,
            self.widened,
            list(&self.explained()),
            self.at_first,
            self.at_last,
            self.at_latest,
            self.excess_0,
            self.excess_1,
            self.full_files,
            self.one_season,
            self.touching,
            self.first_days,
            self.last_days,
            self.beside,
            self.masks_of_0,
            self.fullest_masks,
            list(&self.masked_cells),
            self.sets,
            list(&self.numbers),
            list(&self.classes)
        )
    }
}
