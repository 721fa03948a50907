//! Worked out by hand: document 02's own examples, the ends of windows, of months and of centuries, each refusal, and which comes
//! first.

use super::File;
use independent::Date;
use traymark_tests::counts::Counts;
use traymark_tests::random::Random;
use traymark_tests::windows::TWO_SEASONS;

pub const CASES: u64 = 100;

/// A date as year, month and day.
type Day = [u32; 3];

/// A file, a date, and its season or the refusal.
struct Row(Vec<u8>, Day, Result<u16, u32>);

pub fn case(seed: u64, random: &mut Random, counts: &mut Counts) -> Result<(), String> {
    let rows = rows();
    if rows.len() as u64 != CASES {
        return Err(format!("there are {} rows", rows.len()));
    }
    let Row(file, [year, month, day], expected) = &rows[seed as usize];
    File::new(file, random).expect(Date::new(*year, *month, *day), *expected, random, counts)
}

fn rows() -> Vec<Row> {
    [two_seasons(), ends(), months(), numbers(), unsound(), shared(), order()].into_iter().flatten().collect()
}

/// The bytes of a window.
fn window(season: u16, first: Day, last: Day) -> Vec<u8> {
    let [high, low] = season.to_be_bytes();
    let date = |[year, month, day]: Day| [(year / 256) as u8, (year % 256) as u8, month as u8, day as u8];
    [&[high, low][..], &date(first), &date(last), &[0, 0]].concat()
}

/// Of season 1.
fn one(first: Day, last: Day) -> Vec<u8> {
    window(1, first, last)
}

fn two_seasons() -> Vec<Row> {
    let asked = |date: Day, expected| Row(TWO_SEASONS.to_vec(), date, expected);
    vec![
        asked([2026, 11, 15], Ok(30)),
        asked([2026, 7, 1], Ok(30)),
        asked([2026, 12, 31], Ok(30)),
        asked([2027, 1, 1], Ok(30)),
        asked([2027, 6, 30], Ok(30)),
        asked([2027, 7, 1], Err(16)),
        asked([2026, 6, 30], Ok(29)),
        asked([2026, 1, 1], Ok(29)),
        asked([2025, 7, 1], Ok(29)),
        asked([2025, 6, 30], Err(16)),
        asked([2026, 6, 31], Err(16)),
        asked([2026, 2, 29], Err(16)),
    ]
}

/// A window over New Year, one that is shorter than a month and crosses its end, one day, and all days.
fn ends() -> Vec<Row> {
    let new_year = || one([2026, 12, 31], [2027, 1, 1]);
    let spring = || one([2026, 2, 10], [2026, 3, 5]);
    let day = || one([2000, 2, 29], [2000, 2, 29]);
    let all = || one([1900, 1, 1], [2199, 12, 31]);
    vec![
        Row(new_year(), [2026, 12, 30], Err(16)),
        Row(new_year(), [2026, 12, 31], Ok(1)),
        Row(new_year(), [2027, 1, 1], Ok(1)),
        Row(new_year(), [2027, 1, 2], Err(16)),
        Row(spring(), [2026, 2, 9], Err(16)),
        Row(spring(), [2026, 2, 10], Ok(1)),
        Row(spring(), [2026, 2, 28], Ok(1)),
        Row(spring(), [2026, 3, 1], Ok(1)),
        Row(spring(), [2026, 3, 5], Ok(1)),
        Row(spring(), [2026, 3, 6], Err(16)),
        Row(spring(), [2025, 2, 20], Err(16)),
        Row(spring(), [2027, 2, 20], Err(16)),
        Row(day(), [2000, 2, 28], Err(16)),
        Row(day(), [2000, 2, 29], Ok(1)),
        Row(day(), [2000, 3, 1], Err(16)),
        Row(all(), [1899, 12, 31], Err(16)),
        Row(all(), [1900, 1, 1], Ok(1)),
        Row(all(), [2199, 12, 31], Ok(1)),
        Row(all(), [2200, 1, 1], Err(16)),
        Row(Vec::new(), [2026, 11, 15], Err(16)),
    ]
}

/// Asked for among all days, and in a window; the last days of months, and those after them.
fn months() -> Vec<Row> {
    let asked = |date: Day, expected| Row(one([1900, 1, 1], [2199, 12, 31]), date, expected);
    let first = |date: Day, expected| Row(one(date, [2199, 12, 31]), [2199, 12, 31], expected);
    let last = |date: Day, expected| Row(one([1900, 1, 1], date), [1900, 1, 1], expected);
    vec![
        asked([2000, 2, 29], Ok(1)),
        asked([2100, 2, 29], Err(16)),
        asked([1900, 2, 29], Err(16)),
        asked([2024, 2, 29], Ok(1)),
        asked([2024, 2, 30], Err(16)),
        asked([2026, 4, 30], Ok(1)),
        asked([2026, 4, 31], Err(16)),
        asked([2026, 5, 31], Ok(1)),
        asked([2026, 5, 32], Err(16)),
        asked([2026, 9, 31], Err(16)),
        asked([2026, 8, 31], Ok(1)),
        first([2000, 2, 29], Ok(1)),
        first([2100, 2, 29], Err(14)),
        first([1900, 2, 29], Err(14)),
        first([2026, 6, 31], Err(14)),
        first([2026, 7, 31], Ok(1)),
        first([2026, 0, 1], Err(14)),
        first([2026, 1, 0], Err(14)),
        first([1899, 12, 31], Err(14)),
        last([2196, 2, 29], Ok(1)),
        last([2100, 2, 29], Err(14)),
        last([2026, 11, 31], Err(14)),
        last([2026, 12, 31], Ok(1)),
        last([2026, 13, 1], Err(14)),
        last([2026, 12, 32], Err(14)),
        last([2200, 1, 1], Err(14)),
    ]
}

/// Seasons with both bytes, and dates of high numbers.
fn numbers() -> Vec<Row> {
    let season = |season: u16| Row(window(season, [2026, 7, 1], [2026, 7, 1]), [2026, 7, 1], Ok(season));
    let asked = |date: Day| Row(one([1900, 1, 1], [2199, 12, 31]), date, Err(16));
    vec![
        season(0),
        season(255),
        season(256),
        season(0x1e1d),
        season(65_535),
        asked([0, 0, 0]),
        asked([1900 + 65_536, 1, 1]),
        asked([2026, 12 + 256, 1]),
        asked([2026, 12, 31 + 256]),
        asked([2026 + (1 << 31), 12, 31]),
        asked([2026, 1 + (1 << 16), 1]),
        asked([2026, 1, 1 + (1 << 16)]),
        asked([u32::MAX, u32::MAX, u32::MAX]),
        asked([2026, u32::MAX, 1]),
        asked([2026, 1, u32::MAX]),
    ]
}

/// The two seasons with one byte changed, lengths, and a window too many.
fn unsound() -> Vec<Row> {
    let changed = |place: usize, value: u8| {
        let mut file = TWO_SEASONS.to_vec();
        file[place] = value;
        Row(file, [2026, 11, 15], Err(14))
    };
    let cut = |length: usize| Row(TWO_SEASONS.repeat(2)[..length].to_vec(), [2026, 11, 15], Err(14));
    let days = |number: u32, expected| {
        let day = |k: u32| one([1900 + k, 1, 1], [1900 + k, 1, 1]);
        Row((0..number).flat_map(day).collect(), [1900, 1, 1], expected)
    };
    vec![
        changed(10, 1),
        changed(11, 255),
        changed(22, 128),
        changed(23, 1),
        changed(7, 0xe9),
        changed(20, 0),
        cut(1),
        cut(11),
        cut(13),
        cut(23),
        days(64, Ok(1)),
        days(65, Err(14)),
        Row(one([2026, 7, 2], [2026, 7, 1]), [2026, 7, 1], Err(14)),
        Row(one([2026, 8, 1], [2026, 7, 31]), [2026, 7, 31], Err(14)),
    ]
}

/// A day that two windows share.
fn shared() -> Vec<Row> {
    let summer = || window(7, [2026, 6, 1], [2026, 8, 31]);
    let with = |other: Vec<u8>, expected| Row([summer(), other].concat(), [2026, 8, 31], expected);
    vec![
        with(TWO_SEASONS[12..].to_vec(), Err(15)),
        with(one([2026, 9, 1], [2026, 9, 1]), Ok(7)),
        with(one([2026, 8, 31], [2026, 9, 1]), Err(15)),
        with(one([2026, 5, 31], [2026, 6, 1]), Err(15)),
        with(window(7, [2026, 7, 1], [2026, 7, 1]), Err(15)),
        with(one([2000, 1, 1], [2050, 1, 1]), Err(15)),
        with(summer(), Err(15)),
    ]
}

/// Two or three refusals apply.
fn order() -> Vec<Row> {
    let twice = || TWO_SEASONS[..12].repeat(2);
    let unreal = [2026, 2, 30];
    vec![
        Row([twice(), vec![0]].concat(), unreal, Err(14)),
        Row([twice(), one([2000, 1, 1], [1999, 1, 1])].concat(), [2026, 11, 15], Err(14)),
        Row([one([1800, 1, 1], [2199, 1, 1]), TWO_SEASONS.to_vec()].concat(), unreal, Err(14)),
        Row(vec![0], unreal, Err(14)),
        Row(twice(), unreal, Err(15)),
        Row(twice(), [2030, 1, 1], Err(15)),
    ]
}
