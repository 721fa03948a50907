//! Random window files, and dates to ask for.

use crate::random::Random;
use independent::windows::MOST_WINDOWS;
use independent::{Date, Window, DAYS, WINDOW};
use std::collections::BTreeSet;

/// Season 30 from 1 July 2026 to 30 June 2027, then season 29 in the year before.
pub const TWO_SEASONS: [u8; 2 * WINDOW] = [
    0x00, 0x1e, 0x07, 0xea, 0x07, 0x01, 0x07, 0xeb, 0x06, 0x1e, 0x00, 0x00, // 30
    0x00, 0x1d, 0x07, 0xe9, 0x07, 0x01, 0x07, 0xea, 0x06, 0x1e, 0x00, 0x00, // 29
];

/// All days in one window.
pub fn all_days(season: u16) -> [u8; WINDOW] {
    Window { season, first: 0, last: DAYS - 1 }.bytes()
}

/// A window of season 300 for each of the first days.
pub fn day_by_day(days: usize) -> Vec<u8> {
    (0..days).flat_map(|day| Window { season: 300, first: day, last: day }.bytes()).collect()
}

/// So many windows that share no day, in any order: within few days, within some years or within all, apart or touching, many
/// of one day, and at times no day without a window.
pub fn apart(number: usize, random: &mut Random) -> Vec<Window> {
    let few = number + random.below(4 * number + 1);
    let some = (number + 1) * random.between(30, 800) as usize;
    let days = random.pick(&[few, some, some, DAYS]).min(DAYS);
    let from = random.below(DAYS - days + 1);
    let mut firsts = BTreeSet::new();
    while firsts.len() < number {
        firsts.insert(from + random.below(days));
    }
    let gapless = random.one_in(8);
    if gapless && number > 0 {
        firsts.pop_first();
        firsts.insert(0);
    }
    let ends = firsts.iter().skip(1).copied().chain([if gapless { DAYS } else { from + days }]);
    let mut windows: Vec<Window> =
        firsts.iter().zip(ends).map(|(&first, end)| window(first, end, gapless, random)).collect();
    random.shuffle(&mut windows);
    windows
}

/// A window from the first day on that ends before this day, with none between if it touches it.
fn window(first: usize, end: usize, touching: bool, random: &mut Random) -> Window {
    let any = first + random.below(end - first);
    let last = if touching { end - 1 } else { random.pick(&[first, end - 1, end - 1, any]) };
    Window { season: season(random), first, last }
}

/// Often one that other windows have too, or that has a byte of theirs.
fn season(random: &mut Random) -> u16 {
    let any = random.number() as u16;
    random.pick(&[0, 1, 256, 257, 30, 65_535, any, any])
}

/// The windows, one after another.
pub fn file(windows: &[Window]) -> Vec<u8> {
    windows.iter().flat_map(Window::bytes).collect()
}

/// A file of 0 to 70 windows, most of them sound, with 1 and 64 often; often with two windows that share a day, and at times with
/// a byte that is any other or a length that no windows have.
pub fn any_file(random: &mut Random) -> Vec<u8> {
    let any = random.below(71);
    let number = random.pick(&[0, 1, 2, 3, MOST_WINDOWS, MOST_WINDOWS + 1, any, any, any, any, any, any]);
    let mut windows = apart(number, random);
    if number > 1 && random.one_in(3) {
        let [one, other] = two(number, random);
        windows[other] = sharing(windows[one], random);
    }
    let mut file = file(&windows);
    if !file.is_empty() && random.one_in(8) {
        let place = random.below(file.len());
        file[place] = random.byte();
    }
    if random.one_in(16) {
        let more = random.between(1, 11) as usize;
        file.extend(random.bytes(more));
    }
    file
}

/// Two different places.
fn two(number: usize, random: &mut Random) -> [usize; 2] {
    let one = random.below(number);
    [one, (one + 1 + random.below(number - 1)) % number]
}

/// A window that shares a day with this one: it alone, within it, around it, or over either of its ends, at times by one day.
pub fn sharing(window: Window, random: &mut Random) -> Window {
    let Window { season: own, first, last } = window;
    let within = first + random.below(last - first + 1);
    let earlier = random.below(first + 1);
    let later = last + random.below(DAYS - last);
    let any = season(random);
    let season = random.pick(&[own, own, any]);
    let (first, last) = random.pick(&[
        (first, last),
        (within, within),
        (within, last),
        (first, within),
        (earlier, later),
        (earlier, first),
        (last, later),
        (earlier, within),
        (within, later),
    ]);
    Window { season, first, last }
}

/// The first and the last day of a window, the days beside them, one within it, and any day, as far as there are such days.
pub fn days_about(window: Window, random: &mut Random) -> Vec<usize> {
    let Window { first, last, .. } = window;
    let within = first + random.below(last - first + 1);
    let days = [first.checked_sub(1), Some(first), Some(within), Some(last), Some(last + 1), Some(random.below(DAYS))];
    days.into_iter().flatten().filter(|&day| day < DAYS).collect()
}

/// A date of 1900 to 2199 that is nearly one of these days: the day after a month's last, month 0 or 13, day 0; or years around;
/// or one of far higher numbers, of which some bits are a real date.
pub fn unreal(random: &mut Random) -> Date {
    let Date { year, month, day } = Date::of(random.below(DAYS));
    let high = 1 << random.between(8, 31);
    let common = random.pick(&[1900, 1999, 2026, 2100, 2199]);
    let short = random.pick(&[4, 6, 9, 11]);
    let around = random.pick(&[0, 1899, 2200, 65_535]);
    random.pick(&[
        Date::new(common, 2, 29),
        Date::new(year, 2, 30),
        Date::new(year, short, 31),
        Date::new(year, month, 32),
        Date::new(year, month, 0),
        Date::new(year, 0, day),
        Date::new(year, 13, day),
        Date::new(around, month, day),
        Date::new(2_199 + high, month, day),
        Date::new(year, month + high, day),
        Date::new(year, month, day + high),
    ])
}
