//! Random files, every change of one byte, and every length to 800 and some far beyond.

use super::File;
use independent::{Date, Window, Windows, DAYS, WINDOW};
use traymark_tests::counts::Counts;
use traymark_tests::random::Random;
use traymark_tests::windows::{any_file, apart, day_by_day, days_about, file, unreal};

/// Any file, asked for days at and beside the ends of its windows, for any days, and for dates that are none.
pub fn case(_: u64, random: &mut Random, counts: &mut Counts) -> Result<(), String> {
    let bytes = any_file(random);
    let (file, windows) = (File::new(&bytes, random), Windows::parse(&bytes));
    counts.file(&windows);
    let mut dates = vec![unreal(random), Date::of(random.below(DAYS))];
    if let Ok(Windows(windows)) = &windows {
        for _ in 0..windows.len().min(4) {
            let days = days_about(random.pick(windows), random);
            dates.extend(days.into_iter().map(Date::of));
        }
    }
    dates.into_iter().try_for_each(|date| file.hold(&windows, date, random, counts))
}

/// The seeds are the places in a file of one window, and then in one of 64.
pub const PLACES: u64 = (65 * WINDOW) as u64;

/// Each other value at one place of a file, asked for the end days of the window that it is in, and in the long file for one of
/// them.
pub fn bytes(seed: u64, random: &mut Random, counts: &mut Counts) -> Result<(), String> {
    let place = seed as usize;
    let (number, place) = if place < WINDOW { (1, place) } else { (64, place - WINDOW) };
    let windows = some_years(number);
    let sound = file(&windows);
    let Window { first, last, .. } = windows[place / WINDOW];
    for value in (0..=255).filter(|&value| value != sound[place]) {
        let mut changed = sound.clone();
        changed[place] = value;
        let (file, windows) = (File::new(&changed, random), Windows::parse(&changed));
        let days = if number == 1 { vec![first, last] } else { vec![random.pick(&[first, last])] };
        days.into_iter().try_for_each(|day| file.hold(&windows, Date::of(day), random, counts))?;
    }
    Ok(())
}

/// Windows of 200 days, with 1 to 199 days between them, in no order; the same in every run.
fn some_years(number: usize) -> Vec<Window> {
    let random = &mut Random::new(number as u64);
    let year = |k: usize| {
        let first = 40_000 + 300 * k + random.below(100);
        Window { season: first as u16, first, last: first + 199 }
    };
    let mut windows: Vec<Window> = (0..number).map(year).collect();
    random.shuffle(&mut windows);
    windows
}

/// Lengths beyond 800: what 8 or 16 bits of them, or of the number of windows, would take for a short file, and 1 MiB.
const LONG: [usize; 12] = [
    256 * WINDOW,
    257 * WINDOW,
    (256 + 64) * WINDOW,
    65_536,
    65_536 * WINDOW,
    65_537 * WINDOW,
    65_538 * WINDOW + 1,
    3 * 65_536,
    3 * 65_536 + 2 * WINDOW,
    1 << 20,
    (1 << 20) / WINDOW * WINDOW,
    DAYS * WINDOW,
];
pub const LENGTHS: u64 = 801 + LONG.len() as u64;

/// So many bytes of sound windows of which no two share a day, of any bytes, and of zeros.
pub fn lengths(seed: u64, random: &mut Random, counts: &mut Counts) -> Result<(), String> {
    let windows = apart(800 / WINDOW + 1, random);
    let (length, sound, day, season) = match (seed as usize).checked_sub(801) {
        None => (seed as usize, file(&windows), windows[0].first, windows[0].season),
        Some(k) => (LONG[k], day_by_day(DAYS), 0, 300),
    };
    let expected = match length {
        0 => Err(16),
        _ if length.is_multiple_of(WINDOW) && length <= 64 * WINDOW => Ok(season),
        _ => Err(14),
    };
    File::new(&sound[..length], random).expect(Date::of(day), expected, random, counts)?;
    for bytes in [random.bytes(length), vec![0; length]] {
        File::new(&bytes, random).hold(&Windows::parse(&bytes), Date::of(day), random, counts)?;
    }
    Ok(())
}
