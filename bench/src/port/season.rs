//! The season of a date, by the windows of a file.

use traymark::{Refusal, WINDOW_LENGTH};

/// How many windows a file may have.
const MOST: usize = 64;

/// A day from 1900 to 2199, as a number that is the smaller of two days' for the earlier one.
#[derive(Clone, Copy, Default, PartialEq, Eq, PartialOrd, Ord)]
struct Day(u32);

impl Day {
    /// The day of a real date.
    fn new(year: u32, month: u32, day: u32) -> Option<Day> {
        let days = match month {
            1 | 3 | 5 | 7 | 8 | 10 | 12 => 31,
            4 | 6 | 9 | 11 => 30,
            2 if is_leap(year) => 29,
            2 => 28,
            _ => 0,
        };
        let is_real = (1900..=2199).contains(&year) && (1..=days).contains(&day);
        is_real.then(|| Day((year * 16 + month) * 32 + day))
    }

    fn parse([high, low, month, day]: [u8; 4]) -> Option<Day> {
        Day::new(u16::from_be_bytes([high, low]).into(), month.into(), day.into())
    }
}

fn is_leap(year: u32) -> bool {
    year.is_multiple_of(4) && (!year.is_multiple_of(100) || year.is_multiple_of(400))
}

#[derive(Clone, Copy, Default)]
struct Window {
    season: u16,
    first: Day,
    last: Day,
}

impl Window {
    /// The window, if its bytes are sound.
    fn parse(bytes: &[u8]) -> Option<Window> {
        let &[s1, s0, f0, f1, f2, f3, l0, l1, l2, l3, 0, 0] = bytes else { return None };
        let season = u16::from_be_bytes([s1, s0]);
        let (first, last) = (Day::parse([f0, f1, f2, f3])?, Day::parse([l0, l1, l2, l3])?);
        (first <= last).then_some(Window { season, first, last })
    }

    fn has(&self, day: Day) -> bool {
        self.first <= day && day <= self.last
    }
}

/// Finds the season of a date, as `traymark::find_season`. Sorted by their first days, windows share no day exactly where each
/// begins after the one before it has ended.
pub fn find_season(file: &[u8], year: u32, month: u32, day: u32) -> Result<u16, Refusal> {
    if !file.len().is_multiple_of(WINDOW_LENGTH) || file.len() > MOST * WINDOW_LENGTH {
        return Err(Refusal::WindowFile);
    }
    let mut room = [Window::default(); MOST];
    let windows = &mut room[..file.len() / WINDOW_LENGTH];
    for (window, bytes) in windows.iter_mut().zip(file.chunks_exact(WINDOW_LENGTH)) {
        *window = Window::parse(bytes).ok_or(Refusal::WindowFile)?;
    }
    windows.sort_unstable_by_key(|window| window.first);
    if windows.windows(2).any(|pair| pair[1].first <= pair[0].last) {
        return Err(Refusal::SharedDay);
    }
    let day = Day::new(year, month, day).ok_or(Refusal::NoWindow)?;
    windows.iter().find(|window| window.has(day)).map(|window| window.season).ok_or(Refusal::NoWindow)
}
