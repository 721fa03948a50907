//! Window files by the days themselves: each day of the calendar belongs to no window or to one.

use crate::calendar::{Date, DAYS};

/// The length of a window.
pub const WINDOW: usize = 12;

/// How many windows a file may have.
pub const MOST_WINDOWS: usize = 64;

/// A season, and the numbers of its first day and its last.
#[derive(Clone, Copy, Debug, PartialEq, Eq)]
pub struct Window {
    pub season: u16,
    pub first: usize,
    pub last: usize,
}

impl Window {
    /// The window, if its 12 bytes are sound.
    fn parse(bytes: &[u8]) -> Option<Window> {
        let two = |place: usize| u16::from_be_bytes([bytes[place], bytes[place + 1]]);
        let date = |place: usize| {
            let [month, day] = [bytes[place + 2], bytes[place + 3]].map(u32::from);
            Date::new(two(place).into(), month, day).number()
        };
        let window = Window { season: two(0), first: date(2)?, last: date(6)? };
        (window.first <= window.last && two(10) == 0).then_some(window)
    }

    pub fn bytes(&self) -> [u8; WINDOW] {
        window_bytes(self.season, Date::of(self.first), Date::of(self.last))
    }

    pub fn has(&self, day: usize) -> bool {
        (self.first..=self.last).contains(&day)
    }
}

/// The bytes of a window with these dates, real or not, of which the low bytes are taken.
pub fn window_bytes(season: u16, first: Date, last: Date) -> [u8; WINDOW] {
    let date = |Date { year, month, day }: Date| [(year >> 8) as u8, year as u8, month as u8, day as u8];
    let bytes = [&season.to_be_bytes()[..], &date(first), &date(last), &[0, 0]].concat();
    bytes.try_into().expect("12 bytes")
}

/// The windows of a file of which no two share a day.
#[derive(Clone, Debug)]
pub struct Windows(pub Vec<Window>);

impl Windows {
    /// The windows, or refusal 14, or 15.
    pub fn parse(file: &[u8]) -> Result<Windows, u32> {
        if !file.len().is_multiple_of(WINDOW) || file.len() > MOST_WINDOWS * WINDOW {
            return Err(14);
        }
        let windows: Vec<Window> = file.chunks(WINDOW).map(Window::parse).collect::<Option<_>>().ok_or(14u32)?;
        let mut taken = vec![false; DAYS];
        for window in &windows {
            let days = &mut taken[window.first..=window.last];
            if days.contains(&true) {
                return Err(15);
            }
            days.fill(true);
        }
        Ok(Windows(windows))
    }

    /// The season of a date, or refusal 16.
    pub fn season(&self, date: Date) -> Result<u16, u32> {
        let day = date.number().ok_or(16u32)?;
        self.0.iter().find(|window| window.has(day)).map(|window| window.season).ok_or(16)
    }
}

pub fn find_season(file: &[u8], date: Date) -> Result<u16, u32> {
    Windows::parse(file)?.season(date)
}

#[cfg(test)]
mod tests {
    use super::*;

    /// Season 29 to 30 June 2026, season 30 from 1 July on, for a year each; the later one first.
    const FILE: [u8; 24] = [0, 30, 7, 234, 7, 1, 7, 235, 6, 30, 0, 0, 0, 29, 7, 233, 7, 1, 7, 234, 6, 30, 0, 0];

    fn season(year: u32, month: u32, day: u32) -> Result<u16, u32> {
        find_season(&FILE, Date::new(year, month, day))
    }

    /// What a date in the first window gets where this byte is changed.
    fn changed(place: usize, value: u8) -> Result<u16, u32> {
        let mut file = FILE;
        file[place] = value;
        find_season(&file, Date::new(2026, 11, 15))
    }

    #[test]
    fn both_end_days_belong_to_a_window() {
        assert_eq!([season(2025, 6, 30), season(2025, 7, 1)], [Err(16), Ok(29)]);
        assert_eq!([season(2026, 6, 30), season(2026, 7, 1)], [Ok(29), Ok(30)]);
        assert_eq!([season(2027, 6, 30), season(2027, 7, 1)], [Ok(30), Err(16)]);
        assert_eq!([season(2026, 12, 31), season(2027, 1, 1)], [Ok(30), Ok(30)]);
        assert_eq!([season(2026, 2, 28), season(2026, 2, 29)], [Ok(29), Err(16)]);
    }

    #[test]
    fn windows_share_a_day_or_do_not() {
        assert_eq!(changed(21, 29), Ok(30));
        assert_eq!([changed(20, 7), changed(18, 8), changed(19, 235)], [Err(15), Err(14), Err(15)]);
        assert_eq!(find_season(&FILE[..12].repeat(2), Date::new(0, 0, 0)), Err(15));
    }

    #[test]
    fn unsound_files_get_14() {
        for (place, value) in [(2, 6), (4, 13), (5, 0), (8, 0), (9, 31), (7, 233), (10, 1), (11, 1), (22, 9), (23, 255)]
        {
            assert_eq!(changed(place, value), Err(14), "byte {place}");
        }
        assert_eq!(find_season(&FILE[..23], Date::new(2026, 11, 15)), Err(14));
        let days = |days: usize| -> Vec<u8> {
            (0..days).flat_map(|k| Window { season: 1, first: k, last: k }.bytes()).collect()
        };
        let dates = [63, 64].map(Date::of);
        assert_eq!(dates.map(|date| find_season(&days(64), date)), [Ok(1), Err(16)]);
        assert_eq!(dates.map(|date| find_season(&days(65), date)), [Err(14); 2]);
        assert_eq!(find_season(&[], Date::new(2026, 11, 15)), Err(16));
    }

    #[test]
    fn a_window_is_its_bytes_taken_apart() {
        let window = Window { season: 30, first: 46_202, last: 46_566 };
        assert_eq!(window.bytes(), FILE[..12]);
        assert_eq!(Window::parse(&FILE[..12]), Some(window));
    }
}
