//! The inputs: dates and window files with what they print, worked out by hand, and others with what the independent calendar
//! says.

use independent::{find_season, Date, Windows, DAYS, WINDOW};
use traymark_tests::program::Input;
use traymark_tests::random::Random;
use traymark_tests::windows::{all_days, any_file, day_by_day, days_about, TWO_SEASONS};

pub fn inputs() -> Vec<Input> {
    let mut inputs = documented();
    inputs.extend(dates());
    inputs.extend(seasons());
    inputs.extend(changed());
    inputs.extend(lengths());
    inputs.extend(pieces());
    inputs.extend(random());
    inputs
}

/// What is printed is known.
fn told(date: &str, bytes: &[u8], printed: &str) -> Input {
    let name = format!("{date} in {} bytes", bytes.len());
    Input { arguments: vec![date.into()], ..Input::new(name, bytes.to_vec(), format!("{printed}\n")) }
}

/// What is printed is as the independent calendar says.
fn input(date: Date, bytes: &[u8]) -> Input {
    let Date { year, month, day } = date;
    let printed = match find_season(bytes, date) {
        Ok(season) => season.to_string(),
        Err(number) => format!("REFUSED {number}"),
    };
    told(&format!("{year:04}-{month:02}-{day:02}"), bytes, &printed)
}

/// At the ends of the two windows, beside them, and of each refusal.
fn documented() -> Vec<Input> {
    vec![
        told("2026-11-15", &TWO_SEASONS, "30"),
        told("2026-07-01", &TWO_SEASONS, "30"),
        told("2027-06-30", &TWO_SEASONS, "30"),
        told("2027-07-01", &TWO_SEASONS, "REFUSED 16"),
        told("2026-06-30", &TWO_SEASONS, "29"),
        told("2025-12-31", &TWO_SEASONS, "29"),
        told("2026-01-01", &TWO_SEASONS, "29"),
        told("2025-07-01", &TWO_SEASONS, "29"),
        told("2025-06-30", &TWO_SEASONS, "REFUSED 16"),
        told("2026-02-30", &TWO_SEASONS, "REFUSED 16"),
        told("2026-11-15", &[], "REFUSED 16"),
        told("9999-99-99", &[], "REFUSED 16"),
        told("2026-11-15", &TWO_SEASONS[..23], "REFUSED 14"),
        told("2026-11-15", &TWO_SEASONS[..13], "REFUSED 14"),
        told("2026-11-15", &TWO_SEASONS[..12].repeat(2), "REFUSED 15"),
        told("2030-01-01", &TWO_SEASONS[..12].repeat(2), "REFUSED 15"),
        told("2026-02-30", &TWO_SEASONS[..12].repeat(2), "REFUSED 15"),
        told("9999-99-99", &TWO_SEASONS[..12].repeat(65), "REFUSED 14"),
        told("2026-02-30", &TWO_SEASONS[..23], "REFUSED 14"),
    ]
}

/// Dates in the form, of any digits, among all days.
fn dates() -> Vec<Input> {
    let all = all_days(7);
    let mut inputs = vec![
        told("1900-01-01", &all, "7"),
        told("2199-12-31", &all, "7"),
        told("2000-02-29", &all, "7"),
        told("2100-02-29", &all, "REFUSED 16"),
        told("1900-02-29", &all, "REFUSED 16"),
        told("1899-12-31", &all, "REFUSED 16"),
        told("2200-01-01", &all, "REFUSED 16"),
        told("0000-00-00", &all, "REFUSED 16"),
        told("9999-99-99", &all, "REFUSED 16"),
        told("2026-00-15", &all, "REFUSED 16"),
        told("2026-11-00", &all, "REFUSED 16"),
    ];
    for month in 0..=14 {
        inputs.extend([0, 1, 9, 10, 28, 29, 30, 31, 32, 40, 99].map(|day| input(Date::new(2026, month, day), &all)));
    }
    // each digit at each place of the year
    for digit in 0..10 {
        let years = [1900 + digit, 1900 + 10 * digit, 2000 + 100 * digit, 1_000 * digit];
        inputs.extend(years.map(|year| input(Date::new(year, 1, 1), &all)));
    }
    let random = &mut Random::new(1);
    for _ in 0..60 {
        let [year, month, day] = [9_999, 99, 99].map(|most| random.between(0, most));
        inputs.push(input(Date::new(year, month, day), &all));
        inputs.push(input(Date::of(random.below(DAYS)), &all));
    }
    inputs
}

/// Seasons of one digit to five.
fn seasons() -> Vec<Input> {
    let of = |season: u16| {
        let file = [&season.to_be_bytes(), &TWO_SEASONS[2..]].concat();
        told("2026-11-15", &file, &season.to_string())
    };
    let seasons = [0, 1, 9, 10, 99, 100, 255, 256, 999, 1_000, 9_999, 10_000, 30_000, 32_767, 32_768, 59_999, 65_535];
    seasons.into_iter().map(of).collect()
}

/// The two seasons with each byte changed to a few others.
fn changed() -> Vec<Input> {
    let mut inputs = Vec::new();
    for place in 0..TWO_SEASONS.len() {
        for value in [0, 1, 12, 255, TWO_SEASONS[place].saturating_sub(1), TWO_SEASONS[place] + 1] {
            let mut file = TWO_SEASONS;
            file[place] = value;
            inputs.push(input(Date::new(2026, 11, 15), &file));
        }
    }
    inputs
}

/// A day a window, so that lengths alone are at fault: around those of windows, of 64 of them, and far beyond.
fn lengths() -> Vec<Input> {
    let bytes = day_by_day(DAYS);
    let most = 64 * WINDOW;
    let far = [1_024, 4_096, 65_536, 3 * 65_536 + 24, 65_536 * WINDOW, 1 << 20, (1 << 20) / WINDOW * WINDOW];
    let lengths = (0..=3 * WINDOW).chain(most - WINDOW - 1..=most + 2 * WINDOW + 1).chain(far);
    lengths.map(|length| input(Date::of(0), &bytes[..length])).collect()
}

/// Files that come in pieces: byte by byte, in pieces of no window, and with more than 64 windows.
fn pieces() -> Vec<Input> {
    let mut inputs = Vec::new();
    let two = || TWO_SEASONS.to_vec();
    for (bytes, pieces) in [(two(), 2), (two(), 5), (two(), 24), (day_by_day(64), 100), (day_by_day(65), 100)] {
        for date in [Date::of(63), Date::new(2026, 11, 15), Date::new(2026, 2, 30)] {
            inputs.push(Input { pieces, ..input(date, &bytes) });
        }
    }
    inputs
}

/// Any files, sound or not, asked for a date about one of their windows, or for any.
fn random() -> Vec<Input> {
    let any = |seed: u64| {
        let random = &mut Random::new(seed);
        let file = any_file(random);
        let days = match Windows::parse(&file) {
            Ok(Windows(windows)) if !windows.is_empty() => days_about(random.pick(&windows), random),
            _ => vec![random.below(DAYS)],
        };
        Input { pieces: 1 + (seed % 16 / 15) as usize * 2, ..input(Date::of(random.pick(&days)), &file) }
    };
    (0..1_000).map(any).collect()
}
