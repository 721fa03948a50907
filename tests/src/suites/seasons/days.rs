//! Every day of 1900 to 2199, every date around them that is a day or is none, dates of far higher numbers, and every season.

use super::File;
use independent::windows::window_bytes;
use independent::{Date, Window, DAYS};
use traymark_tests::counts::Counts;
use traymark_tests::random::Random;
use traymark_tests::windows::{all_days, file};

/// The seeds are the years, from 1900 on.
pub const YEARS: u64 = 300;

/// Each day of the year as a window of its own, between windows that touch it, and shared by two.
pub fn year(seed: u64, random: &mut Random, counts: &mut Counts) -> Result<(), String> {
    let year = 1900 + seed as u32;
    let first = Date::new(year, 1, 1).number().ok_or("no New Year")?;
    for day in (first..DAYS).take_while(|&day| Date::of(day).year == year) {
        let (before, after) = (day.checked_sub(1), Some(day + 1).filter(|&after| after < DAYS));
        let mut windows = vec![Window { season: 2, first: day, last: day }];
        let alone = File::new(&file(&windows), random);
        alone.expect(Date::of(day), Ok(2), random, counts)?;
        for beside in [before, after].into_iter().flatten() {
            alone.expect(Date::of(beside), Err(16), random, counts)?;
        }
        let near = random.below(400);
        windows.extend(before.map(|last| Window { season: 1, first: last.saturating_sub(near), last }));
        windows.extend(after.map(|first| Window { season: 3, first, last: (first + near).min(DAYS - 1) }));
        random.shuffle(&mut windows);
        let touched = File::new(&file(&windows), random);
        for Window { season, first, last } in &windows {
            touched.expect(Date::of(*first), Ok(*season), random, counts)?;
            touched.expect(Date::of(*last), Ok(*season), random, counts)?;
        }
        let shared = [(day.saturating_sub(near), day), (day, (day + near).min(DAYS - 1))];
        let shared = shared.map(|(first, last)| Window { season: random.pick(&[1, 2]), first, last });
        File::new(&file(&shared), random).expect(Date::of(day), Err(15), random, counts)?;
    }
    Ok(())
}

/// The seeds are the years, from 1890 on.
pub const YEARS_AROUND: u64 = 321;

/// Each month to 15 with each day to 40: asked for, and as the first date of a window, its last, and both.
pub fn dates(seed: u64, random: &mut Random, counts: &mut Counts) -> Result<(), String> {
    let (start, end) = (Date::of(0), Date::of(DAYS - 1));
    let all = File::new(&all_days(7), random);
    for month in 0..=15 {
        for day in 0..=40 {
            let date = Date::new(1890 + seed as u32, month, day);
            let real = date.number().is_some();
            let in_file = if real { Ok(7) } else { Err(14) };
            all.expect(date, if real { Ok(7) } else { Err(16) }, random, counts)?;
            for (first, last) in [(date, date), (date, end), (start, date)] {
                let file = File::new(&window_bytes(7, first, last), random);
                file.expect(if real { date } else { start }, in_file, random, counts)?;
            }
        }
    }
    Ok(())
}

/// Real dates with one number or two that are higher by a bit which no date has, or far below 0, from where they wrap.
pub fn far(_: u64, random: &mut Random, counts: &mut Counts) -> Result<(), String> {
    let all = File::new(&all_days(7), random);
    let Date { year, month, day } = Date::of(random.below(DAYS));
    all.expect(Date::new(year, month, day), Ok(7), random, counts)?;
    let numbers = [year, month, day];
    for part in 0..3 {
        let bits = if part == 0 { 12..32 } else { 5..32 };
        let more = bits.map(|bit| 1 << bit).chain([3 << 30, u32::MAX << 16, u32::MAX - 9_999]);
        for more in more {
            let mut one = numbers;
            one[part] = one[part].wrapping_add(more);
            let mut two = one;
            two[(part + 1) % 3] |= 1 << random.between(16, 31);
            for [year, month, day] in [one, two] {
                all.expect(Date::new(year, month, day), Err(16), random, counts)?;
            }
        }
    }
    Ok(())
}

/// Each season with this high byte, in a window beside that of another season.
pub fn every_season(seed: u64, random: &mut Random, counts: &mut Counts) -> Result<(), String> {
    for low in 0..=255 {
        let season = u16::from_be_bytes([seed as u8, low]);
        let day = random.below(DAYS - 1);
        let mut windows =
            [(season, day), (!season, day + 1)].map(|(season, day)| Window { season, first: day, last: day });
        random.shuffle(&mut windows);
        let file = File::new(&file(&windows), random);
        file.expect(Date::of(day), Ok(season), random, counts)?;
        file.expect(Date::of(day + 1), Ok(!season), random, counts)?;
    }
    Ok(())
}
