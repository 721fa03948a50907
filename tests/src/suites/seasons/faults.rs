//! Each refusal alone and with the others: 14 comes before 15, and 15 before 16.

use super::File;
use independent::windows::window_bytes;
use independent::{Date, Window, Windows, DAYS, WINDOW};
use std::iter::once;
use traymark_tests::counts::Counts;
use traymark_tests::random::Random;
use traymark_tests::windows::{apart, sharing, unreal};

/// Sound windows, no two of which share a day, and a day of one of them.
struct Asked {
    windows: Vec<[u8; WINDOW]>,
    /// bytes behind the windows
    rest: Vec<u8>,
    /// windows that would make them more than 64
    others: Vec<[u8; WINDOW]>,
    date: Date,
}

/// A way to break it. Of the windows the first alone is made unsound, and the second and the third share a day, so that no fault
/// mends another.
struct Fault {
    name: &'static str,
    number: u32,
    apply: fn(&mut Asked, &mut Random),
}

/// Every choice of at most one fault of each number.
pub fn case(_: u64, random: &mut Random, counts: &mut Counts) -> Result<(), String> {
    let of = |number: u32| once(None).chain(FAULTS.iter().filter(move |fault| fault.number == number).map(Some));
    for unsound in of(14) {
        for shared in of(15) {
            for missing in of(16) {
                let faults: Vec<&Fault> = [shared, unsound, missing].into_iter().flatten().collect();
                expect(&faults, random, counts)?;
            }
        }
    }
    Ok(())
}

/// The first number of the faults, and the independent calendar agrees.
fn expect(faults: &[&Fault], random: &mut Random, counts: &mut Counts) -> Result<(), String> {
    let mut asked = sound(random);
    faults.iter().for_each(|fault| (fault.apply)(&mut asked, random));
    random.shuffle(&mut asked.windows);
    let Asked { windows, rest, date, .. } = asked;
    let bytes = [windows.as_flattened(), &rest].concat();
    let windows = Windows::parse(&bytes);
    let number = windows.as_ref().map_or_else(|&number| number, |windows| windows.season(date).err().unwrap_or(0));
    let names: Vec<_> = faults.iter().map(|fault| fault.name).collect();
    if number != faults.iter().map(|fault| fault.number).min().unwrap_or(0) {
        return Err(format!("{number} with {names:?}, by the independent calendar; {date:?}, file {bytes:?}"));
    }
    File::new(&bytes, random).hold(&windows, date, random, counts).map_err(|what| format!("{names:?}: {what}"))
}

/// 3 to 64 windows, and others; some day has none.
fn sound(random: &mut Random) -> Asked {
    let mut windows = apart(66, random);
    if windows.iter().map(|window| window.last + 1 - window.first).sum::<usize>() == DAYS {
        windows.pop();
    }
    let any = random.between(3, 64) as usize;
    let number = random.pick(&[3, 4, any, 64]);
    let others = windows.split_off(number);
    let Window { first, last, .. } = random.pick(&windows);
    let date = Date::of(random.pick(&[first, last]));
    let [windows, others] = [windows, others].map(|windows| windows.iter().map(Window::bytes).collect());
    Asked { windows, rest: Vec::new(), others, date }
}

fn parsed(window: &[u8; WINDOW]) -> Window {
    Windows::parse(window).expect("it is sound").0[0]
}

/// An unreal date that fits into four bytes, at this place of the first window.
fn unreal_at(place: usize, asked: &mut Asked, random: &mut Random) {
    let Date { year, month, day } = loop {
        let Date { year, month, day } = unreal(random);
        let low = Date::new(year & 0xffff, month & 0xff, day & 0xff);
        if low.number().is_none() {
            break low;
        }
    };
    let bytes = [(year >> 8) as u8, year as u8, month as u8, day as u8];
    asked.windows[0][place..place + 4].copy_from_slice(&bytes);
}

const FAULTS: [Fault; 14] = [
    Fault {
        name: "a length of no windows",
        number: 14,
        apply: |asked, random| {
            let more = random.between(1, 11) as usize;
            asked.rest = random.bytes(more);
        },
    },
    Fault {
        name: "more than 64 windows",
        number: 14,
        apply: |asked, random| {
            let least = 65 - asked.windows.len();
            asked.others.truncate(least.max(random.below(66)));
            asked.windows.append(&mut asked.others);
        },
    },
    Fault { name: "an unreal first date", number: 14, apply: |asked, random| unreal_at(2, asked, random) },
    Fault { name: "an unreal last date", number: 14, apply: |asked, random| unreal_at(6, asked, random) },
    Fault {
        name: "a last date before its first",
        number: 14,
        apply: |asked, random| {
            let Window { first, last, season } = parsed(&asked.windows[0]);
            let last = last.max(1);
            let before = random.below(last);
            let before = random.pick(&[last - 1, first.min(last - 1), before]);
            asked.windows[0] = window_bytes(season, Date::of(last), Date::of(before));
        },
    },
    Fault { name: "byte 10", number: 14, apply: |asked, random| asked.windows[0][10] = random.between(1, 255) as u8 },
    Fault { name: "byte 11", number: 14, apply: |asked, random| asked.windows[0][11] = random.between(1, 255) as u8 },
    Fault { name: "a window twice", number: 15, apply: |asked, _| asked.windows[2] = asked.windows[1] },
    Fault {
        name: "the last day is another's first",
        number: 15,
        apply: |asked, random| {
            let Window { last, .. } = parsed(&asked.windows[1]);
            let later = last + random.below(DAYS - last);
            let season = parsed(&asked.windows[2]).season;
            asked.windows[2] = Window { season, first: last, last: later }.bytes();
        },
    },
    Fault {
        name: "windows that share a day",
        number: 15,
        apply: |asked, random| {
            asked.windows[2] = sharing(parsed(&asked.windows[1]), random).bytes();
        },
    },
    Fault {
        name: "windows of one season that share a day",
        number: 15,
        apply: |asked, random| {
            let window = parsed(&asked.windows[1]);
            asked.windows[2] = Window { season: window.season, ..sharing(window, random) }.bytes();
        },
    },
    Fault { name: "an unreal date", number: 16, apply: |asked, random| asked.date = unreal(random) },
    Fault { name: "a date in a window, and twelve months more", number: 16, apply: |asked, _| asked.date.month += 12 },
    Fault {
        name: "a day without a window",
        number: 16,
        apply: |asked, random| {
            let sound = |window: &[u8; WINDOW]| Windows::parse(window).ok().map(|windows| windows.0[0]);
            let windows: Vec<Window> = asked.windows.iter().filter_map(sound).collect();
            let beside = windows.iter().flat_map(|window| [window.first.wrapping_sub(1), window.last + 1]);
            let free = |&day: &usize| day < DAYS && !windows.iter().any(|window| window.has(day));
            let days: Vec<usize> = beside.filter(free).collect();
            // there is none where windows were made to share days
            asked.date = Date::of(if days.is_empty() { 0 } else { random.pick(&days) });
        },
    },
];
