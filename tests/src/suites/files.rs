//! Finding plans in files: seasons that are there never, once or often, lengths that are no multiple of 40, seasons
//! that stand only across or inside plans; long files with plans of the season at known places.

use independent::{check_plan, find_plan, PLAN};
use traymark_tests::counts::Counts;
use traymark_tests::library;
use traymark_tests::plans::{self, plan, shapes};
use traymark_tests::random::Random;

pub fn case(_: u64, random: &mut Random, counts: &mut Counts) -> Result<(), String> {
    let file = file(random);
    let season = season(&file, random);
    find(&file, season, random, counts).map_err(|what| format!("{what} in {file:?}"))?;
    Ok(())
}

/// The number and the offset, which are those of a plain search.
fn find(file: &[u8], season: u16, random: &mut Random, counts: &mut Counts) -> Result<(u32, usize), String> {
    let found = library::find(file, season, random).map_err(|what| format!("find {what}; season {season}"))?;
    counts.number(found.0);
    let expected = find_plan(file, season).map_or_else(|number| (number, 0), |offset| (0, offset));
    if found != expected {
        return Err(format!("find gave {found:?}, not {expected:?}; season {season}"));
    }
    if let (0, offset) = found {
        let (plan, behind) = file[offset..].split_at(PLAN);
        if let Ok(next) = find_plan(behind, season) {
            let next = &behind[next..next + PLAN];
            counts.first_of_several += 1;
            counts.unsound_first += u64::from(check_plan(plan) != 0 && check_plan(next) == 0);
        }
    }
    Ok(found)
}

/// Mostly few different bytes, so that seasons repeat and stand at other places too; else any bytes.
fn file(random: &mut Random) -> Vec<u8> {
    let length = random.below(12) * PLAN + random.pick(&[0, 0, 0, 0, 1, 20, 24, 39]);
    let few = random.pick(&[&[0, 12][..], &[0, 1, 2, 3], &[7, 255, 30], &[]]);
    match few {
        [] => random.bytes(length),
        few => (0..length).map(|_| random.pick(few)).collect(),
    }
}

/// One of the file's own, one with its bytes the other way round, one that stands elsewhere in the file, or any.
fn season(file: &[u8], random: &mut Random) -> u16 {
    let two = |place: usize| u16::from_be_bytes([file[place], file[place + 1]]);
    match random.below(4) {
        0 if file.len() >= PLAN => two(random.below(file.len() / PLAN) * PLAN),
        1 if file.len() >= PLAN => two(random.below(file.len() / PLAN) * PLAN).swap_bytes(),
        2 if file.len() >= 2 => two(random.below(file.len() - 1)),
        _ => plans::season(random),
    }
}

/// How many plans a file has; the most are more than 16 bits count.
const PLANS: [usize; 6] = [1, 2, 3, 50, 1_000, 70_000];

/// Each length, the first plan of the season at the front, at the end or anywhere, sound or not, three times.
pub const PLACED: u64 = 6 * 3 * 2 * 3;

/// The first plan of the season is unsound and those behind it are sound, or the other way round.
pub fn placed(seed: u64, random: &mut Random, counts: &mut Counts) -> Result<(), String> {
    let seed = seed as usize;
    let plans = PLANS[seed % 6];
    let first = [0, plans - 1, random.below(plans)][seed / 6 % 3];
    let sound = (seed / 18).is_multiple_of(2);
    let season = plans::season(random);
    let made = |season: u16, sound: bool, random: &mut Random| {
        let mut bytes = plan(random.pick(shapes()), random).bytes();
        bytes[..2].copy_from_slice(&season.to_be_bytes());
        if !sound {
            let (place, byte) = random.pick(&[(2, 9), (3, 0), (4, 17), (5, 16), (39, 1)]);
            bytes[place] = byte;
        }
        bytes
    };
    let file: Vec<u8> = (0..plans)
        .flat_map(|k| match k == first || k > first && random.one_in(3) {
            true => made(season, (k == first) == sound, random),
            false => made(other(season, random), random.one_in(2), random),
        })
        .collect();
    let offset = first * PLAN;
    if (check_plan(&file[offset..offset + PLAN]) == 0) != sound {
        return Err(format!("plan {first} is not as it was made"));
    }
    let tries = [
        (&file[..], (0, offset)),
        (&file[offset..], (0, 0)),
        (&file[..offset + PLAN], (0, offset)),
        (&file[..offset], (12, 0)),
        (&file[..file.len() - 1], (11, 0)),
        (&file[1..], (11, 0)),
    ];
    for (file, expected) in tries {
        let told = |what| format!("{what}; plan {first} of {plans}, {} bytes", file.len());
        let found = find(file, season, random, counts).map_err(told)?;
        if found != expected {
            return Err(told(format!("found {found:?}, not {expected:?}; season {season}")));
        }
    }
    Ok(())
}

/// Another season, often one that differs in one byte or in the order of its bytes.
fn other(season: u16, random: &mut Random) -> u16 {
    let any = random.number() as u16;
    let other = random.pick(&[season ^ 1, season ^ 0x100, season.swap_bytes(), any]);
    match other == season {
        true => !season,
        false => other,
    }
}
