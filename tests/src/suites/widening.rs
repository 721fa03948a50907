//! Widening plans of the old form: numbers of them and lengths around the bounds, and each byte, with what checking says of
//! the plan that comes out.

use independent::plan::is_prime;
use independent::{widen_plans, OLD_PLAN, PLAN};
use traymark_tests::counts::Counts;
use traymark_tests::plans::{old, squares};
use traymark_tests::random::Random;
use traymark_tests::{library, plans};

const NUMBERS: [usize; 12] = [0, 1, 2, 3, 7, 50, 999, 1_000, 1_001, 1_002, 2_000, 3_000];

/// Each number of plans ten times.
pub const CASES: u64 = 12 * 10;

/// Plans of any bytes, with rooms that are right or wrong, and lengths that are no plans'.
pub fn numbers(seed: u64, random: &mut Random, counts: &mut Counts) -> Result<(), String> {
    let plans = NUMBERS[seed as usize % NUMBERS.len()];
    let room = plans * PLAN;
    let wrong_rooms =
        [0, PLAN, room.saturating_sub(1), room + 1, room + PLAN, room.saturating_sub(PLAN), plans * OLD_PLAN];
    let old = random.bytes(plans * OLD_PLAN);
    for room in [&[room][..], &wrong_rooms].concat() {
        widen(&old, room, random, counts)?;
    }
    for more in [1, 12, 23] {
        let longer = [old.clone(), random.bytes(more)].concat();
        let shorter = &old[..old.len().saturating_sub(more)];
        for old in [&longer[..], shorter] {
            widen(old, room, random, counts)?;
            widen(old, old.len() / OLD_PLAN * PLAN, random, counts)?;
        }
    }
    Ok(())
}

/// How many plans are changed byte by byte.
pub const PLANS: u64 = 20;

/// A sound plan stays sound. With any byte changed to any other, what comes out gets the number that the old check gave
/// but for the last three bytes, which are dropped.
pub fn bytes(seed: u64, random: &mut Random, counts: &mut Counts) -> Result<(), String> {
    let (p, n, _, d) = squares()[seed as usize * squares().len() / PLANS as usize];
    let sound = old(&plans::square(p, n, d, random));
    checked(&sound, 0, random, counts)?;
    for place in 0..OLD_PLAN {
        for value in 0..=255 {
            let mut changed = sound.clone();
            changed[place] = value;
            let kept = [&changed[..21], &[0; 3]].concat();
            checked(&changed, old_number(&kept), random, counts)?;
        }
    }
    Ok(())
}

/// Widens a plan; checking what comes out gives the number.
fn checked(old: &[u8], number: u32, random: &mut Random, counts: &mut Counts) -> Result<(), String> {
    let wide = widen(old, PLAN, random, counts)?;
    let checked = traymark::check_plan(&wide).map_or_else(|refusal| refusal.number(), |()| 0);
    counts.number(checked);
    if checked != number {
        return Err(format!("{old:?} became {wide:?}, which gets {checked} and not {number}"));
    }
    Ok(())
}

/// What the buffer holds afterwards, as the independent widening says.
fn widen(old: &[u8], room: usize, random: &mut Random, counts: &mut Counts) -> Result<Vec<u8>, String> {
    let mut expected = random.bytes(room);
    let told = |what| format!("widening {} bytes into {room}: {what}; {old:?}", old.len());
    let (number, wide) = library::widen(old, &expected, random).map_err(told)?;
    let expected_number = widen_plans(old, &mut expected);
    if number != expected_number {
        return Err(told(format!("gave {number}, not {expected_number}")));
    }
    if wide != expected {
        return Err(told(format!("left {wide:?}, not {expected:?}")));
    }
    counts.number(number);
    if number == 0 {
        counts.widened += (old.len() / OLD_PLAN) as u64;
    }
    Ok(wide)
}

/// The check of the old form: the lowest of refusals 1 to 5 that applied to its 24 bytes.
fn old_number(plan: &[u8]) -> u32 {
    let [p, n, d] = [plan[2], plan[3], plan[4]];
    if plan[21..] != [0, 0, 0] {
        return 1;
    }
    if p > 251 || !is_prime(p) {
        return 2;
    }
    if n == 0 || n > 16 || n > p {
        return 3;
    }
    if d >= n {
        return 4;
    }
    let (used, unused) = plan[5..21].split_at(n.into());
    let rising = used.windows(2).all(|pair| pair[0] < pair[1]);
    if !rising || used.iter().any(|&x| x >= p) || unused.iter().any(|&x| x != 0) {
        return 5;
    }
    0
}
