//! Sets of photographs: votes worked out by hand and in every way in which they can fall, histories of calls over several sets,
//! any bytes as memory, and refusals.

pub mod bytes;
pub mod documented;
pub mod faults;
pub mod histories;
pub mod lengths;
pub mod refused;
pub mod votes;

use independent::{Code, Plan, Set, PHOTOGRAPHS, UNREAD};
use std::array::from_fn;
use std::fmt::Debug;
use traymark_tests::calls::Arguments;
use traymark_tests::plans;
use traymark_tests::random::Random;
use traymark_tests::sets::SetArguments;

/// Arguments that every call on a set accepts, with a photograph that arrives. Of 1 to 8 photographs that are held the first is
/// the mark itself, and the others have cells that were not read.
pub fn accepted(plan: &Plan, lent: &Arguments, random: &mut Random) -> SetArguments {
    let mut numbers: [usize; PHOTOGRAPHS] = from_fn(|number| number);
    random.shuffle(&mut numbers);
    let held = random.between(1, PHOTOGRAPHS as u32 - 1) as usize;
    let mark = Code::Mark.word(plan, &plans::record(Code::Mark, plan, random));
    let mut set = Set { plan: plan.clone(), photographs: [const { None }; PHOTOGRAPHS] };
    for (k, &number) in numbers[..held].iter().enumerate() {
        let symbol = |&symbol: &u32| if k > 0 && random.one_in(3) { UNREAD } else { symbol };
        set.photographs[number] = Some(mark.iter().map(symbol).map(|symbol| symbol as u8).collect());
    }
    let [withdrawn, arriving] = [numbers[0], numbers[held]].map(|number| number as u32);
    SetArguments { memory: set.memory(), arriving, withdrawn, lent: lent.clone() }
}

/// A number above 8: the next ones, the last one, and those that would be this one if some of their bits were dropped.
pub fn too_high(number: u32, random: &mut Random) -> u32 {
    let bits = random.between(4, 31);
    random.pick(&[
        9,
        10,
        255,
        u32::MAX,
        number + (1 << 8),
        number + (1 << 16),
        number + (1 << 31),
        number + (1 << bits),
    ])
}

fn expect<A: PartialEq + Debug>(what: &str, is: A, expected: A) -> Result<(), String> {
    if is != expected {
        return Err(format!("{what} gave {is:?}, expected {expected:?}"));
    }
    Ok(())
}
