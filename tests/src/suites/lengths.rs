//! The plan of every length to 80, and every other buffer of every call empty, one short, one long, and far too long; all of them
//! also longer by 256 and by 65,536, which a length in one byte or in two would not show, and 1 MiB long.

use super::faults::sound;
use independent::Code;
use traymark_tests::calls::{hold, Arguments, Call};
use traymark_tests::counts::Counts;
use traymark_tests::random::Random;

/// A buffer of the arguments.
pub type Choose = fn(&mut Arguments) -> &mut Vec<u8>;

pub fn case(seed: u64, random: &mut Random, counts: &mut Counts) -> Result<(), String> {
    let code = [Code::Strip, Code::Mark][seed as usize % 2];
    let (_, given) = sound(code, random);
    for length in 0..=80 {
        resized(&given, plan, length, random, counts)?;
    }
    for choose in [record, symbols, doubts, mark, other] {
        let length = choose(&mut given.clone()).len();
        for wrong in [0, 1, length - 1, length, length + 1, 2 * length, 1000] {
            resized(&given, choose, wrong, random, counts)?;
        }
    }
    Ok(())
}

/// Lengths whose low byte, or low two bytes, are those of the right one, and 1 MiB.
pub fn far(seed: u64, random: &mut Random, counts: &mut Counts) -> Result<(), String> {
    let code = [Code::Strip, Code::Mark][seed as usize % 2];
    let (_, given) = sound(code, random);
    for choose in [plan, record, symbols, doubts, mark, other] {
        let length = choose(&mut given.clone()).len();
        for wrong in [length + (1 << 8), length + (1 << 16), 1 << 20] {
            resized(&given, choose, wrong, random, counts)?;
        }
    }
    Ok(())
}

/// Every call with the buffer of this length. Where that is its own, none is refused.
fn resized(
    given: &Arguments,
    choose: Choose,
    length: usize,
    random: &mut Random,
    counts: &mut Counts,
) -> Result<(), String> {
    let mut given = given.clone();
    let own = choose(&mut given).len();
    choose(&mut given).resize(length, 0);
    for call in Call::ALL {
        let number = hold(call, &given, random, counts)?.reading.number;
        if length == own && number != 0 {
            return Err(format!("{call:?} gave {number}; {given:?}"));
        }
    }
    Ok(())
}

pub fn plan(given: &mut Arguments) -> &mut Vec<u8> {
    &mut given.plan
}

pub fn record(given: &mut Arguments) -> &mut Vec<u8> {
    &mut given.record
}

pub fn symbols(given: &mut Arguments) -> &mut Vec<u8> {
    &mut given.symbols
}

pub fn doubts(given: &mut Arguments) -> &mut Vec<u8> {
    &mut given.doubts
}

fn mark(given: &mut Arguments) -> &mut Vec<u8> {
    &mut given.mark
}

fn other(given: &mut Arguments) -> &mut Vec<u8> {
    &mut given.other
}
