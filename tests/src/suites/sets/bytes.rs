//! Any bytes as the memory of a set: every call answers, and one call goes on with what another has left.

use super::{accepted, too_high};
use crate::suites::{faults, rubbish};
use independent::calls::bytes;
use independent::{memory, Code, Plan, PHOTOGRAPHS, PLAN, SET};
use traymark_tests::calls::Arguments;
use traymark_tests::counts::Counts;
use traymark_tests::photo::noise;
use traymark_tests::plans::{plan, shapes};
use traymark_tests::random::Random;
use traymark_tests::sets::{hold, SetArguments, SetCall};

/// Several calls, one after another, on one memory.
pub fn case(_: u64, random: &mut Random, counts: &mut Counts) -> Result<(), String> {
    let plan = plan(random.pick(shapes()), random);
    let mut memory = any(&plan, random);
    for _ in 0..4 {
        let [arriving, withdrawn] = [0, 1].map(|_| number(random));
        let given = SetArguments { memory, arriving, withdrawn, lent: lent(&plan, random) };
        memory = hold(random.pick(&SetCall::ALL), &given, random, counts)?.1.memory;
    }
    Ok(())
}

/// Another byte at every place of the memory but the symbols, and at some of these.
pub fn changed(_: u64, random: &mut Random, counts: &mut Counts) -> Result<(), String> {
    let (plan, lent) = faults::sound(Code::Mark, random);
    let given = accepted(&plan, &lent, random);
    let symbols = (0..50).map(|_| random.between((PLAN + PHOTOGRAPHS) as u32, SET as u32 - 1) as usize);
    let places: Vec<usize> = (0..PLAN + PHOTOGRAPHS).chain(symbols).collect();
    for place in places {
        let mut given = given.clone();
        given.memory[place] ^= random.between(1, 255) as u8;
        for call in SetCall::ALL {
            hold(call, &given, random, counts)?;
        }
    }
    Ok(())
}

/// Any bytes, of the right length or not, or a photograph.
fn lent(plan: &Plan, random: &mut Random) -> Arguments {
    match random.below(4) {
        0 => rubbish::arguments(random),
        1 => rubbish::on(plan, random),
        _ => {
            let photo = noise(Code::Mark, plan, random);
            let [symbols, doubts] = [photo.symbols, photo.doubts].map(|numbers| bytes(&numbers));
            Arguments { symbols, doubts, ..rubbish::on(plan, random) }
        }
    }
}

/// A number of a photograph, or any.
fn number(random: &mut Random) -> u32 {
    let number = random.between(0, 8);
    match random.below(6) {
        0 => too_high(number, random),
        1 => random.number() as u32,
        _ => number,
    }
}

/// Any bytes, or those after a sound plan; flags of any value, and symbols that the plan has, mostly, or some about p.
fn any(plan: &Plan, random: &mut Random) -> Vec<u8> {
    let mut memory = random.bytes(SET);
    if random.one_in(8) {
        memory[PLAN - 2..PLAN].fill(random.pick(&[0, 0, 1]));
        return memory;
    }
    memory[..PLAN].copy_from_slice(&plan.bytes());
    if random.one_in(8) {
        return memory;
    }
    let unread = random.between(1, 6) as usize;
    let high = random.pick(&[8, 200, usize::MAX]);
    for photograph in 0..PHOTOGRAPHS {
        let is_blank = random.one_in(3);
        let symbol = |_| match is_blank || random.one_in(unread + 1) {
            true => 255,
            false if high < usize::MAX && random.one_in(high) => random.between(plan.p, 254) as u8,
            false => random.between(0, plan.p - 1) as u8,
        };
        let symbols: Vec<u8> = memory::place(photograph).map(symbol).collect();
        memory[memory::place(photograph)].copy_from_slice(&symbols);
        let any = random.byte();
        memory[PLAN + photograph] = random.pick(&[0, 0, 1, 2, 128, 255, any]);
    }
    memory
}
