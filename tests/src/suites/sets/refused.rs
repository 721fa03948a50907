//! Every number that is not one of a photograph, and every cell of every photograph with a symbol or a doubt that is refused.

use super::accepted;
use crate::suites::faults;
use independent::{memory, Code, Plan, PHOTOGRAPHS, PLAN};
use traymark_tests::counts::Counts;
use traymark_tests::plans;
use traymark_tests::random::Random;
use traymark_tests::sets::{hold, SetArguments, SetCall};

/// A plan of every prime, and then some for the largest marks.
const PRIMES: u64 = 54;
pub const CASES: u64 = PRIMES + 4;

pub fn case(seed: u64, random: &mut Random, counts: &mut Counts) -> Result<(), String> {
    let plan = match seed {
        ..PRIMES => plans::of_every_prime(seed, random),
        _ => plans::largest(random),
    };
    let given = accepted(&plan, &faults::arguments(Code::Mark, &plan, random), random);
    numbers(&given, random, counts)?;
    for number in 0..PHOTOGRAPHS {
        cells(number, &plan, &given, random, counts)?;
    }
    unflagged(given, random, counts)
}

/// Numbers above 8: 9 to 599, and from one below each power of two to eight above it.
fn numbers(given: &SetArguments, random: &mut Random, counts: &mut Counts) -> Result<(), String> {
    let around = (4..32).flat_map(|bit| (0..10).map(move |more| (1 << bit) - 1 + more));
    for number in (9..600).chain(around).chain([u32::MAX]) {
        let given = SetArguments { arriving: number, withdrawn: number, ..given.clone() };
        expect(SetCall::Add, &given, 17, random, counts)?;
        expect(SetCall::Withdraw, &given, 18, random, counts)?;
    }
    Ok(())
}

/// A photograph that would arrive under that number but for one cell, whichever that is; and with the cell unread.
fn cells(
    number: usize,
    plan: &Plan,
    given: &SetArguments,
    random: &mut Random,
    counts: &mut Counts,
) -> Result<(), String> {
    let mut given = SetArguments { arriving: number as u32, ..given.clone() };
    given.memory[PLAN + number] = 0;
    given.memory[memory::place(number)].fill(255);
    let [p, full] = [plan.p, plan.full_doubt()].map(|number| number as u8);
    for cell in 0..Code::Mark.cells(plan) {
        let [symbol, doubt] = [given.lent.symbols[cell], given.lent.doubts[cell]];
        let broken = [
            (p, doubt, 7),
            (254, doubt, 7),
            (p - 1, full + 1, 8),
            (255, full + 1, 8),
            (255, full - 1, 8),
            (255, full, 0),
        ];
        for (symbol, doubt, refusal) in broken {
            (given.lent.symbols[cell], given.lent.doubts[cell]) = (symbol, doubt);
            expect(SetCall::Add, &given, refusal, random, counts)?;
        }
        (given.lent.symbols[cell], given.lent.doubts[cell]) = (symbol, doubt);
    }
    Ok(())
}

/// The flags have no say in what is combined: with all of them 0 it is what it was.
fn unflagged(given: SetArguments, random: &mut Random, counts: &mut Counts) -> Result<(), String> {
    let mut unflagged = given.clone();
    unflagged.memory[PLAN..PLAN + PHOTOGRAPHS].fill(0);
    for call in [SetCall::Combine, SetCall::Read] {
        let [held, not_held] = [&given, &unflagged].map(|given| hold(call, given, random, counts));
        let ((reading, left), (unflagged_reading, unflagged_left)) = (held?, not_held?);
        if (reading, left.lent) != (unflagged_reading, unflagged_left.lent) {
            return Err(format!("{call:?} goes by the flags; {given:?}"));
        }
    }
    Ok(())
}

/// The call gives that number.
fn expect(
    call: SetCall,
    given: &SetArguments,
    expected: u32,
    random: &mut Random,
    counts: &mut Counts,
) -> Result<(), String> {
    let number = hold(call, given, random, counts)?.0.number;
    match number == expected {
        true => Ok(()),
        false => Err(format!("{call:?} gave {number}, not {expected}; {given:?}")),
    }
}
