//! Every refusal of a call on a set, alone and with each other: of the plan 1 2 3 13 4 5, then 6 17 18 7 8 10.

use super::{accepted, too_high};
use crate::suites::faults::{self, rank, sound, FAULTS};
use independent::sets::PLACE;
use independent::{memory, Code, Plan, PHOTOGRAPHS, PLAN};
use std::cmp::Reverse;
use traymark_tests::counts::Counts;
use traymark_tests::random::Random;
use traymark_tests::sets::{hold, SetArguments, SetCall};
use SetCall::{Add, Combine, Read, Start, Withdraw};

/// A way to break the arguments of a call on a set: one of those of any call on a mark, or one of a set alone.
#[derive(Clone, Copy)]
enum Fault {
    Lent(&'static faults::Fault),
    Set(&'static Own),
}

/// A way to break the numbers of photographs, or the memory.
struct Own {
    name: &'static str,
    place: &'static str,
    number: u32,
    calls: &'static [SetCall],
    apply: fn(&mut SetArguments, &Plan, &mut Random),
}

/// Each fault alone, and each pair of faults that are not in one place.
pub fn case(_: u64, random: &mut Random, counts: &mut Counts) -> Result<(), String> {
    let (plan, lent) = sound(Code::Mark, random);
    let given = accepted(&plan, &lent, random);
    expect(&given, &plan, &[], random, counts)?;
    let faults: Vec<Fault> = all().collect();
    for (k, &fault) in faults.iter().enumerate() {
        expect(&given, &plan, &[fault], random, counts)?;
        for &other in faults[..k].iter().filter(|other| other.place() != fault.place()) {
            expect(&given, &plan, &[fault, other], random, counts)?;
        }
    }
    Ok(())
}

/// The faults that concern a call on a set.
fn all() -> impl Iterator<Item = Fault> {
    let lent = FAULTS.iter().copied().map(Fault::Lent).filter(|fault| !fault.calls().is_empty());
    lent.chain(OWN.iter().map(Fault::Set))
}

/// Every call gives the first number of the faults that concern it. What no fault of these concerns is read only where there is
/// none.
fn expect(
    given: &SetArguments,
    plan: &Plan,
    faults: &[Fault],
    random: &mut Random,
    counts: &mut Counts,
) -> Result<(), String> {
    let mut given = given.clone();
    let mut faults = faults.to_vec();
    // the last first: what is in buffers is broken before their lengths
    faults.sort_by_key(|fault| Reverse(rank(fault.number())));
    faults.iter().for_each(|fault| fault.apply(&mut given, plan, random));
    for call in SetCall::ALL {
        let concern = || faults.iter().filter(|fault| fault.calls().contains(&call));
        if call == Read && !faults.is_empty() && concern().next().is_none() {
            continue;
        }
        let expected = concern().map(|fault| fault.number()).min_by_key(|&number| rank(number)).unwrap_or(0);
        let number = hold(call, &given, random, counts)?.0.number;
        if number != expected {
            let names: Vec<_> = faults.iter().map(|fault| fault.name()).collect();
            return Err(format!("{call:?} gave {number}, not {expected}, with {names:?}; {given:?}"));
        }
    }
    Ok(())
}

impl Fault {
    fn name(&self) -> &'static str {
        match self {
            Fault::Lent(fault) => fault.name,
            Fault::Set(own) => own.name,
        }
    }

    fn place(&self) -> &'static str {
        match self {
            Fault::Lent(fault) => fault.place,
            Fault::Set(own) => own.place,
        }
    }

    fn number(&self) -> u32 {
        match self {
            Fault::Lent(fault) => fault.number,
            Fault::Set(own) => own.number,
        }
    }

    /// The calls that it concerns. A plan of another length than its own can't be in the memory, and what is combined is not
    /// looked at before.
    fn calls(&self) -> &'static [SetCall] {
        match self {
            Fault::Set(own) => own.calls,
            Fault::Lent(fault) => match fault.place {
                "form" if fault.name != "filler" => &[Start],
                "form" | "p" | "rows" | "columns" | "d" => &[Start, Add, Combine, Read],
                "row points" | "last row point" | "column points" | "last column point" | "unused" => {
                    &[Start, Add, Combine, Read]
                }
                "symbols length" | "doubts length" => &[Add, Combine],
                "record length" => &[Read],
                "a symbol" | "a doubt" => &[Add],
                _ => &[],
            },
        }
    }

    /// A plan that is broken is so where it is lent, and in the memory.
    fn apply(&self, given: &mut SetArguments, plan: &Plan, random: &mut Random) {
        match self {
            Fault::Set(own) => (own.apply)(given, plan, random),
            Fault::Lent(fault) => {
                (fault.apply)(&mut given.lent, plan, random);
                if given.lent.plan.len() == PLAN {
                    given.memory[..PLAN].copy_from_slice(&given.lent.plan);
                }
            }
        }
    }
}

#[rustfmt::skip]
const OWN: &[Own] = &[
    Own { name: "number 9 arrives", place: "arriving", number: 17, calls: &[Add], apply: |g, _, _| g.arriving = 9 },
    Own { name: "a number above 8 arrives", place: "arriving", number: 17, calls: &[Add],
          apply: |g, _, r| g.arriving = too_high(g.arriving, r) },
    Own { name: "a number that is held arrives", place: "arriving", number: 17, calls: &[Add],
          apply: |g, _, _| g.memory[PLAN + g.arriving as usize] = 1 },
    Own { name: "a number with another flag arrives", place: "arriving", number: 17, calls: &[Add],
          apply: |g, _, r| g.memory[PLAN + g.arriving as usize] = r.between(2, 255) as u8 },
    Own { name: "number 9 is withdrawn", place: "withdrawn", number: 18, calls: &[Withdraw], apply: |g, _, _| g.withdrawn = 9 },
    Own { name: "a number above 8 is withdrawn", place: "withdrawn", number: 18, calls: &[Withdraw],
          apply: |g, _, r| g.withdrawn = too_high(g.withdrawn, r) },
    Own { name: "a number that isn't held is withdrawn", place: "withdrawn", number: 18, calls: &[Withdraw],
          apply: |g, _, _| g.memory[PLAN + g.withdrawn as usize] = 0 },
    Own { name: "a combined symbol above p", place: "a combined symbol", number: 7, calls: &[Read], apply: |g, plan, r| {
        let cell = r.below(Code::Mark.cells(plan));
        let any = r.between(plan.p, 254) as u8;
        let symbol = r.pick(&[plan.p as u8, 254, any]);
        (0..PHOTOGRAPHS).for_each(|k| g.memory[memory::place(k)][cell] = symbol);
    } },
    Own { name: "no votes", place: "votes", number: 10, calls: &[Read],
          apply: |g, _, _| g.memory[PLAN + PHOTOGRAPHS..].copy_from_slice(&[255; PHOTOGRAPHS * PLACE]) },
];
