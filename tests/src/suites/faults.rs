//! Every refusal, alone and with others: the first number that concerns the call is given, in the order 1 2 3 13 4 5 and
//! on by rising numbers.

use independent::calls::bytes;
use independent::plan::is_prime;
use independent::{Code, Plan, ORDER};
use std::iter::repeat_with;
use traymark_tests::calls::{hold, Arguments, Call};
use traymark_tests::counts::Counts;
use traymark_tests::photo::{photograph, rival};
use traymark_tests::plans::{self, Shape, LARGE_OBLONGS, LARGE_SQUARES};
use traymark_tests::random::Random;

/// A way to break arguments.
pub struct Fault {
    pub name: &'static str,
    /// what is broken: faults in one place might mend each other
    pub place: &'static str,
    pub number: u32,
    /// the calls that it concerns
    calls: &'static [Call],
    pub apply: fn(&mut Arguments, &Plan, &mut Random),
}

pub fn alone(seed: u64, random: &mut Random, counts: &mut Counts) -> Result<(), String> {
    let code = [Code::Strip, Code::Mark][seed as usize % 2];
    let (plan, given) = sound(code, random);
    each(1, &plan, &given, random, counts)
}

/// The largest plans, with faults of the buffers alone: some of those of plans need unused point bytes.
pub fn largest(seed: u64, random: &mut Random, counts: &mut Counts) -> Result<(), String> {
    let code = [Code::Strip, Code::Mark][seed as usize % 2];
    let shapes = [&LARGE_SQUARES[..], &LARGE_OBLONGS].concat();
    let plan = plans::plan(shapes[seed as usize / 2 % shapes.len()], random);
    let given = arguments(code, &plan, random);
    each(6, &plan, &given, random, counts)
}

pub fn together(seed: u64, random: &mut Random, counts: &mut Counts) -> Result<(), String> {
    let code = [Code::Strip, Code::Mark][seed as usize % 2];
    let (plan, mut given) = sound(code, random);
    // in every other case the plan stays sound, so that the higher numbers are seen
    let first = random.pick(&[1, 6]);
    let choice: Vec<&Fault> = faults_from(first).collect();
    let mut faults: Vec<&Fault> = Vec::new();
    for _ in 0..random.between(2, 6) {
        let fault = random.pick(&choice);
        if faults.iter().all(|other| other.place != fault.place) {
            faults.push(fault);
        }
    }
    // the last first: a photograph at the radius is made anew, doubts are broken before symbols, as both may be of one cell,
    // and what is in buffers before their lengths
    faults.sort_by_key(|fault| std::cmp::Reverse(rank(fault.number)));
    faults.iter().for_each(|fault| (fault.apply)(&mut given, &plan, random));
    expect(&given, &faults, random, counts)
}

/// Another byte at every place of a plan.
pub fn in_plans(seed: u64, random: &mut Random, counts: &mut Counts) -> Result<(), String> {
    let code = [Code::Strip, Code::Mark][seed as usize % 2];
    let (_, given) = sound(code, random);
    for place in 0..given.plan.len() {
        let mut given = given.clone();
        given.plan[place] ^= random.between(1, 255) as u8;
        for call in Call::ALL {
            hold(call, &given, random, counts)?;
        }
    }
    Ok(())
}

/// Makes a plan unsound.
pub fn break_plan(given: &mut Arguments, plan: &Plan, random: &mut Random) {
    let faults: Vec<&Fault> = FAULTS.iter().copied().filter(|fault| rank(fault.number) < rank(6)).collect();
    (random.pick(&faults).apply)(given, plan, random);
}

/// The place of a number in the order in which refusals are tested.
pub fn rank(number: u32) -> usize {
    ORDER.into_iter().position(|other| other == number).expect("a refusal's number")
}

/// The faults with that number and those after it in the order.
fn faults_from(first: u32) -> impl Iterator<Item = &'static Fault> {
    FAULTS.iter().copied().filter(move |fault| rank(fault.number) >= rank(first))
}

/// No fault, and each from that number on alone.
fn each(first: u32, plan: &Plan, given: &Arguments, random: &mut Random, counts: &mut Counts) -> Result<(), String> {
    expect(given, &[], random, counts)?;
    for fault in faults_from(first) {
        let mut given = given.clone();
        (fault.apply)(&mut given, plan, random);
        expect(&given, &[fault], random, counts)?;
    }
    Ok(())
}

/// Every call gives the first number of the faults that concern it.
fn expect(given: &Arguments, faults: &[&Fault], random: &mut Random, counts: &mut Counts) -> Result<(), String> {
    for call in Call::ALL {
        let concern = faults.iter().filter(|fault| fault.calls.contains(&call));
        let expected = concern.map(|fault| fault.number).min_by_key(|&number| rank(number)).unwrap_or(0);
        let number = hold(call, given, random, counts)?.reading.number;
        if number != expected {
            let names: Vec<_> = faults.iter().map(|fault| fault.name).collect();
            return Err(format!("{call:?} gave {number}, not {expected}, with {names:?}; {given:?}"));
        }
    }
    Ok(())
}

/// A plan with at least two points and two unused point bytes each way, and arguments that every call accepts.
pub fn sound(code: Code, random: &mut Random) -> (Plan, Arguments) {
    let fits = |&(_, rows, columns, _): &Shape| (2..=14).contains(&rows) && (2..=14).contains(&columns);
    let shape = repeat_with(|| random.pick(plans::shapes())).find(fits).expect("there are such shapes");
    let plan = plans::plan(shape, random);
    let given = arguments(code, &plan, random);
    (plan, given)
}

/// Arguments that every call accepts.
pub fn arguments(code: Code, plan: &Plan, random: &mut Random) -> Arguments {
    let mut given = Arguments {
        code,
        plan: plan.bytes().to_vec(),
        record: Vec::new(),
        symbols: Vec::new(),
        doubts: Vec::new(),
        mark: random.bytes(code.cells(plan)),
        other: random.bytes(code.size(plan)),
    };
    let cost = random.between(0, code.radius(plan) - 1);
    photographed(&mut given, plan, cost, random);
    given
}

/// A photograph that costs so much against its record; what is given is that record or a rival.
fn photographed(given: &mut Arguments, plan: &Plan, cost: u32, random: &mut Random) {
    let record = plans::record(given.code, plan, random);
    let records = [rival(given.code, plan, &record, random), record];
    let [rival, word] = records.each_ref().map(|record| given.code.word(plan, record));
    let photo = photograph(plan, &word, &rival, cost, random);
    given.record = bytes(&records[random.below(2)]);
    given.symbols = bytes(&photo.symbols);
    given.doubts = bytes(&photo.doubts);
}

const ON_PLAN: &[Call] = &Call::ALL;
const ON_RECORD: &[Call] = &[Call::Write, Call::Measure, Call::Read, Call::Explain, Call::Mask, Call::Unmask];
const ON_SYMBOLS: &[Call] = &[Call::Measure, Call::Read, Call::Explain, Call::Mask, Call::Unmask];
const ON_DOUBTS: &[Call] = &[Call::Measure, Call::Read, Call::Explain];
const ON_MARK: &[Call] = &[Call::Write];
const ON_OTHER: &[Call] = &[Call::Explain];
const GIVEN_RECORD: &[Call] = &[Call::Write, Call::Measure, Call::Explain, Call::Mask, Call::Unmask];
const READING: &[Call] = &[Call::Read];

macro_rules! fault {
    ($name:literal, $place:literal, $number:literal, $calls:ident, $apply:expr) => {
        &Fault { name: $name, place: $place, number: $number, calls: $calls, apply: $apply }
    };
}

#[rustfmt::skip]
pub const FAULTS: &[&Fault] = &[
    fault!("no plan", "form", 1, ON_PLAN, |g, _, _| g.plan.clear()),
    fault!("plan one short", "form", 1, ON_PLAN, |g, _, _| g.plan.truncate(39)),
    fault!("plan one long", "form", 1, ON_PLAN, |g, _, _| g.plan.push(0)),
    fault!("two plans", "form", 1, ON_PLAN, |g, _, _| g.plan.extend_from_within(..)),
    fault!("plan of the old form", "form", 1, ON_PLAN, |g, _, _| g.plan.truncate(24)),
    fault!("filler", "form", 1, ON_PLAN, |g, _, r| g.plan[38 + r.below(2)] = r.between(1, 255) as u8),
    fault!("p 0", "p", 2, ON_PLAN, |g, _, _| g.plan[2] = 0),
    fault!("p 1", "p", 2, ON_PLAN, |g, _, _| g.plan[2] = 1),
    fault!("p a product", "p", 2, ON_PLAN, |g, _, r| g.plan[2] = product(r)),
    fault!("p above 251", "p", 2, ON_PLAN, |g, _, r| g.plan[2] = r.between(252, 255) as u8),
    fault!("rows 0", "rows", 3, ON_PLAN, |g, _, _| g.plan[3] = 0),
    fault!("rows 17", "rows", 3, ON_PLAN, |g, _, _| g.plan[3] = 17),
    fault!("rows above 16", "rows", 3, ON_PLAN, |g, _, r| g.plan[3] = r.between(17, 255) as u8),
    fault!("rows above p", "rows", 3, ON_PLAN, |g, plan, _| g.plan[3] = plan.p as u8 + 1),
    fault!("columns 0", "columns", 13, ON_PLAN, |g, _, _| g.plan[4] = 0),
    fault!("columns 17", "columns", 13, ON_PLAN, |g, _, _| g.plan[4] = 17),
    fault!("columns above 16", "columns", 13, ON_PLAN, |g, _, r| g.plan[4] = r.between(17, 255) as u8),
    fault!("columns above p", "columns", 13, ON_PLAN, |g, plan, _| g.plan[4] = plan.p as u8 + 1),
    fault!("d the smaller side", "d", 4, ON_PLAN, |g, plan, _| g.plan[5] = plan.sides()[0] as u8),
    fault!("d the larger side", "d", 4, ON_PLAN, |g, plan, _| g.plan[5] = plan.sides()[1] as u8),
    fault!("d above a side", "d", 4, ON_PLAN, |g, plan, r| g.plan[5] = r.between(plan.sides()[0] as u32, 255) as u8),
    fault!("a row point p", "last row point", 5, ON_PLAN, |g, plan, _| *last_row(g, plan) = plan.p as u8),
    fault!("a row point above p", "last row point", 5, ON_PLAN, |g, plan, r| *last_row(g, plan) = large(plan, r)),
    fault!("a row point twice", "row points", 5, ON_PLAN, |g, _, _| g.plan[7] = g.plan[6]),
    fault!("row points fall", "row points", 5, ON_PLAN, |g, _, _| g.plan.swap(6, 7)),
    fault!("an unused row point", "unused", 5, ON_PLAN, |g, plan, r| g.plan[6 + plan.rows()] = r.between(1, 255) as u8),
    fault!("the last unused row point", "unused", 5, ON_PLAN, |g, _, _| g.plan[21] = 1),
    fault!("a column point p", "last column point", 5, ON_PLAN, |g, plan, _| *last_column(g, plan) = plan.p as u8),
    fault!("a column point above p", "last column point", 5, ON_PLAN, |g, plan, r| *last_column(g, plan) = large(plan, r)),
    fault!("a column point twice", "column points", 5, ON_PLAN, |g, _, _| g.plan[23] = g.plan[22]),
    fault!("column points fall", "column points", 5, ON_PLAN, |g, _, _| g.plan.swap(22, 23)),
    fault!("an unused column point", "unused", 5, ON_PLAN, |g, plan, r| g.plan[22 + plan.columns()] = r.between(1, 255) as u8),
    fault!("the last unused column point", "unused", 5, ON_PLAN, |g, _, _| g.plan[37] = 1),
    fault!("no symbols", "symbols length", 6, ON_SYMBOLS, |g, _, _| g.symbols.clear()),
    fault!("symbols one short", "symbols length", 6, ON_SYMBOLS, |g, _, _| shorten(&mut g.symbols)),
    fault!("symbols one long", "symbols length", 6, ON_SYMBOLS, |g, _, _| g.symbols.push(0)),
    fault!("no doubts", "doubts length", 6, ON_DOUBTS, |g, _, _| g.doubts.clear()),
    fault!("doubts one short", "doubts length", 6, ON_DOUBTS, |g, _, _| shorten(&mut g.doubts)),
    fault!("doubts one long", "doubts length", 6, ON_DOUBTS, |g, _, _| g.doubts.push(0)),
    fault!("no record", "record length", 6, ON_RECORD, |g, _, _| g.record.clear()),
    fault!("record one short", "record length", 6, ON_RECORD, |g, _, _| shorten(&mut g.record)),
    fault!("record one long", "record length", 6, ON_RECORD, |g, _, _| g.record.push(0)),
    fault!("no mark", "mark length", 6, ON_MARK, |g, _, _| g.mark.clear()),
    fault!("mark one short", "mark length", 6, ON_MARK, |g, _, _| shorten(&mut g.mark)),
    fault!("mark one long", "mark length", 6, ON_MARK, |g, _, _| g.mark.push(0)),
    fault!("no other", "other length", 6, ON_OTHER, |g, _, _| g.other.clear()),
    fault!("other one short", "other length", 6, ON_OTHER, |g, _, _| shorten(&mut g.other)),
    fault!("other one long", "other length", 6, ON_OTHER, |g, _, _| g.other.push(0)),
    fault!("symbol p", "a symbol", 7, ON_SYMBOLS, |g, plan, r| *any(&mut g.symbols, r) = plan.p as u8),
    fault!("first symbol p", "a symbol", 7, ON_SYMBOLS, |g, plan, _| g.symbols[0] = plan.p as u8),
    fault!("last symbol p", "a symbol", 7, ON_SYMBOLS, |g, plan, _| *last(&mut g.symbols) = plan.p as u8),
    fault!("symbol 254", "a symbol", 7, ON_SYMBOLS, |g, _, r| *any(&mut g.symbols, r) = 254),
    fault!("symbol above p", "a symbol", 7, ON_SYMBOLS, |g, plan, r| *any(&mut g.symbols, r) = large(plan, r).min(254)),
    fault!("doubt one above the full", "a doubt", 8, ON_DOUBTS, |g, plan, r| *any(&mut g.doubts, r) = full(plan) + 1),
    fault!("first doubt one above the full", "a doubt", 8, ON_DOUBTS, |g, plan, _| g.doubts[0] = full(plan) + 1),
    fault!("last doubt one above the full", "a doubt", 8, ON_DOUBTS, |g, plan, _| *last(&mut g.doubts) = full(plan) + 1),
    fault!("doubt above the full", "a doubt", 8, ON_DOUBTS, |g, plan, r| *any(&mut g.doubts, r) = above_full(plan, r)),
    fault!("doubt 251", "a doubt", 8, ON_DOUBTS, |g, _, r| *any(&mut g.doubts, r) = 251),
    fault!("doubt 255", "a doubt", 8, ON_DOUBTS, |g, _, r| *any(&mut g.doubts, r) = 255),
    fault!("unread one below the full doubt", "a doubt", 8, ON_DOUBTS, |g, plan, r| misdoubted(g, full(plan) - 1, r)),
    fault!("unread one above the full doubt", "a doubt", 8, ON_DOUBTS, |g, plan, r| misdoubted(g, full(plan) + 1, r)),
    fault!("unread below the full doubt", "a doubt", 8, ON_DOUBTS, |g, plan, r| misdoubted(g, below_full(plan, r), r)),
    fault!("unread with doubt 0", "a doubt", 8, ON_DOUBTS, |g, _, r| misdoubted(g, 0, r)),
    fault!("unread as in the other age", "a doubt", 8, ON_DOUBTS, |g, plan, r| misdoubted(g, other_full(plan), r)),
    fault!("all unread as in the other age", "a doubt", 8, ON_DOUBTS, |g, plan, _| all_unread(g, other_full(plan))),
    fault!("coefficient p", "a coefficient", 9, GIVEN_RECORD, |g, plan, r| *any(&mut g.record, r) = plan.p as u8),
    fault!("first coefficient p", "a coefficient", 9, GIVEN_RECORD, |g, plan, _| g.record[0] = plan.p as u8),
    fault!("last coefficient p", "a coefficient", 9, GIVEN_RECORD, |g, plan, _| *last(&mut g.record) = plan.p as u8),
    fault!("coefficient above p", "a coefficient", 9, GIVEN_RECORD, |g, plan, r| *any(&mut g.record, r) = large(plan, r)),
    fault!("at the radius", "a photograph", 10, READING, |g, plan, r| photographed(g, plan, g.code.radius(plan), r)),
];

/// A number from 4 to 250 that is no prime.
fn product(random: &mut Random) -> u8 {
    let products: Vec<u8> = (4..=250).filter(|&p| !is_prime(p)).collect();
    random.pick(&products)
}

/// The last point of the rows that is used, and of the columns.
fn last_row<'a>(given: &'a mut Arguments, plan: &Plan) -> &'a mut u8 {
    &mut given.plan[5 + plan.rows()]
}

fn last_column<'a>(given: &'a mut Arguments, plan: &Plan) -> &'a mut u8 {
    &mut given.plan[21 + plan.columns()]
}

/// Any byte that is p or more.
fn large(plan: &Plan, random: &mut Random) -> u8 {
    random.between(plan.p, 255) as u8
}

/// The full doubt of the plan's season, and that of the other age's.
fn full(plan: &Plan) -> u8 {
    plan.full_doubt() as u8
}

fn other_full(plan: &Plan) -> u8 {
    match full(plan) {
        100 => 250,
        _ => 100,
    }
}

/// Any doubt above the full one, and any below it.
fn above_full(plan: &Plan, random: &mut Random) -> u8 {
    random.between(plan.full_doubt() + 1, 255) as u8
}

fn below_full(plan: &Plan, random: &mut Random) -> u8 {
    random.between(0, plan.full_doubt() - 1) as u8
}

/// An unread cell, and all of them, with that doubt.
fn misdoubted(given: &mut Arguments, doubt: u8, random: &mut Random) {
    let cell = random.below(given.symbols.len());
    given.symbols[cell] = 255;
    given.doubts[cell] = doubt;
}

fn all_unread(given: &mut Arguments, doubt: u8) {
    given.symbols.fill(255);
    given.doubts.fill(doubt);
}

fn any<'a>(items: &'a mut [u8], random: &mut Random) -> &'a mut u8 {
    let place = random.below(items.len());
    &mut items[place]
}

fn last(items: &mut [u8]) -> &mut u8 {
    items.last_mut().expect("no buffer is empty yet")
}

fn shorten(items: &mut Vec<u8>) {
    items.truncate(items.len() - 1);
}
