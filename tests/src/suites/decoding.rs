//! Photographs of planted records: each is written, measured, read and explained. Whatever costs under the radius must come
//! back, and where something costs exactly the radius nothing may: two records cost twice the radius together at
//! least.

use independent::calls::{by_equations, bytes, numbers, SEARCHED};
use independent::cost::cost;
use independent::{exhaustive, Code, Plan, Reason};
use traymark_tests::calls::{answered, hold, Arguments, Call, Outcome};
use traymark_tests::counts::Counts;
use traymark_tests::photo::{noise, photograph, rival, Photo};
use traymark_tests::plans::{self, Shape, LARGE_OBLONGS, LARGE_SQUARES};
use traymark_tests::random::Random;

/// Squares: the seeds go through their shapes.
pub fn mark(seed: u64, random: &mut Random, counts: &mut Counts) -> Result<(), String> {
    shaped(Code::Mark, plans::squares(), seed, random, counts)
}

/// Strips with every number of columns: these are of no account but for the check.
pub fn strip(seed: u64, random: &mut Random, counts: &mut Counts) -> Result<(), String> {
    shaped(Code::Strip, plans::shapes(), seed, random, counts)
}

/// How often the seeds go through all shapes of marks, each time at another cost.
pub const COSTS: u64 = 3;

/// Marks of every shape, at R - 1, R and R + 1, before season 30 and from it on in turn.
pub fn oblong(seed: u64, random: &mut Random, counts: &mut Counts) -> Result<(), String> {
    let shapes = plans::shapes();
    let (shape, turn) = (seed as usize % shapes.len(), seed as usize / shapes.len());
    let season = plans::seasons(random)[(shape + turn) % 2];
    let plan = Plan { season, ..plans::plan(shapes[shape], random) };
    let radius = Code::Mark.radius(&plan);
    let cost = [radius - 1, radius, radius + 1][turn];
    counts.cost(&plan, cost, radius);
    costing(Code::Mark, &plan, Some(cost), random, counts)
}

/// Mostly squares.
pub fn large_mark(seed: u64, random: &mut Random, counts: &mut Counts) -> Result<(), String> {
    let shapes = [&LARGE_SQUARES[..], &LARGE_SQUARES, &LARGE_SQUARES, &LARGE_OBLONGS].concat();
    shaped(Code::Mark, &shapes, seed, random, counts)
}

/// Every prime, as division differs between them.
pub fn every_prime(seed: u64, random: &mut Random, counts: &mut Counts) -> Result<(), String> {
    let plan = plans::of_every_prime(seed, random);
    planted(random.pick(&[Code::Strip, Code::Mark]), &plan, random, counts)
}

/// The seeds go through these shapes of plans.
fn shaped(code: Code, shapes: &[Shape], seed: u64, random: &mut Random, counts: &mut Counts) -> Result<(), String> {
    let plan = plans::plan(shapes[seed as usize % shapes.len()], random);
    planted(code, &plan, random, counts)
}

/// A photograph that costs some sum, or now and then one of nothing.
fn planted(code: Code, plan: &Plan, random: &mut Random, counts: &mut Counts) -> Result<(), String> {
    let cost = match random.one_in(16) {
        true => None,
        false => Some(target(code, plan, random, counts)),
    };
    costing(code, plan, cost, random, counts)
}

/// A photograph that costs so much against its record, or one of nothing.
fn costing(
    code: Code,
    plan: &Plan,
    target: Option<u32>,
    random: &mut Random,
    counts: &mut Counts,
) -> Result<(), String> {
    let record = plans::record(code, plan, random);
    let rival_record = rival(code, plan, &record, random);
    let [word, rival] = [&record, &rival_record].map(|record| code.word(plan, record));
    let photo = match target {
        None => noise(code, plan, random),
        Some(cost) => photograph(plan, &word, &rival, cost, random),
    };
    let given = Arguments {
        code,
        plan: plan.bytes().to_vec(),
        record: bytes(&record),
        symbols: bytes(&photo.symbols),
        doubts: bytes(&photo.doubts),
        mark: random.bytes(code.cells(plan)),
        other: random.bytes(code.size(plan)),
    };
    hold(Call::Write, &given, random, counts)?;
    let expected = [record, rival_record, plans::record(code, plan, random)];
    let given = Arguments { record: random.bytes(code.size(plan)), ..given };
    let outcome = hold(Call::Read, &given, random, counts)?;
    both_methods(code, plan, &photo, &outcome, counts)?;
    for record in &expected {
        let given = Arguments { record: bytes(record), ..given.clone() };
        explained(&given, plan, &outcome, random, counts)?;
    }
    // the independent decoder reads anew to explain
    if random.one_in(4) {
        let given = Arguments { record: bytes(&expected[random.below(3)]), ..given.clone() };
        hold(Call::Explain, &given, random, counts)?;
    }
    theory(code, plan, &photo, &[&word, &rival], &outcome).map_err(|what| format!("{what}; {given:?}"))
}

/// What the photograph is to cost against the planted record: often at the radius or one beside it.
fn target(code: Code, plan: &Plan, random: &mut Random, counts: &mut Counts) -> u32 {
    let radius = code.radius(plan);
    let most = 2 * plan.full_doubt() * code.cells(plan) as u32;
    let cost = match random.below(16) {
        0..=3 => radius - 1,
        4..=5 => radius,
        6..=7 => radius + 1,
        8 => 0,
        9 => radius / 2,
        10 => random.between(radius, most.min(radius + radius / 2)),
        11 => random.between(radius - 10.min(radius), radius),
        _ => random.between(0, radius),
    };
    counts.cost(plan, cost, radius);
    cost
}

/// Small plans are read by search, and here by equations too.
fn both_methods(code: Code, plan: &Plan, photo: &Photo, outcome: &Outcome, counts: &mut Counts) -> Result<(), String> {
    if exhaustive::records(code, plan, SEARCHED).is_none() {
        return Ok(());
    }
    counts.twice += 1;
    let searched = (outcome.reading.number == 0).then(|| numbers(&outcome.buffer));
    let solved = by_equations(code, plan, &photo.symbols, &photo.doubts).map(|found| found.record);
    if searched != solved {
        return Err(format!("the independent methods give {searched:?} and {solved:?}; {plan:?} {photo:?}"));
    }
    Ok(())
}

/// Measuring a record, and explaining it, which says what follows from that and from what was read: both were held against the
/// independent decoder.
fn explained(
    given: &Arguments,
    plan: &Plan,
    read: &Outcome,
    random: &mut Random,
    counts: &mut Counts,
) -> Result<(), String> {
    let measured = hold(Call::Measure, given, random, counts)?.reading;
    let outcome = answered(Call::Explain, given, random, counts)?;
    let follows = match read.reading.number {
        0 if measured.margin > 0 => Outcome::explained(Reason::answer(), given.other.clone()),
        0 => Outcome::explained(Reason::other(first_difference(given, plan, read)?), read.buffer.clone()),
        _ => Outcome::explained(Reason::nothing(-measured.margin as u32), given.other.clone()),
    };
    let is_read = read.reading.number == 0 && read.buffer == given.record;
    if outcome != follows || is_read != (measured.margin > 0) {
        return Err(format!("explained {outcome:?}, measured {measured:?} and read {read:?}; {given:?}"));
    }
    Ok(())
}

/// The lowest place at which the marks of the given record and of the one that was read differ.
fn first_difference(given: &Arguments, plan: &Plan, read: &Outcome) -> Result<usize, String> {
    let [expected, answer] = [&given.record, &read.buffer].map(|record| given.code.word(plan, &numbers(record)));
    let place = expected.iter().zip(&answer).position(|(value, other)| value != other);
    place.ok_or_else(|| format!("the record that was read has the mark of another; {given:?}"))
}

/// What must be answered by the theory alone, where one of these words costs the radius or less.
fn theory(code: Code, plan: &Plan, photo: &Photo, words: &[&[u32]], outcome: &Outcome) -> Result<(), String> {
    let radius = code.radius(plan);
    let reading = outcome.reading;
    for word in words {
        let cost = cost(plan.full_doubt(), &photo.symbols, &photo.doubts, word);
        let returned = reading.number == 0 && code.word(plan, &numbers(&outcome.buffer)) == *word;
        if cost < radius && !(returned && reading.cost == cost) {
            return Err(format!("a record costs {cost}, under the radius, and the reading is {outcome:?}"));
        }
        if cost == radius && reading.number != 10 {
            return Err(format!("a record costs the radius, and the reading is {outcome:?}"));
        }
        if cost > radius && returned {
            return Err(format!("a record costs {cost}, above the radius, and was returned: {outcome:?}"));
        }
    }
    Ok(())
}
