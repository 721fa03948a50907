//! What the two ages have to do with each other, which needs no decoder. A photograph with doubts in 50ths is given to earlier
//! seasons with its doubts doubled and to later ones with five times its doubts: whatever the season, the same is refused, read
//! and explained, and costs, margins and excesses are as many times those in 50ths.
//!
//! With the doubts of the other age it is another photograph, which is held against the independent decoder.

use independent::calls::bytes;
use independent::{Code, Plan, Reading, Reason, UNREAD};
use traymark_tests::calls::{answered, hold, Arguments, Call, Outcome};
use traymark_tests::counts::Counts;
use traymark_tests::photo::{photograph_in, rival, Photo};
use traymark_tests::plans;
use traymark_tests::random::Random;

/// The full doubt of the photographs, and how many times it each age has.
const FULL: u32 = 50;
const TIMES: [u8; 2] = [2, 5];

/// The seeds go through all shapes.
pub fn case(seed: u64, random: &mut Random, counts: &mut Counts) -> Result<(), String> {
    let plan = plans::plan(plans::shapes()[seed as usize], random);
    for code in [Code::Strip, Code::Mark] {
        let given = in_50ths(code, &plan, random);
        for call in Call::ALL {
            alike(call, &given, random, counts)?;
        }
        let ages = random.pick(&[[0, 1], [1, 0]]);
        let call = random.pick(&[Call::Measure, Call::Read, Call::Explain]);
        hold(call, &aged(&given, ages, random), random, counts)?;
    }
    Ok(())
}

/// A record or a rival of it, and a photograph of it about the radius, in 50ths; now and then with a doubt that is refused.
fn in_50ths(code: Code, plan: &Plan, random: &mut Random) -> Arguments {
    let record = plans::record(code, plan, random);
    let near = rival(code, plan, &record, random);
    let [word, rival] = [&record, &near].map(|record| code.word(plan, record));
    let radius = code.radius(plan) / plan.full_doubt() * FULL;
    let any = random.between(0, radius);
    let target = random.pick(&[any, any, radius - 1, radius, radius + 1]);
    let mut photo = photograph_in(FULL, plan, &word, &rival, target, random);
    if random.one_in(16) {
        misdoubt(&mut photo, random);
    }
    Arguments {
        code,
        plan: plan.bytes().to_vec(),
        record: bytes(random.pick(&[&record, &near])),
        symbols: bytes(&photo.symbols),
        doubts: bytes(&photo.doubts),
        mark: random.bytes(code.cells(plan)),
        other: random.bytes(code.size(plan)),
    }
}

/// A cell above the full doubt, or one that is unread below it.
fn misdoubt(photo: &mut Photo, random: &mut Random) {
    let cell = random.below(photo.symbols.len());
    let below = random.between(0, FULL - 1);
    (photo.symbols[cell], photo.doubts[cell]) = random.pick(&[(0, FULL + 1), (UNREAD, FULL + 1), (UNREAD, below)]);
}

/// Two seasons of each age give the same, in 50ths.
fn alike(call: Call, given: &Arguments, random: &mut Random, counts: &mut Counts) -> Result<(), String> {
    // reading takes a buffer for the record, with any bytes
    let given = match call {
        Call::Read => &Arguments { record: given.other.clone(), ..given.clone() },
        _ => given,
    };
    let mut said = Vec::new();
    for age in [0, 0, 1, 1] {
        let given = aged(given, [age, age], random);
        let outcome = answered(call, &given, random, counts)?;
        said.push(divided(outcome, TIMES[age].into()).map_err(|what| format!("{call:?} gave {what}; {given:?}"))?);
    }
    if said.iter().any(|outcome| *outcome != said[0]) {
        return Err(format!("{call:?} gave two seasons before 30 and two from 30 on, in 50ths, {said:?}; {given:?}"));
    }
    Ok(())
}

/// The arguments with a season of the one age and the doubts of the other.
fn aged(given: &Arguments, [of_season, of_doubts]: [usize; 2], random: &mut Random) -> Arguments {
    let season = plans::seasons(random)[of_season];
    let doubts = given.doubts.iter().map(|doubt| doubt * TIMES[of_doubts]).collect();
    Arguments { plan: plans::with_season(&given.plan, season), doubts, ..given.clone() }
}

/// The outcome with its sums divided by so much.
fn divided(outcome: Outcome, times: i32) -> Result<Outcome, String> {
    let Outcome { reading, reason, buffer } = outcome;
    let sums = [reading.cost as i32, reading.margin, reason.excess as i32];
    if sums.iter().any(|sum| sum % times != 0) {
        return Err(format!("{reading:?} and {reason:?}, which are no multiples of {times}"));
    }
    let [cost, margin, excess] = sums.map(|sum| sum / times);
    let reading = Reading { cost: cost as u32, margin, ..reading };
    Ok(Outcome { reading, reason: Reason { excess: excess as u32, ..reason }, buffer })
}
