//! Rows and columns exchanged. A mark with its rows as columns is that of the record with X and Y exchanged under the plan
//! with its points exchanged, and reads alike; a mark as it stands is mostly another one under that plan.

use independent::calls::bytes;
use independent::{Code, Plan};
use traymark_tests::calls::{hold, Arguments, Call};
use traymark_tests::counts::Counts;
use traymark_tests::photo::{photograph, rival};
use traymark_tests::plans;
use traymark_tests::random::Random;

pub fn case(_: u64, random: &mut Random, counts: &mut Counts) -> Result<(), String> {
    let plan = plans::plan(random.pick(plans::shapes()), random);
    let record = plans::record(Code::Mark, &plan, random);
    let word = Code::Mark.word(&plan, &record);
    alike(&plan, &record, random, counts)?;
    unlike(&plan, &record, &word, random, counts)
}

/// A photograph of any cost up to beyond the radius, and the same with rows and columns exchanged, are read alike; and
/// explained alike, a rival being expected, but for the place.
fn alike(plan: &Plan, record: &[u32], random: &mut Random, counts: &mut Counts) -> Result<(), String> {
    let expected = rival(Code::Mark, plan, record, random);
    let [word, rival] = [record, &expected].map(|record| Code::Mark.word(plan, record));
    let radius = Code::Mark.radius(plan);
    let cost = random.pick(&[0, radius / 2, radius - 1, radius, radius + 1]);
    let photo = photograph(plan, &word, &rival, cost, random);
    let given = Arguments { record: bytes(&expected), ..arguments(plan, &photo.symbols, &photo.doubts, random) };
    let [symbols, doubts] = [&photo.symbols, &photo.doubts].map(|cells| exchanged(plan, cells));
    let mut mirrored = Arguments { record: bytes(&expected), ..arguments(&plan.swapped(), &symbols, &doubts, random) };
    reverse_groups(plan.degree, &mut mirrored.record);
    for call in [Call::Read, Call::Explain] {
        let there = hold(call, &given, random, counts)?;
        let mut back = hold(call, &mirrored, random, counts)?;
        back.reason.place = there.reason.place;
        reverse_groups(plan.degree, &mut back.buffer);
        let same = (there.reading, there.reason) == (back.reading, back.reason);
        if !same || there.is_written(call) && there.buffer != back.buffer {
            return Err(format!("{call:?} gave {there:?}, and exchanged {back:?}; {given:?}"));
        }
    }
    Ok(())
}

/// A clean mark is read under its own plan, and where it is another one under the plan with the points exchanged not there.
fn unlike(plan: &Plan, record: &[u32], word: &[u32], random: &mut Random, counts: &mut Counts) -> Result<(), String> {
    let swapped = plan.swapped();
    let is_unlike = Code::Mark.word(&swapped, record) != word;
    counts.unlike += u64::from(is_unlike);
    for (plan, clean) in [(plan, true), (&swapped, !is_unlike)] {
        let given = arguments(plan, word, &vec![0; word.len()], random);
        let outcome = hold(Call::Read, &given, random, counts)?;
        let read = outcome.reading.number == 0 && outcome.reading.cost == 0 && outcome.buffer == bytes(record);
        if read != clean {
            return Err(format!("read {outcome:?}, a mark of {record:?}: {clean}; {given:?}"));
        }
    }
    Ok(())
}

fn arguments(plan: &Plan, symbols: &[u32], doubts: &[u32], random: &mut Random) -> Arguments {
    Arguments {
        code: Code::Mark,
        plan: plan.bytes().to_vec(),
        record: random.bytes(Code::Mark.size(plan)),
        symbols: bytes(symbols),
        doubts: bytes(doubts),
        mark: Vec::new(),
        other: random.bytes(Code::Mark.size(plan)),
    }
}

/// The plan's cells, column by column.
fn exchanged(plan: &Plan, cells: &[u32]) -> Vec<u32> {
    let column = |j: usize| cells[j..].iter().step_by(plan.columns()).copied();
    (0..plan.columns()).flat_map(column).collect()
}

/// X and Y exchanged: within one degree the coefficients go the other way.
fn reverse_groups(degree: usize, record: &mut [u8]) {
    for k in 0..=degree {
        record[k * (k + 1) / 2..][..=k].reverse();
    }
}
