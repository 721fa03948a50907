//! Where each coefficient of a record stands: that of X^(k - j) Y^j at k(k + 1)/2 + j of (d + 1)(d + 2)/2 places. One
//! that is alone is written, put on and taken off as a mask, measured and read back, for every place, number of rows and of
//! columns and d of p 251. The points mostly differ each way, so that it shows where X takes a column point or Y a row point.

use independent::field::power;
use independent::{Code, Plan, Reading};
use traymark_tests::calls::{answered, Arguments, Call, Outcome};
use traymark_tests::counts::Counts;
use traymark_tests::plans;
use traymark_tests::random::Random;

pub fn case(seed: u64, random: &mut Random, counts: &mut Counts) -> Result<(), String> {
    let shape = plans::shapes_of(251).nth(seed as usize).expect("so many shapes");
    let plan = plans::plan(shape, random);
    for k in 0..=plan.degree {
        for j in 0..=k {
            alone(&plan, k, j, random, counts).map_err(|what| format!("X^{} Y^{j} of {plan:?}: {what}", k - j))?;
        }
    }
    Ok(())
}

fn alone(plan: &Plan, k: usize, j: usize, random: &mut Random, counts: &mut Counts) -> Result<(), String> {
    let coefficient = 1 + random.below(plan.p as usize - 1) as u32;
    let mut record = vec![0; (plan.degree + 1) * (plan.degree + 2) / 2];
    record[k * (k + 1) / 2 + j] = coefficient as u8;
    let value = |x, y| (coefficient * power(x, plan.p, k - j) % plan.p * power(y, plan.p, j) % plan.p) as u8;
    let row = |&x: &u32| plan.column_points.iter().map(move |&y| value(x, y));
    let mark: Vec<u8> = plan.row_points.iter().flat_map(row).collect();

    let given = Arguments {
        code: Code::Mark,
        plan: plan.bytes().to_vec(),
        record: record.clone(),
        symbols: mark.clone(),
        doubts: vec![0; mark.len()],
        mark: random.bytes(mark.len()),
        other: random.bytes(record.len()),
    };
    let to_read = Arguments { record: random.bytes(record.len()), ..given.clone() };
    let blank = vec![0; mark.len()];
    let to_mask = Arguments { symbols: blank.clone(), ..given.clone() };
    let clean = Reading { margin: Code::Mark.radius(plan) as i32, ..Reading::default() };
    for (call, given, expected) in [
        (Call::Write, &given, Outcome::numbered(0, mark.clone())),
        (Call::Mask, &to_mask, Outcome::numbered(0, mark)),
        (Call::Unmask, &given, Outcome::numbered(0, blank)),
        (Call::Measure, &given, Outcome::read(clean, Vec::new())),
        (Call::Read, &to_read, Outcome::read(clean, record)),
    ] {
        let answer = answered(call, given, random, counts)?;
        if answer != expected {
            return Err(format!("{call:?} gave {answer:?}, expected {expected:?}; {given:?}"));
        }
    }
    Ok(())
}
