//! Explaining by the theory alone: of two records whose marks first differ at a known place each is expected in turn, of a
//! photograph that costs any sum under the radius against the first, or R - 1, R or R + 1.

use independent::calls::bytes;
use independent::cost::cost;
use independent::{Code, Plan, Reason};
use traymark_tests::calls::{answered, Arguments, Call, Outcome};
use traymark_tests::counts::Counts;
use traymark_tests::photo::{agreeing, photograph};
use traymark_tests::plans::{self, LARGE_OBLONGS, LARGE_SQUARES};
use traymark_tests::random::Random;

/// How many rows and columns from the first on have the same values in both marks, d at most together.
type Agreement = (usize, usize);

/// Every shape: none, as many rows as can be, as many columns, and some of both.
pub fn case(seed: u64, random: &mut Random, counts: &mut Counts) -> Result<(), String> {
    let plan = plans::plan(plans::shapes()[seed as usize], random);
    let d = plan.degree;
    let rows = random.below(d + 1);
    let some = (rows, random.below(d - rows + 1));
    for code in [Code::Strip, Code::Mark] {
        for agreement in [(0, 0), (d, 0), (0, d), some].into_iter().filter(|&agreement| is_of(code, agreement)) {
            expected_in_turn(code, &plan, agreement, random, counts)?;
        }
    }
    Ok(())
}

/// The plans that `large` goes through, each for strips and for marks.
pub const LARGE: u64 = 2 * (LARGE_SQUARES.len() + LARGE_OBLONGS.len()) as u64;

/// The largest plans, with every place at which two marks can first differ.
pub fn large(seed: u64, random: &mut Random, counts: &mut Counts) -> Result<(), String> {
    let code = [Code::Strip, Code::Mark][seed as usize % 2];
    let plan = plans::plan([&LARGE_SQUARES[..], &LARGE_OBLONGS].concat()[seed as usize / 2], random);
    let agreements = (0..=plan.degree).flat_map(|rows| (0..=plan.degree - rows).map(move |columns| (rows, columns)));
    for agreement in agreements.filter(|&agreement| is_of(code, agreement)) {
        expected_in_turn(code, &plan, agreement, random, counts)?;
    }
    Ok(())
}

/// A strip has one column, which is never the same in both.
fn is_of(code: Code, (_, columns): Agreement) -> bool {
    code == Code::Mark || columns == 0
}

/// Another record whose mark first differs behind so many rows and columns. In the rows below, the values that differ mostly
/// don't stand in rows and columns of their own, so that it shows in which order places are counted.
fn later(code: Code, plan: &Plan, record: &[u32], (rows, columns): Agreement, random: &mut Random) -> Vec<u32> {
    let Plan { row_points, column_points, degree, .. } = plan;
    let rival = agreeing(code, plan, record, [&row_points[..rows], &column_points[..columns]], random);
    if rows == *degree || random.one_in(3) {
        return rival;
    }
    let mut column_points = column_points.clone();
    random.shuffle(&mut column_points);
    let columns = match code {
        Code::Strip => 0,
        Code::Mark => random.below(degree - rows),
    };
    agreeing(code, plan, &rival, [&row_points[..=rows], &column_points[..columns]], random)
}

/// Photographs of a record at such costs: it is expected, and another whose mark agrees with its so far.
fn expected_in_turn(
    code: Code,
    plan: &Plan,
    agreement: Agreement,
    random: &mut Random,
    counts: &mut Counts,
) -> Result<(), String> {
    let record = plans::record(code, plan, random);
    let rival = later(code, plan, &record, agreement, random);
    let words = [&record, &rival].map(|record| code.word(plan, record));
    let place = agreement.0 * words[0].len() / plan.rows() + agreement.1;
    let radius = code.radius(plan);
    for target in [random.below(radius as usize) as u32, radius - 1, radius, radius + 1] {
        let photo = photograph(plan, &words[0], &words[1], target, random);
        let costs = words.each_ref().map(|word| cost(plan.full_doubt(), &photo.symbols, &photo.doubts, word));
        for (expected, costs, answer) in [(&record, costs, &rival), (&rival, [costs[1], costs[0]], &record)] {
            let Some(reason) = theory(radius, costs, place) else {
                continue;
            };
            let given = Arguments {
                code,
                plan: plan.bytes().to_vec(),
                record: bytes(expected),
                symbols: bytes(&photo.symbols),
                doubts: bytes(&photo.doubts),
                mark: Vec::new(),
                other: random.bytes(record.len()),
            };
            let outcome = answered(Call::Explain, &given, random, counts)?;
            if outcome != explained(reason, answer, &given) {
                return Err(format!("costs {costs:?}, place {place}, explained {outcome:?}; {given:?}"));
            }
        }
    }
    Ok(())
}

/// The reason where the expected record costs the first sum and the other the second: two records cost twice the radius
/// together at least. Where both cost more than the radius a third may be the answer.
fn theory(radius: u32, [expected, other]: [u32; 2], place: usize) -> Option<Reason> {
    if expected < radius {
        return Some(Reason::answer());
    }
    if other < radius {
        return Some(Reason::other(place));
    }
    (expected == radius || other == radius).then(|| Reason::nothing(expected - radius))
}

/// The outcome with that reason, the answer being the other record where there is one.
fn explained(reason: Reason, answer: &[u32], given: &Arguments) -> Outcome {
    let buffer = match reason.reason {
        2 => bytes(answer),
        _ => given.other.clone(),
    };
    Outcome::explained(reason, buffer)
}
