//! The inputs: plans of the old form, sound or not, few or many, and other bytes; what they are to print is worked out here
//! for plan A and by the independent widening for the others.

use independent::{OLD_PLAN, PLAN};
use traymark_tests::program::Input;
use traymark_tests::random::Random;

pub fn inputs() -> Vec<Input> {
    let mut inputs = vec![Input::new("nothing", Vec::new(), ""), Input::new("plan A", plan_a(), wide_plan_a())];
    inputs.push(Input { pieces: OLD_PLAN, ..Input::new("plan A byte by byte", plan_a(), wide_plan_a()) });
    inputs.extend(numbers());
    inputs.extend(lengths());
    inputs.extend(each_byte());
    inputs.extend(rubbish());
    inputs
}

/// Plan A of document 01: season 12, p 7, points 1 2 4, d 1.
pub fn plan_a() -> Vec<u8> {
    let mut plan = vec![0, 12, 7, 3, 1, 1, 2, 4];
    plan.resize(OLD_PLAN, 0);
    plan
}

/// The same with rows and columns.
fn wide_plan_a() -> Vec<u8> {
    let mut plan = vec![0; PLAN];
    plan[..9].copy_from_slice(&[0, 12, 7, 3, 3, 1, 1, 2, 4]);
    plan[22..25].copy_from_slice(&[1, 2, 4]);
    plan
}

fn input(name: String, bytes: Vec<u8>) -> Input {
    let mut wide = vec![0; bytes.len() / OLD_PLAN * PLAN];
    let printed = match independent::widen_plans(&bytes, &mut wide) {
        0 => wide,
        number => format!("REFUSED {number}\n").into_bytes(),
    };
    Input::new(name, bytes, printed)
}

/// Few plans, as many as it takes, and more, of any bytes; some in pieces.
fn numbers() -> Vec<Input> {
    let mut inputs = Vec::new();
    for (k, plans) in [1, 2, 3, 10, 500, 999, 1_000, 1_001, 1_002, 2_000, 3_000, 100_000].into_iter().enumerate() {
        for pieces in [1, 7] {
            let bytes = Random::new(k as u64).bytes(plans * OLD_PLAN);
            inputs.push(Input { pieces, ..input(format!("{plans} plans in {pieces} pieces"), bytes) });
        }
    }
    inputs
}

/// Every length up to some plans, and lengths around the most that it takes and far beyond.
fn lengths() -> Vec<Input> {
    let bytes = Random::new(100).bytes(1_000_001);
    let most = 1_000 * OLD_PLAN;
    let around = [most - OLD_PLAN + 1, most - 1, most + 1, most + 12, most + 23, most + 25, 40_000, 65_536, 1_000_001];
    let lengths = (0..=5 * OLD_PLAN).chain(around);
    lengths.map(|length| input(format!("{length} bytes"), bytes[..length].to_vec())).collect()
}

/// Plan A with each byte 255: no plan is checked.
fn each_byte() -> Vec<Input> {
    let changed = |place: usize| {
        let mut plan = plan_a();
        plan[place] = 255;
        input(format!("plan A with byte {place} 255"), plan)
    };
    (0..OLD_PLAN).map(changed).collect()
}

/// Any bytes of any length, every other time of a length that plans have.
fn rubbish() -> Vec<Input> {
    let bytes = |seed: u64| {
        let random = &mut Random::new(1_000 + seed);
        let length = match seed % 2 {
            0 => random.below(1_200) * OLD_PLAN,
            _ => random.below(1_200 * OLD_PLAN),
        };
        input(format!("random bytes {seed}"), random.bytes(length))
    };
    (0..40).map(bytes).collect()
}
