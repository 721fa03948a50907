//! Random bytes as plans, records and photographs, of any length or of the right one, and photographs of nothing.

use independent::calls::bytes;
use independent::{Code, Plan, PLAN};
use traymark_tests::calls::{hold, Arguments, Call};
use traymark_tests::counts::Counts;
use traymark_tests::photo::noise;
use traymark_tests::plans::{plan, shapes};
use traymark_tests::random::Random;

pub fn case(_: u64, random: &mut Random, counts: &mut Counts) -> Result<(), String> {
    let given = arguments(random);
    for call in Call::ALL {
        hold(call, &given, random, counts)?;
    }
    Ok(())
}

/// The right lengths for a mark by that plan, the plan too, and any bytes in them.
pub fn on(plan: &Plan, random: &mut Random) -> Arguments {
    of_right_length(Code::Mark, plan, plan.bytes().to_vec(), random)
}

/// Any bytes, for all buffers or for some.
pub fn arguments(random: &mut Random) -> Arguments {
    let code = random.pick(&[Code::Strip, Code::Mark]);
    let sound = plan(random.pick(shapes()), random);
    match random.below(4) {
        0 => of_any_length(code, random),
        1 => of_right_length(code, &sound, random.bytes(PLAN), random),
        2 => of_right_length(code, &sound, sound.bytes().to_vec(), random),
        _ => {
            let photo = noise(code, &sound, random);
            let [symbols, doubts] = [photo.symbols, photo.doubts].map(|numbers| bytes(&numbers));
            Arguments { symbols, doubts, ..of_right_length(code, &sound, sound.bytes().to_vec(), random) }
        }
    }
}

fn of_any_length(code: Code, random: &mut Random) -> Arguments {
    let any = random.below(300);
    let plan_length = random.pick(&[PLAN, PLAN, PLAN - 1, PLAN + 1, any]);
    let plan = random.bytes(plan_length);
    let [record, symbols, doubts, mark, other] = [300; 5].map(|bound| {
        let length = random.below(bound);
        random.bytes(length)
    });
    Arguments { code, plan, record, symbols, doubts, mark, other }
}

/// Bytes near the bounds of p and of the doubts of either age are frequent; the others are mostly below p, doubts at most the
/// full doubt.
fn of_right_length(code: Code, sound: &Plan, plan: Vec<u8>, random: &mut Random) -> Arguments {
    let p = sound.p as u8;
    let mut any = |length: usize, most: u32| -> Vec<u8> {
        let byte = |_| match random.below(16) {
            0 => random.pick(&[0, p - 1, p, 99, 100, 101, 249, 250, 251, 254, 255]),
            1 => random.byte(),
            _ => random.between(0, most) as u8,
        };
        (0..length).map(byte).collect()
    };
    let (cells, size) = (code.cells(sound), code.size(sound));
    let doubts = any(cells, sound.full_doubt());
    let [record, symbols, mark, other] = [size, cells, cells, size].map(|length| any(length, sound.p - 1));
    Arguments { code, plan, record, symbols, doubts, mark, other }
}
