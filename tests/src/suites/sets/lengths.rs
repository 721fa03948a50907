//! The buffers of the calls on sets, empty, one short, one long, and far too long: also by 256 and by 65,536, which a length in
//! one byte or in two would not show, and 1 MiB.

use super::accepted;
use crate::suites::faults::{arguments, sound};
use crate::suites::lengths::{doubts, plan, record, symbols, Choose};
use independent::Code;
use traymark_tests::counts::Counts;
use traymark_tests::plans::largest;
use traymark_tests::random::Random;
use traymark_tests::sets::{hold, SetCall};

/// Each buffer of every length to a little above its own, and some others. Where it is its own the call is accepted. The first
/// case has one of the largest marks.
pub fn case(seed: u64, random: &mut Random, counts: &mut Counts) -> Result<(), String> {
    let (by, lent) = match seed {
        0 => {
            let largest = largest(random);
            let lent = arguments(Code::Mark, &largest, random);
            (largest, lent)
        }
        _ => sound(Code::Mark, random),
    };
    let given = accepted(&by, &lent, random);
    let buffers: [(Choose, &[SetCall]); 4] = [
        (plan, &[SetCall::Start]),
        (symbols, &[SetCall::Add, SetCall::Combine]),
        (doubts, &[SetCall::Add, SetCall::Combine]),
        (record, &[SetCall::Read]),
    ];
    for (choose, calls) in buffers {
        let own = choose(&mut given.lent.clone()).len();
        let far = [2 * own, 256, 1000, own + (1 << 8), own + (1 << 16), 1 << 20];
        for length in (0..own + 10).chain(far) {
            let mut given = given.clone();
            choose(&mut given.lent).resize(length, 0);
            for &call in calls {
                let number = hold(call, &given, random, counts)?.0.number;
                if (number == 0) != (length == own) {
                    return Err(format!("{call:?} gave {number} with {length} bytes, {own} being right"));
                }
            }
        }
    }
    Ok(())
}
