//! Each cell that masking and unmasking leave: every symbol with every value of every prime, and any bytes there and back.

use crate::suites::rubbish;
use independent::calls::bytes;
use independent::{Code, UNREAD};
use traymark_tests::calls::{hold, Arguments, Call};
use traymark_tests::counts::Counts;
use traymark_tests::plans;
use traymark_tests::random::Random;

/// Every symbol and 255, as many at a time as there are cells, with every value: under degree 0 a record has its one coefficient
/// in all cells. The seed is a prime's place among the primes.
pub fn values(seed: u64, random: &mut Random, counts: &mut Counts) -> Result<(), String> {
    let p = plans::primes().nth(seed as usize).expect("so many primes");
    let side = p.min(16) as usize;
    for code in [Code::Strip, Code::Mark] {
        let plan = plans::plan((p, side, side, 0), random);
        let mut symbols: Vec<u32> = (0..p).chain([UNREAD]).collect();
        random.shuffle(&mut symbols);
        symbols.resize(symbols.len().next_multiple_of(code.cells(&plan)), UNREAD);
        for value in 0..p {
            let masked = symbols.iter().map(|&symbol| match symbol {
                UNREAD => UNREAD,
                _ if symbol < p - value => symbol + value,
                _ => symbol - (p - value),
            });
            let masked: Vec<u32> = masked.collect();
            let cells = code.cells(&plan);
            for (symbols, masked) in symbols.chunks(cells).zip(masked.chunks(cells)) {
                let given = Arguments::on_plan(code, &plan.bytes());
                let given = Arguments { record: vec![value as u8], symbols: bytes(symbols), ..given };
                let left = there_and_back([Call::Mask, Call::Unmask], &given, random, counts)?;
                if left != bytes(masked) {
                    return Err(format!("masked {left:?}, expected {masked:?}; {given:?}"));
                }
            }
        }
    }
    Ok(())
}

/// Any record of plans of every prime, put on any symbols and taken off again; and the other way.
pub fn every_prime(seed: u64, random: &mut Random, counts: &mut Counts) -> Result<(), String> {
    let plan = plans::of_every_prime(seed, random);
    for code in [Code::Strip, Code::Mark] {
        let record = bytes(&plans::record(code, &plan, random));
        let symbol = |_| if random.one_in(8) { UNREAD } else { random.between(0, plan.p - 1) };
        let symbols = bytes(&(0..code.cells(&plan)).map(symbol).collect::<Vec<u32>>());
        let given = Arguments { record, symbols, ..Arguments::on_plan(code, &plan.bytes()) };
        both_ways(&given, random, counts)?;
    }
    Ok(())
}

/// Any bytes, masked and then unmasked, and the other way.
pub fn undone(_: u64, random: &mut Random, counts: &mut Counts) -> Result<(), String> {
    both_ways(&rubbish::arguments(random), random, counts)
}

fn both_ways(given: &Arguments, random: &mut Random, counts: &mut Counts) -> Result<(), String> {
    there_and_back([Call::Mask, Call::Unmask], given, random, counts)?;
    there_and_back([Call::Unmask, Call::Mask], given, random, counts)?;
    Ok(())
}

/// What the first call leaves. The second makes the symbols of it that they were, and has the same number.
fn there_and_back(
    [there, back]: [Call; 2],
    given: &Arguments,
    random: &mut Random,
    counts: &mut Counts,
) -> Result<Vec<u8>, String> {
    let left = hold(there, given, random, counts)?;
    let changed = Arguments { symbols: left.buffer.clone(), ..given.clone() };
    let undone = hold(back, &changed, random, counts)?;
    if undone.reading.number != left.reading.number || undone.buffer != given.symbols {
        return Err(format!("{there:?} gave {left:?}, and then {back:?} {undone:?}; {given:?}"));
    }
    Ok(left.buffer)
}
