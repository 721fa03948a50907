//! Checking plans: every p with many rows, columns and d, and every value of every byte of sound plans.

use independent::{Code, PLAN};
use traymark_tests::calls::{hold, Arguments, Call};
use traymark_tests::counts::Counts;
use traymark_tests::plans::{plan, shapes};
use traymark_tests::random::Random;

/// Sides within their bounds and beyond them.
const SIDES: [u8; 14] = [0, 1, 2, 3, 4, 7, 8, 11, 15, 16, 17, 20, 64, 255];

/// The seed is p; rows, columns and d go beyond their bounds. The points are 0, 1, 2, .. or the highest below p.
pub fn fields(seed: u64, random: &mut Random, counts: &mut Counts) -> Result<(), String> {
    let p = seed as u8;
    for rows in SIDES {
        for columns in SIDES {
            for d in [0, 1, rows.wrapping_sub(1), rows, columns.wrapping_sub(1), columns, 255] {
                let from_0 = random.one_in(2);
                let points = |n: u8| {
                    let first = if from_0 { 0 } else { p.saturating_sub(n) };
                    let mut points: Vec<u8> = (0..n.min(16)).map(|k| first.wrapping_add(k)).collect();
                    points.resize(16, 0);
                    points
                };
                let fields = [random.byte(), random.byte(), p, rows, columns, d];
                let bytes = [&fields[..], &points(rows), &points(columns), &[0, 0]].concat();
                hold(Call::Check, &Arguments::on_plan(Code::Mark, &bytes), random, counts)?;
            }
        }
    }
    Ok(())
}

/// How many plans every value of every byte is tried with.
pub const PLANS: u64 = 40;

/// Every value of every byte.
pub fn bytes(seed: u64, random: &mut Random, counts: &mut Counts) -> Result<(), String> {
    let shapes = shapes();
    let sound = plan(shapes[seed as usize * shapes.len() / PLANS as usize], random).bytes();
    for place in 0..PLAN {
        for value in 0..=255 {
            let mut bytes = sound.to_vec();
            bytes[place] = value;
            let number = hold(Call::Check, &Arguments::on_plan(Code::Mark, &bytes), random, counts)?.reading.number;
            if place < 2 && number != 0 || place > 37 && (number == 1) != (value != 0) {
                return Err(format!("byte {place} of {sound:?} set to {value} gave {number}"));
            }
        }
    }
    Ok(())
}
