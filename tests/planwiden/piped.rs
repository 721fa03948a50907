//! Plans of the old form, widened by the one program and read with by the other: the photographs of their marks read as
//! they always did.

use crate::inputs::plan_a;
use independent::calls::bytes;
use independent::{Code, Plan, PLAN};
use std::process::Stdio;
use traymark_tests::plans;
use traymark_tests::program::{Input, Program};
use traymark_tests::random::Random;

/// Case c of document 01, in season 12 and in season 30, and clean marks of other plans of both ages, all widened in one run.
/// How many they were.
pub fn hold(planwiden: &Program, trayread: &Program) -> Result<usize, String> {
    let case_c = [[0, 1, 5, 0, 2, 6, 2, 4, 0], [0; 9]].concat();
    let told = |season: u16, printed: &str| Tray {
        plan: plans::with_season(&plan_a(), season),
        photo: case_c.clone(),
        printed: format!("{printed}\nRECORD 3 1 2\n"),
    };
    let mut trays = vec![told(12, "READ 12 2 0 1 400 200"), told(30, "READ 30 2 0 1 1000 500")];
    let shapes = [(2, 2, 1), (3, 1, 0), (5, 5, 3), (13, 9, 4), (101, 8, 3), (251, 16, 0), (251, 16, 7), (251, 16, 15)];
    for (seed, shape) in shapes.into_iter().enumerate() {
        let random = &mut Random::new(seed as u64);
        trays.extend(plans::seasons(random).map(|season| clean(season, shape, random)));
    }
    let old: Vec<u8> = trays.iter().flat_map(|tray| tray.plan.clone()).collect();
    let wide = printed(planwiden, old)?;
    if wide.len() != trays.len() * PLAN {
        return Err(format!("{} bytes for {} plans", wide.len(), trays.len()));
    }
    for (tray, plan) in trays.iter().zip(wide.chunks(PLAN)) {
        let answer = printed(trayread, [plan, &tray.photo].concat())?;
        if answer != tray.printed.as_bytes() {
            return Err(format!("{plan:?} read {:?}, not {:?}", String::from_utf8_lossy(&answer), tray.printed));
        }
    }
    Ok(trays.len())
}

/// A plan of the old form, symbols and doubts, and what is read.
struct Tray {
    plan: Vec<u8>,
    photo: Vec<u8>,
    printed: String,
}

/// A clean mark of any record; the shape is p, n and d.
fn clean(season: u16, (p, n, d): (u32, usize, usize), random: &mut Random) -> Tray {
    let plan = Plan { season, ..plans::square(p, n, d, random) };
    let record = plans::record(Code::Mark, &plan, random);
    let coefficients: Vec<String> = record.iter().map(u32::to_string).collect();
    let read = format!("READ {season} 0 0 0 0 {}\n", plan.full_doubt() as usize * n * (n - d));
    Tray {
        plan: plans::old(&plan),
        photo: [bytes(&Code::Mark.word(&plan, &record)), vec![0; n * n]].concat(),
        printed: format!("{read}RECORD {}\n", coefficients.join(" ")),
    }
}

fn printed(program: &Program, bytes: Vec<u8>) -> Result<Vec<u8>, String> {
    let output = program.run(&Input::new("", bytes, ""), Stdio::piped()).map_err(|error| error.to_string())?;
    Ok(output.stdout)
}
