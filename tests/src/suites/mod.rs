//! The suites. Each case is made from its seed alone.

mod ages;
mod coefficients;
mod decoding;
mod documented;
mod explaining;
mod extremes;
mod faults;
mod files;
mod finer;
mod lengths;
mod masks;
mod plans;
mod rows;
mod rubbish;
mod seasons;
mod sets;
mod swapped;
mod widening;

use traymark_tests::plans::{primes, shapes, shapes_of};
use traymark_tests::run::Suite;

pub fn all() -> Vec<Suite> {
    let shapes = shapes().len() as u64;
    vec![
        Suite { name: "documented", cases: documented::CASES, case: documented::case },
        Suite { name: "finer", cases: finer::CASES, case: finer::case },
        Suite { name: "pairs", cases: finer::PAIRS, case: finer::pair },
        Suite { name: "every-season", cases: 256, case: finer::every_season },
        Suite { name: "ages", cases: shapes, case: ages::case },
        Suite { name: "extremes", cases: extremes::shapes().len() as u64, case: extremes::case },
        Suite { name: "coefficients", cases: shapes_of(251).count() as u64, case: coefficients::case },
        Suite { name: "explaining", cases: shapes, case: explaining::case },
        Suite { name: "explaining-large", cases: explaining::LARGE, case: explaining::large },
        Suite { name: "large-marks", cases: 3_000, case: decoding::large_mark },
        Suite { name: "marks", cases: 36_000, case: decoding::mark },
        Suite { name: "oblongs", cases: decoding::COSTS * shapes, case: decoding::oblong },
        Suite { name: "swapped", cases: 4_000, case: swapped::case },
        Suite { name: "strips", cases: 60_000, case: decoding::strip },
        Suite { name: "every-prime", cases: 54 * 20, case: decoding::every_prime },
        Suite { name: "plan-fields", cases: 256, case: plans::fields },
        Suite { name: "plan-bytes", cases: plans::PLANS, case: plans::bytes },
        Suite { name: "files", cases: 20_000, case: files::case },
        Suite { name: "placed", cases: files::PLACED, case: files::placed },
        Suite { name: "widening", cases: widening::CASES, case: widening::numbers },
        Suite { name: "widened-bytes", cases: widening::PLANS, case: widening::bytes },
        Suite { name: "seasons", cases: seasons::documented::CASES, case: seasons::documented::case },
        Suite { name: "season-days", cases: seasons::days::YEARS, case: seasons::days::year },
        Suite { name: "season-dates", cases: seasons::days::YEARS_AROUND, case: seasons::days::dates },
        Suite { name: "season-far-dates", cases: 300, case: seasons::days::far },
        Suite { name: "season-numbers", cases: 256, case: seasons::days::every_season },
        Suite { name: "season-files", cases: 10_000, case: seasons::files::case },
        Suite { name: "season-bytes", cases: seasons::files::PLACES, case: seasons::files::bytes },
        Suite { name: "season-lengths", cases: seasons::files::LENGTHS, case: seasons::files::lengths },
        Suite { name: "season-faults", cases: 100, case: seasons::faults::case },
        Suite { name: "masks", cases: masks::documented::CASES, case: masks::documented::case },
        Suite { name: "mask-values", cases: primes().count() as u64, case: masks::cells::values },
        Suite { name: "mask-primes", cases: 54 * 40, case: masks::cells::every_prime },
        Suite { name: "mask-seasons", cases: 256, case: masks::documented::every_season },
        Suite { name: "mask-undone", cases: 20_000, case: masks::cells::undone },
        Suite { name: "masked", cases: shapes, case: masks::photographs::masked },
        Suite { name: "printed", cases: shapes, case: masks::photographs::printed },
        Suite { name: "sets", cases: sets::documented::CASES, case: sets::documented::case },
        Suite { name: "set-votes", cases: sets::votes::CASES, case: sets::votes::case },
        Suite { name: "set-histories", cases: 400, case: sets::histories::case },
        Suite { name: "set-seasons", cases: 256, case: sets::documented::every_season },
        Suite { name: "set-bytes", cases: 10_000, case: sets::bytes::case },
        Suite { name: "set-changed", cases: 40, case: sets::bytes::changed },
        Suite { name: "set-lengths", cases: 40, case: sets::lengths::case },
        Suite { name: "set-refused", cases: sets::refused::CASES, case: sets::refused::case },
        Suite { name: "set-faults", cases: 10, case: sets::faults::case },
        Suite { name: "faults-alone", cases: 1_000, case: faults::alone },
        Suite { name: "faults-largest", cases: 140, case: faults::largest },
        Suite { name: "faults-together", cases: 20_000, case: faults::together },
        Suite { name: "faults-in-plans", cases: 300, case: faults::in_plans },
        Suite { name: "lengths", cases: 400, case: lengths::case },
        Suite { name: "lengths-far", cases: 20, case: lengths::far },
        Suite { name: "rubbish", cases: 20_000, case: rubbish::case },
    ]
}
