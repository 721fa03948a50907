//! The cases of the program `example_strips`: `strips input` writes its standard input, strips at costs R - 1, R and R + 1
//! under plans of all numbers of columns and of both ages, and `strips output` what it must print, by the independent decoder.
//! `crates/example_strips` keeps both as its files stdin and stdout.
//!
//! A case is a plan, sixteen symbols and sixteen doubts, of which as many count as the plan has rows.

use independent::{read, write, Code, Plan, PLAN, UNREAD};
use std::io::Write;
use traymark_tests::random::Random;

const PRIMES: [u32; 4] = [2, 7, 13, 251];
const SIDES: [usize; 8] = [1, 2, 3, 5, 7, 11, 13, 16];
/// Every other one is before 30. The three costs go through all of them, as 3 does not divide 8.
const SEASONS: [u16; 8] = [12, 30, 29, 65_535, 0, 268, 1, 7_680];

const DOUBTS: usize = PLAN + 16;
const SIZE: usize = PLAN + 32;

fn main() {
    let word = std::env::args().nth(1);
    let mut random = Random::new(13);
    let mut out = std::io::stdout().lock();
    let mut number = 0;
    for p in PRIMES {
        for n in SIDES.into_iter().filter(|&n| n <= p as usize) {
            let mut degrees = vec![0, n / 2, n - 1];
            degrees.dedup();
            for d in degrees {
                for over in [-1, 0, 1] {
                    let columns = d + 1 + number % ((p as usize).min(16) - d);
                    let season = SEASONS[number % SEASONS.len()];
                    number += 1;
                    let case = case(&mut random, season, p, n, columns, d, over);
                    match word.as_deref() {
                        Some("input") => out.write_all(&case).unwrap(),
                        Some("output") => writeln!(out, "{}", line(&case, p, n, d)).unwrap(),
                        _ => panic!("input or output"),
                    }
                }
            }
        }
    }
}

/// A strip whose record costs the radius and `over`: as many sure wrong cells as fit, and doubts at right cells for the rest.
fn case(random: &mut Random, season: u16, p: u32, n: usize, columns: usize, d: usize, over: i32) -> [u8; SIZE] {
    let step = (p as usize / n).min(1 + random.below(15));
    let row_points = (0..n).map(|i| (i * step) as u32).collect();
    let column_points = (p - columns as u32..p).collect();
    let plan = Plan { season, p, degree: d, row_points, column_points };
    let full = plan.full_doubt() as i32;
    let record: Vec<u8> = (0..=d).map(|_| random.below(p as usize) as u8).collect();
    let mut case = [0; SIZE];
    case[..PLAN].copy_from_slice(&plan.bytes());
    let mut strip = vec![0; n];
    assert_eq!(write(Code::Strip, &plan.bytes(), &record, &mut strip), 0);
    let cost = full * (n - d) as i32 + over;
    let left = |wrong: i32| cost - 2 * full * wrong;
    let fits = |&wrong: &i32| (0..=full * (n as i32 - wrong)).contains(&left(wrong));
    let wrong = (0..=n as i32).rev().find(fits).unwrap_or(0);
    let mut rest = left(wrong);
    for c in 0..n {
        if (c as i32) < wrong {
            strip[c] = ((u32::from(strip[c]) + 1 + random.below(p as usize - 1) as u32) % p) as u8;
            continue;
        }
        let most = random.pick(&[full - 1, full]);
        let least = rest - full * (n as i32 - 1 - c as i32);
        let doubt = rest.min(most).max(least).min(full);
        case[DOUBTS + c] = doubt as u8;
        rest -= doubt;
        if doubt == full && random.below(2) == 0 {
            strip[c] = UNREAD as u8;
        }
    }
    case[PLAN..PLAN + n].copy_from_slice(&strip);
    case
}

fn line(case: &[u8; SIZE], p: u32, n: usize, d: usize) -> String {
    let mut record = vec![0; d + 1];
    let r = read(Code::Strip, &case[..PLAN], &case[PLAN..PLAN + n], &case[DOUBTS..DOUBTS + n], &mut record);
    let coefficients: Vec<String> = record.iter().map(u8::to_string).collect();
    let sums = format!("D {}, margin {}", r.cost, r.margin);
    let counts = format!("changed {}, unread {}, class {}", r.changed, r.unread, r.class);
    format!("p {p} n {n} d {d}: number {}, {sums}, {counts}, {}", r.number, coefficients.join(" "))
}
