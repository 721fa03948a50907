//! Random sound plans and records.

use crate::random::Random;
use independent::calls::bytes;
use independent::plan::is_prime;
use independent::{Code, Plan, OLD_PLAN};
use std::sync::LazyLock;

/// (p, rows, columns, d)
pub type Shape = (u32, usize, usize, usize);

/// The primes of the random plans.
pub const PRIMES: [u32; 9] = [2, 3, 5, 7, 11, 13, 101, 241, 251];

/// All primes that a plan can have, which are 54.
pub fn primes() -> impl Iterator<Item = u32> {
    (2..=251).filter(|&p| is_prime(p)).map(u32::from)
}

/// p 251: 16 by 16 cells with the lowest, a middle and the highest d, and oblongs about as long.
pub const LARGE_SQUARES: [Shape; 3] = [(251, 16, 16, 0), (251, 16, 16, 7), (251, 16, 16, 15)];
pub const LARGE_OBLONGS: [Shape; 4] = [(251, 16, 8, 7), (251, 8, 16, 7), (251, 16, 15, 14), (251, 15, 16, 7)];

/// Shapes of all sizes, for which a program is run: squares, oblongs, and a single row or column.
pub fn all_sizes() -> Vec<Shape> {
    let squares = [(2, 2, 2, 1), (3, 3, 3, 2), (5, 5, 5, 1), (13, 13, 13, 6), (101, 8, 8, 3), (241, 12, 12, 11)];
    let oblongs = [(2, 1, 2, 0), (3, 3, 2, 1), (5, 2, 5, 1), (13, 13, 4, 3), (101, 8, 3, 0), (241, 7, 12, 6)];
    let longest = [(251, 1, 16, 0), (251, 16, 1, 0)];
    [&squares[..], &LARGE_SQUARES, &oblongs, &LARGE_OBLONGS, &longest].concat()
}

/// Every p of `PRIMES` with every number of rows, of columns and every d, p rows or columns among them.
pub fn shapes() -> &'static [Shape] {
    static SHAPES: LazyLock<Vec<Shape>> = LazyLock::new(|| PRIMES.into_iter().flat_map(shapes_of).collect());
    &SHAPES
}

/// Those with as many columns as rows.
pub fn squares() -> &'static [Shape] {
    static SQUARES: LazyLock<Vec<Shape>> =
        LazyLock::new(|| shapes().iter().copied().filter(|&(_, rows, columns, _)| rows == columns).collect());
    &SQUARES
}

/// Every number of rows, of columns and every d of one p.
pub fn shapes_of(p: u32) -> impl Iterator<Item = Shape> {
    let sides = 1..=(p as usize).min(16);
    sides
        .clone()
        .flat_map(move |rows| sides.clone().map(move |columns| (rows, columns)))
        .flat_map(move |(rows, columns)| (0..rows.min(columns)).map(move |d| (p, rows, columns, d)))
}

/// A season before 30 and one from 30 on, each often the first or the last of its age. The low byte of a later one may be that of
/// an earlier season.
pub fn seasons(random: &mut Random) -> [u16; 2] {
    let earlier = random.between(0, 29);
    let low = 256 * random.between(1, 255) + earlier;
    let [soon, late] = [random.between(30, 255), random.between(256, 65_535)];
    let seasons = [random.pick(&[0, 29, earlier, earlier]), random.pick(&[30, 65_535, soon, late, low])];
    seasons.map(|season| season as u16)
}

/// Any season, of either age as often.
pub fn season(random: &mut Random) -> u16 {
    let seasons = seasons(random);
    random.pick(&seasons)
}

/// A plan of that shape with any season and any points; of a square often with the same points each way, as every plan
/// that was widened has them.
pub fn plan(shape: Shape, random: &mut Random) -> Plan {
    let (p, rows, columns, degree) = shape;
    if rows == columns && random.one_in(2) {
        return square(p, rows, degree, random);
    }
    let season = season(random);
    Plan { season, p, degree, row_points: points(p, rows, random), column_points: points(p, columns, random) }
}

/// A plan of any sides and degree; the seeds go through the primes.
pub fn of_every_prime(seed: u64, random: &mut Random) -> Plan {
    let p = primes().nth(seed as usize % primes().count()).expect("a prime of that place");
    let [rows, columns] = [0, 1].map(|_| random.between(1, p.min(16)) as usize);
    plan((p, rows, columns, random.below(rows.min(columns))), random)
}

/// A plan for the largest marks, 16 by 16 with p 251, of any degree.
pub fn largest(random: &mut Random) -> Plan {
    plan((251, 16, 16, random.below(16)), random)
}

/// A plan for a square with the same points each way.
pub fn square(p: u32, n: usize, degree: usize, random: &mut Random) -> Plan {
    let points = points(p, n, random);
    Plan { season: season(random), p, degree, row_points: points.clone(), column_points: points }
}

/// The plan of a square in the old form: season, p, n, d, points.
pub fn old(square: &Plan) -> Vec<u8> {
    let mut old = square.season.to_be_bytes().to_vec();
    old.extend([square.p as u8, square.rows() as u8, square.degree as u8]);
    old.extend(bytes(&square.row_points));
    old.resize(OLD_PLAN, 0);
    old
}

/// The bytes of a plan of season 12.
pub fn season_12(p: u32, degree: usize, row_points: &[u32], column_points: &[u32]) -> Vec<u8> {
    let [row_points, column_points] = [row_points, column_points].map(<[u32]>::to_vec);
    Plan { season: 12, p, degree, row_points, column_points }.bytes().to_vec()
}

/// The bytes of a plan with another season.
pub fn with_season(plan: &[u8], season: u16) -> Vec<u8> {
    [&season.to_be_bytes(), &plan[2..]].concat()
}

/// Plan A of document 01: season 12, p 7, points 1 2 4 each way, d 1.
pub fn plan_a() -> Vec<u8> {
    season_12(7, 1, &[1, 2, 4], &[1, 2, 4])
}

/// Any rising points; 0 is often among them.
fn points(p: u32, number: usize, random: &mut Random) -> Vec<u32> {
    let mut points: Vec<u32> = (0..p).collect();
    random.shuffle(&mut points);
    if random.one_in(2) {
        let zero = points.iter().position(|&point| point == 0).expect("0 is below p");
        points.swap(0, zero);
    }
    points.truncate(number);
    points.sort_unstable();
    points
}

/// Any record; often with few coefficients that are not 0.
pub fn record(code: Code, plan: &Plan, random: &mut Random) -> Vec<u32> {
    let sparse = random.one_in(4);
    let mut coefficient = |_| match sparse && !random.one_in(4) {
        true => 0,
        false => random.below(plan.p as usize) as u32,
    };
    (0..code.size(plan)).map(&mut coefficient).collect()
}
