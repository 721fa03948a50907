//! Doubts in 250ths, from season 30 on, worked out by hand: document 01's cases restated, the bounds of the doubts, the largest
//! sums; and the same bytes but for the season, which read otherwise before season 30 and from it on.

use super::rows::Why::{Answer, Nothing, Other, Refused};
use super::rows::*;
use independent::Code::{self, Mark, Strip};
use std::array::from_fn;
use std::ops::Range;
use traymark_tests::counts::Counts;
use traymark_tests::random::Random;

pub const CASES: u64 = 73;

/// Rows of seasons from 30 on.
pub fn case(seed: u64, random: &mut Random, counts: &mut Counts) -> Result<(), String> {
    let rows: Vec<Row> =
        [lettered(), oblongs(), strips(), largest(), around_16_bits(), explanations()].into_iter().flatten().collect();
    if rows.len() as u64 != CASES {
        return Err(format!("there are {} rows", rows.len()));
    }
    rows[seed as usize].hold_at(&LATER, random, counts)
}

/// The same bytes before season 30, and from it on.
type Pair = [Row; 2];

pub const PAIRS: u64 = 39;

/// Each pair with seasons of both ages.
pub fn pair(seed: u64, random: &mut Random, counts: &mut Counts) -> Result<(), String> {
    let pairs: Vec<Pair> = [telling(), doubts(), another_answer()].into_iter().flatten().collect();
    if pairs.len() as u64 != PAIRS {
        return Err(format!("there are {} pairs", pairs.len()));
    }
    let [earlier, later] = &pairs[seed as usize];
    earlier.hold_at(&EARLIER, random, counts)?;
    later.hold_at(&LATER, random, counts)
}

/// Every season, a case for each high byte.
pub fn every_season(seed: u64, random: &mut Random, counts: &mut Counts) -> Result<(), String> {
    for [earlier, later] in telling() {
        for low in 0..=255 {
            let season = u16::from_be_bytes([seed as u8, low]);
            let row = if season < 30 { &earlier } else { &later };
            row.answer_at(season, random, counts)?;
        }
    }
    Ok(())
}

/// Cases a to l of document 01.
#[rustfmt::skip]
fn lettered() -> Vec<Row> {
    let (plan_a, plan_h, plan_j) = (plan_a(), plan_h(), plan_j());
    let (unread_5, unread_6) = (unread(MARK, 0..5), unread(MARK, 0..6));
    let wrong_and_unread = unread([0, 1, 5, 0, 2, 6, 2, 4, 1], 1..2);
    vec![
        write(Mark, &plan_a, &[3, 1, 2], 9, Ok(&MARK)), // a
        read(Mark, &plan_a, &MARK, &SURE, Ok((&[3, 1, 2], [0, 1_500, 0, 0, 0]))), // b
        read(Mark, &plan_a, &CASE_C, &SURE, Ok((&[3, 1, 2], [1_000, 500, 2, 0, 1]))), // c
        read(Mark, &plan_a, &CASE_D, &SURE, Err((10, 3))), // d
        read(Mark, &plan_a, &CASE_D, &CASE_E, Ok((&[3, 1, 2], [1_497, 3, 3, 0, 1]))), // e
        read(Mark, &plan_a, &unread_5.0, &unread_5.1, Ok((&[3, 1, 2], [1_250, 250, 0, 5, 0]))), // f
        read(Mark, &plan_a, &unread_6.0, &unread_6.1, Err((10, 3))), // g
        read(Mark, &plan_h, &[1], &[249], Ok((&[1], [249, 1, 0, 0, 0]))), // h
        read(Mark, &plan_h, &[1], &[250], Err((10, 1))), // i
        read(Mark, &plan_j, &[1, 0, 0, 0], &[0; 4], Err((10, 3))), // j
        measure(Mark, &plan_j, &[0, 0, 0], &[1, 0, 0, 0], &[0; 4], [500, 0, 1, 0, 1]),
        measure(Mark, &plan_j, &[1, 1, 0], &[1, 0, 0, 0], &[0; 4], [500, 0, 1, 0, 1]),
        measure(Mark, &plan_a, &[3, 1, 2], &CASE_D, &SURE, [1_500, 0, 3, 0, 1]), // k
        check(&plan(9, 3, 1, &[1, 2, 4]), 2), // l
        check(&plan(7, 3, 3, &[1, 2, 4]), 4),
        check(&plan(7, 3, 1, &[1, 1, 4]), 5),
        // a cell wrong and a cell unread at once
        read(Mark, &plan_a, &wrong_and_unread.0, &wrong_and_unread.1, Ok((&[3, 1, 2], [750, 750, 1, 1, 1]))),
        measure(Mark, &plan_a, &[0, 0, 0], &wrong_and_unread.0, &wrong_and_unread.1, [3_250, -1_750, 6, 1, 2]),
    ]
}

/// Oblong marks, whose radius is 750.
#[rustfmt::skip]
fn oblongs() -> Vec<Row> {
    let (w, t) = (plan_w(), plan_t());
    let half_at_radius = unread([0, 2, 0, 4, 3, 0], 5..6);
    vec![
        read(Mark, &w, &[4, 1, 0, 6, 3, 2], &[0; 6], Ok((&[3, 1, 2], [0, 750, 0, 0, 0]))),
        read(Mark, &t, &[5, 2, 0, 4, 3, 0], &[0; 6], Ok((&[3, 1, 2], [0, 750, 0, 0, 0]))),
        read(Mark, &w, &[4, 1, 0, 6, 3, 4], &[249, 0, 0, 0, 0, 0], Ok((&[3, 1, 2], [749, 1, 1, 0, 1]))),
        read(Mark, &w, &[4, 1, 0, 6, 3, 4], &[250, 0, 0, 0, 0, 0], Err((10, 3))),
        read(Mark, &t, &[5, 4, 0, 4, 3, 0], &[0, 0, 0, 0, 249, 0], Ok((&[3, 1, 2], [749, 1, 1, 0, 1]))),
        read(Mark, &t, &[5, 4, 0, 4, 3, 0], &[0, 0, 0, 0, 250, 0], Err((10, 3))),
        measure(Mark, &t, &[3, 1, 2], &[4, 1, 0, 6, 3, 2], &[0; 6], [2_000, -1_250, 4, 0, 2]),
        read(Mark, &t, &half_at_radius.0, &half_at_radius.1, Err((10, 3))),
        measure(Mark, &t, &[3, 1, 2], &half_at_radius.0, &half_at_radius.1, [750, 0, 1, 1, 1]),
    ]
}

/// Strips: the radius is 500 by plans A and T, 250 by W, and 750 by plan A with degree 0.
#[rustfmt::skip]
fn strips() -> Vec<Row> {
    let (plan_a, w, t) = (plan_a(), plan_w(), plan_t());
    let plan_d0 = plan(7, 3, 0, &[1, 2, 4]);
    vec![
        write(Strip, &plan_a, &[3, 1], 3, Ok(&[4, 5, 0])),
        read(Strip, &plan_a, &[4, 5, 255], &[0, 0, 250], Ok((&[3, 1], [250, 250, 0, 1, 0]))),
        read(Strip, &plan_a, &[4, 5, 1], &[0, 0, 1], Ok((&[3, 1], [499, 1, 1, 0, 1]))),
        read(Strip, &plan_a, &[4, 5, 1], &[0, 0, 0], Err((10, 2))),
        measure(Strip, &plan_a, &[3, 1], &[4, 5, 1], &[0, 0, 0], [500, 0, 1, 0, 1]),
        measure(Strip, &plan_a, &[0, 0], &[4, 5, 0], &[0, 0, 50], [1_050, -550, 2, 0, 1]),
        read(Strip, &plan_d0, &[5, 255, 4], &[0, 250, 1], Ok((&[5], [749, 1, 1, 1, 1]))),
        read(Strip, &plan_d0, &[5, 255, 4], &[0, 250, 0], Err((10, 1))),
        read(Strip, &w, &[4, 6], &[0, 249], Ok((&[3, 1], [249, 1, 0, 0, 0]))),
        read(Strip, &w, &[4, 6], &[0, 250], Err((10, 2))),
        read(Strip, &t, &[3, 5, 255], &[0, 0, 250], Ok((&[3, 1], [250, 250, 0, 1, 0]))),
        read(Strip, &t, &[3, 5, 255], &[0, 0, 249], Err((8, 2))),
        read(Strip, &t, &[3, 5, 1], &[0, 0, 251], Err((8, 2))),
    ]
}

/// The largest sums: 16 by 16 cells, all wrong, all unread, all in doubt, and all but one.
#[rustfmt::skip]
fn largest() -> Vec<Row> {
    let one_read = unread([7; 256], 1..256);
    let one_in_doubt = from_fn::<u8, 256, _>(|cell| if cell == 0 { 249 } else { 250 });
    let few_read = unread(from_fn::<u8, 256, _>(|cell| if cell < 16 { 8 } else { 7 }), 33..256);
    vec![
        read(Mark, &plan_16(0), &[7; 256], &[0; 256], Ok((&[7], [0, 64_000, 0, 0, 0]))),
        measure(Mark, &plan_16(15), &[0; 136], &[7; 256], &[0; 256], [128_000, -124_000, 256, 0, 3]),
        measure(Mark, &plan_16(0), &[0], &[7; 256], &[0; 256], [128_000, -64_000, 256, 0, 3]),
        measure(Mark, &plan_16(15), &[0; 136], &[255; 256], &[250; 256], [64_000, -60_000, 0, 256, 0]),
        measure(Mark, &plan_16(0), &[7], &[7; 256], &[250; 256], [64_000, 0, 0, 0, 0]),
        measure(Mark, &plan_16(0), &[0], &[7; 256], &[250; 256], [64_000, 0, 256, 0, 3]),
        read(Mark, &plan_16(0), &[7; 256], &[250; 256], Err((10, 1))),
        read(Mark, &plan_16(0), &[255; 256], &[250; 256], Err((10, 1))),
        read(Mark, &plan_16(0), &[7; 256], &[249; 256], Ok((&[7], [63_744, 256, 0, 0, 0]))),
        read(Mark, &plan_16(0), &one_read.0, &one_read.1, Ok((&[7], [63_750, 250, 0, 255, 0]))),
        read(Mark, &plan_16(0), &one_read.0, &one_in_doubt, Ok((&[7], [63_999, 1, 0, 255, 0]))),
        read(Mark, &plan_16(0), &few_read.0, &few_read.1, Ok((&[7], [63_750, 250, 16, 223, 3]))),
        measure(Strip, &plan_16(15), &[0; 16], &[7; 16], &[0; 16], [8_000, -7_750, 16, 0, 3]),
        measure(Strip, &plan_16(15), &[0; 16], &[255; 16], &[250; 16], [4_000, -3_750, 0, 16, 0]),
        read(Strip, &plan_16(0), &[7; 16], &[249; 16], Ok((&[7], [3_984, 16, 0, 0, 0]))),
    ]
}

/// Costs and margins where 16 bits end, of the record 7 under 16 by 16 cells with degree 0 and a radius of 64,000.
fn around_16_bits() -> Vec<Row> {
    // so many cells are wrong and sure, the others right, and the last two have these doubts
    let measured = |wrong: usize, last: [u8; 2], answer: [i32; 2]| {
        let symbols = from_fn::<u8, 256, _>(|cell| if cell < wrong { 8 } else { 7 });
        let mut doubts = [0; 256];
        doubts[254..].copy_from_slice(&last);
        let [cost, margin] = answer;
        measure(Mark, &plan_16(0), &[7], &symbols, &doubts, [cost, margin, wrong as i32, 0, 3])
    };
    vec![
        measured(131, [0, 35], [65_535, -1_535]),
        measured(131, [0, 36], [65_536, -1_536]),
        measured(62, [0, 232], [31_232, 32_768]),
        measured(62, [0, 233], [31_233, 32_767]),
        measured(193, [250, 18], [96_768, -32_768]),
        measured(193, [250, 19], [96_769, -32_769]),
    ]
}

#[rustfmt::skip]
fn explanations() -> Vec<Row> {
    let (a, w) = (plan_a(), plan_w());
    let plan_h = plan_h();
    let halves = from_fn::<u8, 256, _>(|cell| if cell < 128 { 8 } else { 7 });
    let eight_8s = from_fn::<u8, 256, _>(|cell| if cell < 8 { 8 } else { 7 });
    vec![
        // cases d, h and i
        explain(Mark, &a, &[1, 0, 0], &CASE_D, &SURE, Nothing(2_500)),
        explain(Mark, &plan_h, &[0], &[1], &[249], Other(&[1], 0)),
        explain(Mark, &plan_h, &[0], &[1], &[250], Nothing(0)),
        // one beyond the radius
        explain(Mark, &w, &[3, 1, 2], &[4, 1, 0, 6, 3, 4], &[250, 1, 0, 0, 0, 0], Nothing(1)),
        // the largest: half the cells wrong, all of them, the largest excess
        explain(Mark, &plan_16(0), &[7], &halves, &[0; 256], Nothing(0)),
        explain(Mark, &plan_16(0), &[0], &halves, &[0; 256], Nothing(64_000)),
        explain(Mark, &plan_16(15), &[0; 136], &eight_8s, &[0; 256], Nothing(124_000)),
        explain(Strip, &plan_16(15), &[0; 16], &[255; 16], &[250; 16], Nothing(3_750)),
        // refusals: 7 before 8, and 8 before 9
        explain(Mark, &a, &[3, 1, 7], &[7; 9], &[251; 9], Refused(7)),
        explain(Mark, &a, &[3, 1, 7], &CASE_D, &[251; 9], Refused(8)),
        explain(Mark, &a, &[3, 1, 7], &CASE_D, &[250; 9], Refused(9)),
        explain(Strip, &a, &[3, 7], &[4, 5, 255], &[0, 0, 249], Refused(8)),
    ]
}

/// One pair for each of reading, measuring and explaining, marks and strips, and for each way in which the ages differ.
fn telling() -> Vec<Pair> {
    let a = plan_a();
    let six_doubts = [100, 100, 100, 100, 100, 100, 0, 0, 0];
    vec![
        // six right cells in doubt 100: 600 of 600, and of 1,500
        read_pair(Mark, &a, &MARK, &six_doubts, Err((10, 3)), Ok((&[3, 1, 2], [600, 900, 0, 0, 0]))),
        [[600, 0, 3, 0, 1], [1_500, 0, 3, 0, 1]].map(|said| measure(Mark, &a, &[3, 1, 2], &CASE_D, &SURE, said)),
        [Nothing(400), Nothing(1_000)].map(|said| explain(Mark, &a, &[0, 0, 0], &CASE_D, &SURE, said)),
        // two right cells in doubt 100: 200 of 200, and of 500
        read_pair(Strip, &a, &[4, 5, 0], &[100, 100, 0], Err((10, 2)), Ok((&[3, 1], [200, 300, 0, 0, 0]))),
        [[200, 0, 1, 0, 1], [500, 0, 1, 0, 1]].map(|said| measure(Strip, &a, &[3, 1], &[4, 5, 1], &[0; 3], said)),
        [Nothing(400), Nothing(1_000)].map(|said| explain(Strip, &a, &[0, 0], &[4, 5, 1], &[0; 3], said)),
        // a cell that is unread
        [Refused(8), Answer]
            .map(|said| explain(Mark, &a, &[3, 1, 2], &unread(MARK, 0..1).0, &unread(MARK, 0..1).1, said)),
    ]
}

/// Doubts at the bounds: of a right first cell, a wrong one and an unread one. Doubts are in 100ths, and in 250ths.
#[rustfmt::skip]
fn doubts() -> Vec<Pair> {
    let of_first = |symbol: u8, doubt: u8, earlier: Option<[i32; 5]>, later: Option<[i32; 5]>| {
        let (mut symbols, mut doubts) = (MARK, SURE);
        (symbols[0], doubts[0]) = (symbol, doubt);
        let said = |answer: Option<[i32; 5]>| answer.map(|answer| (&[3, 1, 2][..], answer)).ok_or((8, 3));
        read_pair(Mark, &plan_a(), &symbols, &doubts, said(earlier), said(later))
    };
    vec![
        of_first(6, 0, Some([0, 600, 0, 0, 0]), Some([0, 1_500, 0, 0, 0])),
        of_first(6, 99, Some([99, 501, 0, 0, 0]), Some([99, 1_401, 0, 0, 0])),
        of_first(6, 100, Some([100, 500, 0, 0, 0]), Some([100, 1_400, 0, 0, 0])),
        of_first(6, 101, None, Some([101, 1_399, 0, 0, 0])),
        of_first(6, 128, None, Some([128, 1_372, 0, 0, 0])),
        of_first(6, 200, None, Some([200, 1_300, 0, 0, 0])),
        of_first(6, 201, None, Some([201, 1_299, 0, 0, 0])),
        of_first(6, 249, None, Some([249, 1_251, 0, 0, 0])),
        of_first(6, 250, None, Some([250, 1_250, 0, 0, 0])),
        of_first(6, 251, None, None),
        of_first(6, 255, None, None),
        of_first(0, 0, Some([200, 400, 1, 0, 1]), Some([500, 1_000, 1, 0, 1])),
        of_first(0, 99, Some([101, 499, 1, 0, 1]), Some([401, 1_099, 1, 0, 1])),
        of_first(0, 100, Some([100, 500, 1, 0, 1]), Some([400, 1_100, 1, 0, 1])),
        of_first(0, 101, None, Some([399, 1_101, 1, 0, 1])),
        of_first(0, 201, None, Some([299, 1_201, 1, 0, 1])),
        of_first(0, 249, None, Some([251, 1_249, 1, 0, 1])),
        of_first(0, 250, None, Some([250, 1_250, 1, 0, 1])),
        of_first(0, 251, None, None),
        of_first(255, 0, None, None),
        of_first(255, 99, None, None),
        of_first(255, 100, Some([100, 500, 0, 1, 0]), None),
        of_first(255, 101, None, None),
        of_first(255, 249, None, None),
        of_first(255, 250, None, Some([250, 1_250, 0, 1, 0])),
        of_first(255, 251, None, None),
    ]
}

/// Photographs that are read as one record before season 30 and as another from it on. Below the first row the marks of
/// 3 + X + 2Y and of 2 + 2X + 2Y differ: two cells there have the one's values and are sure, four have the other's, in doubt 100.
#[rustfmt::skip]
fn another_answer() -> Vec<Pair> {
    let (a, plan_d0) = (plan_a(), plan(7, 3, 0, &[1, 2, 4]));
    let (symbols, doubts) = ([6, 1, 5, 1, 3, 0, 5, 4, 1], [0, 0, 0, 100, 100, 100, 100, 0, 0]);
    let (one, other) = ([3, 1, 2], [2, 2, 2]);
    vec![
        read_pair(Mark, &a, &symbols, &doubts, Ok((&one, [400, 200, 4, 0, 2])), Ok((&other, [1_400, 100, 2, 0, 1]))),
        [[800, -200, 2, 0, 1], [1_400, 100, 2, 0, 1]].map(|said| measure(Mark, &a, &other, &symbols, &doubts, said)),
        [Answer, Other(&other, 3)].map(|said| explain(Mark, &a, &one, &symbols, &doubts, said)),
        [Other(&one, 3), Answer].map(|said| explain(Mark, &a, &other, &symbols, &doubts, said)),
        // a strip of one value: a sure cell has 5, two in doubt have 4, or 4 and 3, and then nothing is read any more
        read_pair(Strip, &plan_d0, &[5, 4, 4], &[0, 100, 100], Ok((&[5], [200, 100, 2, 0, 1])), Ok((&[4], [700, 50, 1, 0, 1]))),
        read_pair(Strip, &plan_d0, &[5, 4, 3], &[0, 100, 100], Ok((&[5], [200, 100, 2, 0, 1])), Err((10, 1))),
    ]
}

/// Symbols with some cells unread, and their doubts: 250 for these and 0 for the others.
fn unread<const N: usize>(symbols: [u8; N], cells: Range<usize>) -> ([u8; N], [u8; N]) {
    unread_in(250, symbols, cells)
}

fn read_pair(code: Code, plan: &[u8], symbols: &[u8], doubts: &[u8], earlier: Said, later: Said) -> Pair {
    [earlier, later].map(|result| read(code, plan, symbols, doubts, result))
}
