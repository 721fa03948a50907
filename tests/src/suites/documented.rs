//! Cases a to l of document 01, with unread cells counted apart from changed ones, the table of oblong marks, and some more
//! whose answers were worked out by hand, explanations among them: all as they always were, in season 12 and in other seasons
//! before 30.

use super::rows::Why::{Answer, Nothing, Other, Refused};
use super::rows::*;
use independent::Code::{Mark, Strip};
use std::array::from_fn;
use std::ops::Range;
use traymark_tests::counts::Counts;
use traymark_tests::random::Random;

pub const CASES: u64 = 142;

pub fn case(seed: u64, random: &mut Random, counts: &mut Counts) -> Result<(), String> {
    let rows = rows();
    if rows.len() as u64 != CASES {
        return Err(format!("there are {} rows", rows.len()));
    }
    rows[seed as usize].hold_at(&EARLIER, random, counts)
}

fn rows() -> Vec<Row> {
    let mut rows = lettered();
    rows.extend(oblongs());
    rows.extend(more());
    rows.extend(explanations());
    rows
}

/// Cases a to l.
#[rustfmt::skip]
fn lettered() -> Vec<Row> {
    let (plan_a, plan_h, plan_j) = (plan_a(), plan_h(), plan_j());
    let (unread_5, unread_6) = (unread(MARK, 0..5), unread(MARK, 0..6));
    vec![
        write(Mark, &plan_a, &[3, 1, 2], 9, Ok(&MARK)), // a
        read(Mark, &plan_a, &MARK, &SURE, Ok((&[3, 1, 2], [0, 600, 0, 0, 0]))), // b
        read(Mark, &plan_a, &CASE_C, &SURE, Ok((&[3, 1, 2], [400, 200, 2, 0, 1]))), // c
        read(Mark, &plan_a, &CASE_D, &SURE, Err((10, 3))), // d
        read(Mark, &plan_a, &CASE_D, &CASE_E, Ok((&[3, 1, 2], [597, 3, 3, 0, 1]))), // e
        read(Mark, &plan_a, &unread_5.0, &unread_5.1, Ok((&[3, 1, 2], [500, 100, 0, 5, 0]))), // f
        read(Mark, &plan_a, &unread_6.0, &unread_6.1, Err((10, 3))), // g
        read(Mark, &plan_h, &[1], &[99], Ok((&[1], [99, 1, 0, 0, 0]))), // h
        read(Mark, &plan_h, &[1], &[100], Err((10, 1))), // i
        read(Mark, &plan_j, &[1, 0, 0, 0], &[0; 4], Err((10, 3))), // j
        measure(Mark, &plan_j, &[0, 0, 0], &[1, 0, 0, 0], &[0; 4], [200, 0, 1, 0, 1]),
        measure(Mark, &plan_j, &[1, 1, 0], &[1, 0, 0, 0], &[0; 4], [200, 0, 1, 0, 1]),
        measure(Mark, &plan_a, &[3, 1, 2], &CASE_D, &SURE, [600, 0, 3, 0, 1]), // k
        check(&plan(9, 3, 1, &[1, 2, 4]), 2), // l
        check(&plan(7, 3, 3, &[1, 2, 4]), 4),
        check(&plan(7, 3, 1, &[1, 1, 4]), 5),
    ]
}

/// The table of oblong marks in docs/SPECIFICATION.md.
#[rustfmt::skip]
fn oblongs() -> Vec<Row> {
    let (w, t) = (plan_w(), plan_t());
    let no_column = with(&w, &[(4, 0)]);
    vec![
        write(Mark, &w, &[3, 1, 2], 6, Ok(&[4, 1, 0, 6, 3, 2])),
        write(Mark, &t, &[3, 1, 2], 6, Ok(&[5, 2, 0, 4, 3, 0])),
        read(Mark, &w, &[4, 1, 0, 6, 3, 2], &[0; 6], Ok((&[3, 1, 2], [0, 300, 0, 0, 0]))),
        read(Mark, &t, &[5, 2, 0, 4, 3, 0], &[0; 6], Ok((&[3, 1, 2], [0, 300, 0, 0, 0]))),
        read(Mark, &w, &[4, 1, 0, 6, 3, 4], &[99, 0, 0, 0, 0, 0], Ok((&[3, 1, 2], [299, 1, 1, 0, 1]))),
        read(Mark, &w, &[4, 1, 0, 6, 3, 4], &[100, 0, 0, 0, 0, 0], Err((10, 3))),
        read(Mark, &t, &[5, 4, 0, 4, 3, 0], &[0, 0, 0, 0, 99, 0], Ok((&[3, 1, 2], [299, 1, 1, 0, 1]))),
        read(Mark, &t, &[5, 4, 0, 4, 3, 0], &[0, 0, 0, 0, 100, 0], Err((10, 3))),
        measure(Mark, &t, &[3, 1, 2], &[4, 1, 0, 6, 3, 2], &[0; 6], [800, -500, 4, 0, 2]),
        write(Strip, &w, &[3, 1], 2, Ok(&[4, 6])),
        read(Strip, &t, &[3, 5, 255], &[0, 0, 100], Ok((&[3, 1], [100, 100, 0, 1, 0]))),
        check(&with(&w, &[(5, 2)]), 4),
        check(&with(&t, &[(5, 2)]), 4),
        check(&oblong(7, 2, &[0, 1, 2], &[0, 1, 2, 3]), 0),
        check(&no_column, 13),
        check(&fields(19, [1, 17, 0], &[0], &[1, 2, 4]), 13),
        check(&fields(2, [2, 3, 1], &[0, 1], &[0, 1]), 13),
        check(&with(&no_column, &[(5, 2)]), 13),
        check(&with(&no_column, &[(3, 0)]), 3),
        check(&with(&w, &[(24, 7)]), 5),
        check(&with(&w, &[(23, 0)]), 5),
        check(&with(&w, &[(25, 1)]), 5),
        check(&with(&w, &[(37, 1)]), 5),
        check(&with(&w, &[(6, 7), (22, 7)]), 5),
        check(&with(&w, &[(8, 5)]), 5),
        check(&with(&t, &[(24, 5)]), 5),
        write(Strip, &no_column, &[3, 1], 2, Err(13)),
        read(Strip, &with(&t, &[(22, 4)]), &[3, 5, 1], &[0; 3], Err((5, 2))),
    ]
}

/// Worked out by hand.
#[rustfmt::skip]
fn more() -> Vec<Row> {
    let (plan_a, w, t) = (plan_a(), plan_w(), plan_t());
    let plan_d0 = plan(7, 3, 0, &[1, 2, 4]);
    let wrong_and_unread = unread([0, 1, 5, 0, 2, 6, 2, 4, 1], 1..2);
    let unread_0 = unread(MARK, 3..4);
    let (wrong_first, full_doubts) = ([0, 1, 5, 0, 2, 6, 2, 4, 1], [100, 100, 0, 0, 0, 0, 0, 0, 0]);
    let one_read = unread([7; 256], 1..256);
    let few_read = unread(from_fn::<u8, 256, _>(|cell| if cell < 16 { 8 } else { 7 }), 33..256);
    let half_at_radius = unread([0, 2, 0, 4, 3, 0], 5..6);
    let eight = [2, 3, 4, 9, 80, 81, 200, 250];
    let (tall_16, broad_16) = (oblong(251, 7, &SIXTEEN, &eight), oblong(251, 7, &eight, &SIXTEEN));
    let (one_column, one_row) = (oblong(251, 0, &SIXTEEN, &[9]), oblong(251, 0, &[9], &SIXTEEN));
    vec![
        check(&plan_a, 0),
        check(&plan(9, 0, 3, &[1, 1, 4]), 2),
        // a cell wrong and a cell unread at once; a cell unread where the mark is 0
        read(Mark, &plan_a, &wrong_and_unread.0, &wrong_and_unread.1, Ok((&[3, 1, 2], [300, 300, 1, 1, 1]))),
        measure(Mark, &plan_a, &[3, 1, 2], &wrong_and_unread.0, &wrong_and_unread.1, [300, 300, 1, 1, 1]),
        measure(Mark, &plan_a, &[0, 0, 0], &wrong_and_unread.0, &wrong_and_unread.1, [1_300, -700, 6, 1, 2]),
        read(Mark, &plan_a, &unread_0.0, &unread_0.1, Ok((&[3, 1, 2], [100, 500, 0, 1, 0]))),
        measure(Mark, &plan_a, &[3, 1, 2], &unread_0.0, &unread_0.1, [100, 500, 0, 1, 0]),
        // read cells in doubt 100, a wrong one and a right one: neither is unread
        read(Mark, &plan_a, &wrong_first, &full_doubts, Ok((&[3, 1, 2], [200, 400, 1, 0, 1]))),
        measure(Mark, &plan_a, &[3, 1, 2], &wrong_first, &full_doubts, [200, 400, 1, 0, 1]),
        // a strip, written, with its last cell unread, and measured
        write(Strip, &plan_a, &[3, 1], 3, Ok(&[4, 5, 0])),
        read(Strip, &plan_a, &[4, 5, 255], &[0, 0, 100], Ok((&[3, 1], [100, 100, 0, 1, 0]))),
        read(Strip, &plan_a, &[4, 5, 1], &[0, 0, 0], Err((10, 2))),
        measure(Strip, &plan_a, &[3, 1], &[4, 5, 1], &[0, 0, 0], [200, 0, 1, 0, 1]),
        measure(Strip, &plan_a, &[0, 0], &[4, 5, 0], &[0, 0, 50], [450, -250, 2, 0, 1]),
        // a strip with a cell wrong and a cell unread at once
        read(Strip, &plan_d0, &[5, 255, 4], &[0, 100, 1], Ok((&[5], [299, 1, 1, 1, 1]))),
        measure(Strip, &plan_d0, &[5], &[5, 255, 4], &[0, 100, 1], [299, 1, 1, 1, 1]),
        // the buffer has not its length; a coefficient is p
        write(Mark, &plan_a, &[3, 1, 7], 8, Err(6)),
        write(Mark, &plan_a, &[3, 1, 7], 9, Err(9)),
        // total degree 2 with point 0, X^2 first and Y^2 last: 1 + 2 X^2 + 3 XY + 4 Y^2
        write(Mark, &plan(5, 3, 2, &[0, 1, 2]), &[1, 0, 0, 2, 3, 4], 9, Ok(&[1, 0, 2, 3, 0, 0, 4, 4, 2])),
        // the highest margin, and the lowest
        read(Mark, &plan_16(0), &[7; 256], &[0; 256], Ok((&[7], [0, 25_600, 0, 0, 0]))),
        measure(Mark, &plan_16(15), &[0; 136], &[7; 256], &[0; 256], [51_200, -49_600, 256, 0, 3]),
        // all cells unread, and all but one; sixteen wrong, seventeen right and the others unread
        measure(Mark, &plan_16(15), &[0; 136], &[255; 256], &[100; 256], [25_600, -24_000, 0, 256, 0]),
        measure(Strip, &plan_16(15), &[0; 16], &[255; 16], &[100; 16], [1_600, -1_500, 0, 16, 0]),
        read(Mark, &plan_16(0), &one_read.0, &one_read.1, Ok((&[7], [25_500, 100, 0, 255, 0]))),
        read(Mark, &plan_16(0), &few_read.0, &few_read.1, Ok((&[7], [25_500, 100, 16, 223, 3]))),
        // the half tray of README.md; X and Y exchanged, from T to W
        write(Mark, &oblong(7, 1, &[1, 2, 4], &[3, 5]), &[3, 1, 2], 6, Ok(&[3, 0, 4, 1, 6, 3])),
        write(Mark, &w, &[3, 2, 1], 6, Ok(&[5, 0, 3, 2, 4, 0])),
        read(Mark, &w, &[5, 0, 3, 2, 4, 0], &[0; 6], Ok((&[3, 2, 1], [0, 300, 0, 0, 0]))),
        // an oblong with a cell wrong and a cell unread, at the radius
        read(Mark, &t, &half_at_radius.0, &half_at_radius.1, Err((10, 3))),
        measure(Mark, &t, &[3, 1, 2], &half_at_radius.0, &half_at_radius.1, [300, 0, 1, 1, 1]),
        // strips go by the rows: R is 200 by T and 100 by W
        measure(Strip, &t, &[3, 1], &[3, 5, 0], &[0; 3], [200, 0, 1, 0, 1]),
        read(Strip, &w, &[4, 6], &[0, 99], Ok((&[3, 1], [99, 1, 0, 0, 0]))),
        read(Strip, &w, &[4, 6], &[0, 100], Err((10, 2))),
        write(Strip, &t, &[3, 1], 2, Err(6)),
        // the longest: one column, one row, 16 by 8 and 8 by 16 with d 7, where R is 1,600 for all
        read(Mark, &one_column, &[7; 16], &[0; 16], Ok((&[7], [0, 1_600, 0, 0, 0]))),
        read(Mark, &one_row, &[7; 16], &[0; 16], Ok((&[7], [0, 1_600, 0, 0, 0]))),
        measure(Mark, &one_row, &[0], &[7; 16], &[0; 16], [3_200, -1_600, 16, 0, 3]),
        read(Strip, &one_row, &[7], &[99], Ok((&[7], [99, 1, 0, 0, 0]))),
        measure(Mark, &tall_16, &[0; 36], &[7; 128], &[0; 128], [25_600, -24_000, 128, 0, 3]),
        measure(Mark, &broad_16, &[0; 36], &[7; 128], &[0; 128], [25_600, -24_000, 128, 0, 3]),
        read(Mark, &tall_16, &[255; 128], &[100; 128], Err((10, 36))),
        read(Mark, &broad_16, &[255; 128], &[100; 128], Err((10, 36))),
        read(Mark, &tall_16, &[0; 127], &[0; 128], Err((6, 36))),
        read(Mark, &broad_16, &[251; 128], &[0; 128], Err((7, 36))),
        // before columns p and rows; before points d; row points that are equal, or p
        check(&with(&w, &[(2, 9), (4, 17)]), 2),
        check(&with(&w, &[(3, 8), (4, 17), (5, 8)]), 3),
        check(&with(&t, &[(5, 2), (7, 0), (23, 1)]), 4),
        check(&with(&t, &[(7, 0)]), 5),
        check(&with(&t, &[(8, 7)]), 5),
        // for strips the columns are checked too
        read(Strip, &with(&t, &[(4, 17)]), &[3, 5, 1], &[0; 3], Err((13, 2))),
        read(Strip, &with(&t, &[(4, 1)]), &[3, 5, 1], &[0; 3], Err((4, 2))),
        read(Strip, &with(&t, &[(24, 5)]), &[3, 5, 1], &[0; 3], Err((5, 2))),
        // the last two bytes, before all else
        check(&with(&t, &[(38, 1)]), 1),
        check(&with(&t, &[(39, 1)]), 1),
        check(&with(&t, &[(2, 9), (3, 0), (4, 0), (5, 9), (39, 1)]), 1),
        check(&t[..24], 1),
    ]
}

/// Explanations worked out by hand.
#[rustfmt::skip]
fn explanations() -> Vec<Row> {
    let (a, w, t) = (plan_a(), plan_w(), plan_t());
    let (plan_h, plan_j) = (plan_h(), plan_j());
    let plan_d2 = plan(7, 3, 2, &[1, 2, 4]);
    let (unread_5, unread_6) = (unread(MARK, 0..5), unread(MARK, 0..6));
    let halves = from_fn::<u8, 256, _>(|cell| if cell < 128 { 8 } else { 7 });
    let eight_8s = from_fn::<u8, 256, _>(|cell| if cell < 8 { 8 } else { 7 });
    vec![
        // case c: the answer; the same first row, the same first column, the same diagonal, another first cell
        explain(Mark, &a, &[3, 1, 2], &CASE_C, &SURE, Answer),
        explain(Mark, &a, &[2, 2, 2], &CASE_C, &SURE, Other(&[3, 1, 2], 3)),
        explain(Mark, &a, &[1, 1, 4], &CASE_C, &SURE, Other(&[3, 1, 2], 1)),
        explain(Mark, &a, &[3, 2, 1], &CASE_C, &SURE, Other(&[3, 1, 2], 1)),
        explain(Mark, &a, &[0, 0, 0], &CASE_C, &SURE, Other(&[3, 1, 2], 0)),
        // the first coefficient is the answer's, or the last two are
        explain(Mark, &a, &[3, 0, 0], &CASE_C, &SURE, Other(&[3, 1, 2], 0)),
        explain(Mark, &a, &[4, 1, 2], &CASE_C, &SURE, Other(&[3, 1, 2], 0)),
        // case d costs the radius, case e three less
        explain(Mark, &a, &[3, 1, 2], &CASE_D, &SURE, Nothing(0)),
        explain(Mark, &a, &[0, 0, 0], &CASE_D, &SURE, Nothing(400)),
        explain(Mark, &a, &[1, 0, 0], &CASE_D, &SURE, Nothing(1_000)),
        explain(Mark, &a, &[3, 1, 2], &CASE_D, &CASE_E, Answer),
        explain(Mark, &a, &[0, 0, 0], &CASE_D, &CASE_E, Other(&[3, 1, 2], 0)),
        // cases f and g: five cells unread, and six
        explain(Mark, &a, &[3, 1, 2], &unread_5.0, &unread_5.1, Answer),
        explain(Mark, &a, &[2, 2, 2], &unread_5.0, &unread_5.1, Other(&[3, 1, 2], 3)),
        explain(Mark, &a, &[0, 0, 0], &unread_5.0, &unread_5.1, Other(&[3, 1, 2], 0)),
        explain(Mark, &a, &[3, 1, 2], &unread_6.0, &unread_6.1, Nothing(0)),
        // cases h, i and j: the first cell is the last; at the radius nothing is the answer
        explain(Mark, &plan_h, &[1], &[1], &[99], Answer),
        explain(Mark, &plan_h, &[0], &[1], &[99], Other(&[1], 0)),
        explain(Mark, &plan_h, &[0], &[1], &[100], Nothing(0)),
        explain(Mark, &plan_j, &[1, 1, 0], &[1, 0, 0, 0], &[0; 4], Nothing(0)),
        explain(Mark, &plan_j, &[1, 0, 0], &[1, 0, 0, 0], &[0; 4], Nothing(400)),
        // one beyond the radius
        explain(Mark, &w, &[3, 1, 2], &[4, 1, 0, 6, 3, 4], &[100, 1, 0, 0, 0, 0], Nothing(1)),
        // the same first row, of three cells and of two
        explain(Mark, &w, &[2, 2, 2], &[4, 1, 0, 6, 3, 2], &[0; 6], Other(&[3, 1, 2], 3)),
        explain(Mark, &t, &[3, 2, 2], &[5, 2, 0, 4, 3, 0], &[0; 6], Other(&[3, 1, 2], 2)),
        // the largest: half the cells wrong, all of them, the largest excess, another value everywhere
        explain(Mark, &plan_16(0), &[7], &halves, &[0; 256], Nothing(0)),
        explain(Mark, &plan_16(0), &[0], &halves, &[0; 256], Nothing(25_600)),
        explain(Mark, &plan_16(15), &[0; 136], &eight_8s, &[0; 256], Nothing(49_600)),
        explain(Mark, &plan_16(0), &[0], &[7; 256], &[0; 256], Other(&[7], 0)),
        // strips of 3 + X: the answer, the same first cell, another first cell; at the radius and beyond
        explain(Strip, &a, &[3, 1], &[4, 5, 255], &[0, 0, 100], Answer),
        explain(Strip, &a, &[2, 2], &[4, 5, 255], &[0, 0, 100], Other(&[3, 1], 1)),
        explain(Strip, &a, &[0, 0], &[4, 5, 255], &[0, 0, 100], Other(&[3, 1], 0)),
        explain(Strip, &a, &[3, 1], &[4, 5, 1], &[0, 0, 0], Nothing(0)),
        explain(Strip, &a, &[0, 0], &[4, 5, 1], &[0, 0, 0], Nothing(400)),
        explain(Strip, &plan_16(15), &[0; 16], &[255; 16], &[100; 16], Nothing(1_500)),
        // (X - 1)(X - 2) is 0 at all row points but the last
        explain(Strip, &plan_d2, &[2, 4, 1], &[0, 0, 0], &[0, 0, 0], Other(&[0, 0, 0], 2)),
        // an oblong's strip goes by the rows
        explain(Strip, &t, &[3, 1], &[3, 5, 1], &[0, 0, 99], Answer),
        explain(Strip, &w, &[3, 1], &[4, 6], &[0, 100], Nothing(0)),
        // refusals: 6 before 7, then 7, 8 and 9; never 10
        explain(Mark, &a, &[3, 1], &[7; 9], &SURE, Refused(6)),
        explain(Mark, &a, &[3, 1, 7], &[7; 9], &[101; 9], Refused(7)),
        explain(Mark, &a, &[3, 1, 7], &CASE_D, &[101; 9], Refused(8)),
        explain(Mark, &a, &[3, 1, 7], &CASE_D, &SURE, Refused(9)),
        explain(Strip, &with(&t, &[(4, 17)]), &[3, 1], &[3, 5, 1], &[0; 3], Refused(13)),
    ]
}

/// Symbols with some cells unread, and their doubts: 100 for these and 0 for the others.
fn unread<const N: usize>(symbols: [u8; N], cells: Range<usize>) -> ([u8; N], [u8; N]) {
    unread_in(100, symbols, cells)
}
