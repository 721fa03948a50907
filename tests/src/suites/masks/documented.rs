//! Masks worked out by hand, each put on and taken off, or refused both ways, in seasons of both ages.

use crate::suites::rows::*;
use independent::Code::{Mark, Strip};
use traymark_tests::counts::Counts;
use traymark_tests::random::Random;

pub const CASES: u64 = 94;

pub fn case(seed: u64, random: &mut Random, counts: &mut Counts) -> Result<(), String> {
    let rows: Vec<Row> = accepted().into_iter().chain(refused()).flatten().collect();
    if rows.len() as u64 != CASES {
        return Err(format!("there are {} rows", rows.len()));
    }
    rows[seed as usize].hold_at(&[&EARLIER[..], &LATER].concat(), random, counts)
}

/// Every season, a case for each high byte: it has no part in masking.
pub fn every_season(seed: u64, random: &mut Random, counts: &mut Counts) -> Result<(), String> {
    for row in masks(Mark, &plan_a(), &Q, &MARK, Ok(&MASKED)) {
        (0..=255).try_for_each(|low| row.answer_at(u16::from_be_bytes([seed as u8, low]), random, counts))?;
    }
    Ok(())
}

/// 5 + 4X + 6Y, and for strips 5 + 4X; and the mark of 3 + X + 2Y with the mark of Q on, which is that of 1 + 5X + Y.
const Q: [u8; 3] = [5, 4, 6];
const LINE: [u8; 2] = [5, 4];
const MASKED: [u8; 9] = [0, 1, 3, 5, 6, 1, 1, 2, 4];

#[rustfmt::skip]
fn accepted() -> Vec<[Row; 2]> {
    let (plan_a, plan_h, plan_j, w, t) = (plan_a(), plan_h(), plan_j(), plan_w(), plan_t());
    let (constant, cubic) = (plan(7, 3, 0, &[1, 2, 4]), plan(5, 4, 3, &[0, 1, 2, 4]));
    let (column, row) = (oblong(251, 0, &SIXTEEN, &[9]), oblong(251, 0, &[9], &SIXTEEN));
    vec![
        // 6 + 1 is 0, 1 + 0 is 1, 0 + 5 is 5
        masks(Mark, &plan_a, &Q, &MARK, Ok(&MASKED)),
        // on cells of 0 it is the mark of Q; a mask of 0; the largest coefficients on the largest symbols
        masks(Mark, &plan_a, &Q, &[0; 9], Ok(&[1, 0, 5, 5, 4, 2, 6, 5, 3])),
        masks(Mark, &plan_a, &[0; 3], &MARK, Ok(&MARK)),
        masks(Mark, &plan_a, &[6; 3], &[6; 9], Ok(&[3, 2, 0, 2, 1, 6, 0, 6, 4])),
        // unread cells stay: some, all but one, all
        masks(Mark, &plan_a, &Q, &[255, 1, 5, 0, 255, 6, 2, 4, 255], Ok(&[255, 1, 3, 5, 255, 1, 1, 2, 255])),
        masks(Mark, &plan_a, &Q, &unread(&[0; 9], 1), Ok(&unread(&[1; 9], 1))),
        masks(Mark, &plan_a, &Q, &[255; 9], Ok(&[255; 9])),
        // more columns than rows, and more rows than columns
        masks(Mark, &w, &Q, &[4, 1, 0, 6, 3, 2], Ok(&[6, 1, 4, 2, 4, 0])),
        masks(Mark, &t, &Q, &[5, 2, 0, 4, 3, 0], Ok(&[2, 4, 5, 0, 6, 1])),
        // X^3 + 3 X Y^2
        masks(Mark, &cubic, &[0, 0, 0, 0, 0, 0, 1, 0, 3, 0], &[4; 16], Ok(&[4, 4, 4, 4, 0, 3, 2, 3, 2, 3, 1, 3, 3, 0, 1, 0])),
        // p 2
        masks(Mark, &plan_h, &[1], &[1], Ok(&[0])),
        masks(Mark, &plan_h, &[1], &[0], Ok(&[1])),
        masks(Mark, &plan_j, &[1, 1, 1], &[1, 1, 0, 255], Ok(&[0, 1, 0, 255])),
        // p 251: 250 and 250 is 500, more than a byte holds
        masks(Mark, &plan_16(0), &[250], &[250; 256], Ok(&[249; 256])),
        masks(Mark, &plan_16(0), &[250], &[1; 256], Ok(&[0; 256])),
        masks(Mark, &plan_16(0), &[250], &[0; 256], Ok(&[250; 256])),
        masks(Mark, &plan_16(0), &[250], &unread(&[6; 256], 255), Ok(&unread(&[5; 256], 255))),
        masks(Mark, &plan_16(0), &[250], &unread(&[6; 256], 1), Ok(&unread(&[5; 256], 1))),
        masks(Mark, &column, &[200], &[100; 16], Ok(&[49; 16])),
        masks(Mark, &row, &[200], &[100; 16], Ok(&[49; 16])),
        // strips go by the row points
        masks(Strip, &plan_a, &LINE, &[4, 5, 0], Ok(&[6, 4, 0])),
        masks(Strip, &w, &LINE, &[4, 6], Ok(&[6, 2])),
        masks(Strip, &t, &LINE, &[3, 5, 1], Ok(&[1, 4, 5])),
        masks(Strip, &t, &LINE, &[255, 5, 255], Ok(&[255, 4, 255])),
        masks(Strip, &constant, &[6], &[0, 1, 6], Ok(&[6, 0, 5])),
        masks(Strip, &row, &[200], &[51], Ok(&[0])),
    ]
}

/// A plan's refusals with each a later one beside it, and wrong lengths; then 6, 7 and 9.
#[rustfmt::skip]
fn refused() -> Vec<[Row; 2]> {
    let (plan_a, w, t) = (plan_a(), plan_w(), plan_t());
    let last_7 = [0, 1, 3, 5, 6, 1, 1, 2, 7];
    vec![
        masks(Mark, &plan_a[..39], &[], &[], Err(1)),
        masks(Mark, &with(&w, &[(2, 9), (39, 1)]), &[7], &[7], Err(1)),
        masks(Mark, &with(&w, &[(2, 9), (3, 0)]), &[7], &[7], Err(2)),
        masks(Strip, &with(&w, &[(3, 0), (4, 0)]), &[7], &[7], Err(3)),
        masks(Strip, &with(&w, &[(4, 0), (5, 3)]), &[7], &[7], Err(13)),
        masks(Mark, &with(&t, &[(5, 2), (7, 0)]), &[7], &[7], Err(4)),
        masks(Strip, &with(&t, &[(23, 1)]), &[7], &[7], Err(5)),
        // a mark's lengths for a mark, a strip's for a strip
        masks(Mark, &plan_a, &[7; 2], &[7; 9], Err(6)),
        masks(Mark, &plan_a, &[7; 4], &[7; 9], Err(6)),
        masks(Mark, &plan_a, &[7; 3], &[7; 8], Err(6)),
        masks(Mark, &plan_a, &[7; 3], &[7; 10], Err(6)),
        masks(Strip, &plan_a, &[7; 3], &[7; 3], Err(6)),
        masks(Strip, &w, &[7; 2], &[7; 3], Err(6)),
        masks(Strip, &t, &[7; 2], &[7; 2], Err(6)),
        masks(Mark, &plan_a, &[5, 4, 7], &last_7, Err(7)),
        masks(Mark, &plan_a, &Q, &last_7, Err(7)),
        masks(Mark, &plan_a, &Q, &[254, 255, 255, 255, 255, 255, 255, 255, 255], Err(7)),
        masks(Strip, &plan_a, &[5, 7], &[4, 5, 7], Err(7)),
        masks(Mark, &plan_a, &[5, 4, 7], &MARK, Err(9)),
        masks(Mark, &plan_a, &[255, 4, 6], &[255; 9], Err(9)),
        masks(Strip, &plan_a, &[5, 7], &[4, 5, 0], Err(9)),
    ]
}

/// The symbols, of which these from the first on are read, and the others not.
fn unread<const N: usize>(symbols: &[u8; N], read: usize) -> [u8; N] {
    unread_in(0, *symbols, read..N).0
}
