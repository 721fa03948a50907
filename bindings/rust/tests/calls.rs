//! Each call through the wrapper: cases a, c and f of document 01, wrong and unread cells at once, strips, oblong marks, doubts
//! in 250ths, the three reasons, season windows, masks, sets of photographs, and a refusal of each call. Buffers that are to be
//! written hold 9s before, so that it is seen when a refusal changes one.

use traymark::{Reading, Reason, Refusal, Set, OLD_PLAN_LENGTH, PLAN_LENGTH, SET_SIZE, WINDOW_LENGTH};

/// Plan A: season 12, p 7, 3 rows, 3 columns, d 1, points 1 2 4 each way.
const PLAN: [u8; PLAN_LENGTH] = plan([0, 12, 7, 3, 3, 1], [1, 2, 4], [1, 2, 4]);
/// 3 + X + 2Y, and its mark.
const RECORD: [u8; 3] = [3, 1, 2];
const MARK: [u8; 9] = [6, 1, 5, 0, 2, 6, 2, 4, 1];
/// Two cells misread: case c. Three: case d, which is refused.
const CASE_C: [u8; 9] = [0, 1, 5, 0, 2, 6, 2, 4, 0];
const CASE_D: [u8; 9] = [0, 0, 0, 0, 2, 6, 2, 4, 1];
/// Five cells unread: case f.
const CASE_F: [u8; 9] = [255, 255, 255, 255, 255, 6, 2, 4, 1];
const SURE: [u8; 9] = [0; 9];

/// Symbols and doubts of photographs of the mark, and what is said of its record: cases c and f; the first cell misread
/// and the second unread; a cell unread where the mark is 0.
const PHOTOS: [([u8; 9], [u8; 9], Reading); 4] = [
    (CASE_C, SURE, Reading { cost: 400, margin: 200, changed: 2, unread: 0, class: 1 }),
    (
        CASE_F,
        [100, 100, 100, 100, 100, 0, 0, 0, 0],
        Reading { cost: 500, margin: 100, changed: 0, unread: 5, class: 0 },
    ),
    (
        [0, 255, 5, 0, 2, 6, 2, 4, 1],
        [0, 100, 0, 0, 0, 0, 0, 0, 0],
        Reading { cost: 300, margin: 300, changed: 1, unread: 1, class: 1 },
    ),
    (
        [6, 1, 5, 255, 2, 6, 2, 4, 1],
        [0, 0, 0, 100, 0, 0, 0, 0, 0],
        Reading { cost: 100, margin: 500, changed: 0, unread: 1, class: 0 },
    ),
];

/// Plan A in season 30, and photographs with doubts in 250ths: cases e and f, and a right cell in a doubt that earlier seasons
/// don't have.
const LATER_PLAN: [u8; PLAN_LENGTH] = plan([0, 30, 7, 3, 3, 1], [1, 2, 4], [1, 2, 4]);
const LATER_PHOTOS: [([u8; 9], [u8; 9], Reading); 3] = [
    (CASE_D, [1, 1, 1, 0, 0, 0, 0, 0, 0], Reading { cost: 1_497, margin: 3, changed: 3, unread: 0, class: 1 }),
    (
        CASE_F,
        [250, 250, 250, 250, 250, 0, 0, 0, 0],
        Reading { cost: 1_250, margin: 250, changed: 0, unread: 5, class: 0 },
    ),
    (MARK, [101, 0, 0, 0, 0, 0, 0, 0, 0], Reading { cost: 101, margin: 1_399, changed: 0, unread: 0, class: 0 }),
];

/// Plan A with degree 0, and a strip of the record 5: its second cell is unread, its last wrong.
const STRIP_PLAN: [u8; PLAN_LENGTH] = plan([0, 12, 7, 3, 3, 0], [1, 2, 4], [1, 2, 4]);
const STRIP: ([u8; 3], [u8; 3]) = ([5, 255, 4], [0, 100, 1]);
const STRIP_READING: Reading = Reading { cost: 299, margin: 1, changed: 1, unread: 1, class: 1 };

/// Plan W has more columns than rows, plan T, a half tray, more rows.
const WIDE_PLAN: [u8; PLAN_LENGTH] = plan([0, 12, 7, 2, 3, 1], [1, 3, 0], [0, 2, 5]);
const HALF_PLAN: [u8; PLAN_LENGTH] = plan([0, 12, 7, 3, 2, 1], [0, 2, 5], [1, 3, 0]);
const OBLONGS: [Oblong; 2] = [
    Oblong {
        plan: WIDE_PLAN,
        mark: [4, 1, 0, 6, 3, 2],
        masked_mark: [6, 1, 4, 2, 4, 0],
        strip: &[4, 6],
        masked_strip: &[6, 2],
        strip_radius: 100,
    },
    Oblong {
        plan: HALF_PLAN,
        mark: [5, 2, 0, 4, 3, 0],
        masked_mark: [2, 4, 5, 0, 6, 1],
        strip: &[3, 5, 1],
        masked_strip: &[1, 4, 5],
        strip_radius: 200,
    },
];

/// A plan, the mark of the record under it, with radius 300, and the strip of 3 + X; both with the mask on.
struct Oblong {
    plan: [u8; PLAN_LENGTH],
    mark: [u8; 6],
    masked_mark: [u8; 6],
    strip: &'static [u8],
    masked_strip: &'static [u8],
    strip_radius: i32,
}

/// 5 + 4X + 6Y: the mark of the record with its mark on is that of 1 + 5X + Y, and the strip of 3 + X that of 1 + 5X.
const MASK: [u8; 3] = [5, 4, 6];
const MASKED_MARK: [u8; 9] = [0, 1, 3, 5, 6, 1, 1, 2, 4];
const MASKED_RECORD: [u8; 3] = [1, 5, 1];

/// A plan of at most three points each way: season, p, rows, columns, d; the points.
const fn plan(fields: [u8; 6], row_points: [u8; 3], column_points: [u8; 3]) -> [u8; PLAN_LENGTH] {
    let mut plan = [0; PLAN_LENGTH];
    let mut k = 0;
    while k < 6 {
        plan[k] = fields[k];
        k += 1;
    }
    k = 0;
    while k < 3 {
        plan[6 + k] = row_points[k];
        plan[22 + k] = column_points[k];
        k += 1;
    }
    plan
}

#[test]
fn check_plan() {
    assert_eq!(traymark::check_plan(&PLAN), Ok(()));
    assert_eq!(traymark::check_plan(&WIDE_PLAN), Ok(()));
    assert_eq!(traymark::check_plan(&PLAN[..39]), Err(Refusal::PlanForm));
    let changed = |place: usize, value: u8| {
        let mut plan = HALF_PLAN;
        plan[place] = value;
        traymark::check_plan(&plan)
    };
    assert_eq!(changed(39, 1), Err(Refusal::PlanForm));
    assert_eq!(changed(2, 9), Err(Refusal::Modulus));
    assert_eq!(changed(3, 8), Err(Refusal::Rows));
    assert_eq!(changed(4, 0), Err(Refusal::Columns));
    assert_eq!(changed(5, 2), Err(Refusal::Degree));
    assert_eq!(changed(8, 7), Err(Refusal::Points));
    assert_eq!(changed(23, 1), Err(Refusal::Points));
}

#[test]
fn find_plan() {
    let file = [HALF_PLAN.map(|_| 0), PLAN, HALF_PLAN].concat();
    let found = traymark::find_plan(&file, 12).unwrap();
    assert_eq!(found, PLAN);
    assert_eq!(found.as_ptr(), file[40..].as_ptr(), "the first, and the part of the file itself, no copy");
    assert_eq!(traymark::find_plan(&file, 13), Err(Refusal::NoSuchSeason));
    assert_eq!(traymark::find_plan(&file[..119], 12), Err(Refusal::FileLength));
    assert_eq!(traymark::find_plan(&[], 12), Err(Refusal::NoSuchSeason));
}

#[test]
fn find_season() {
    // season 256 + 30 from 1 July 2026 to 30 June 2027, season 0 from 29 February 2000 to 30 June 2026
    let later: [u8; WINDOW_LENGTH] = [1, 30, 7, 234, 7, 1, 7, 235, 6, 30, 0, 0];
    let earlier: [u8; WINDOW_LENGTH] = [0, 0, 7, 208, 2, 29, 7, 234, 6, 30, 0, 0];
    let file = [later, earlier].concat();
    assert_eq!(traymark::find_season(&file, 2026, 7, 1), Ok(286));
    assert_eq!(traymark::find_season(&file, 2027, 6, 30), Ok(286));
    assert_eq!(traymark::find_season(&file, 2026, 6, 30), Ok(0));
    assert_eq!(traymark::find_season(&file, 2000, 2, 29), Ok(0));
    assert_eq!(traymark::find_season(&file, 2000, 2, 28), Err(Refusal::NoWindow));
    assert_eq!(traymark::find_season(&file, 2026, 6, 31), Err(Refusal::NoWindow));
    for [year, month, day] in [[1 << 16, 0, 0], [0, 1 << 8, 0], [0, 0, 1 << 8], [1 << 31, 0, 0]] {
        assert_eq!(traymark::find_season(&file, 2026 + year, 7 + month, 1 + day), Err(Refusal::NoWindow));
    }
    assert_eq!(traymark::find_season(&[], 2026, 7, 1), Err(Refusal::NoWindow));
    assert_eq!(traymark::find_season(&file[..23], 2026, 7, 1), Err(Refusal::WindowFile));
    assert_eq!(traymark::find_season(&later.repeat(65), 2026, 7, 1), Err(Refusal::WindowFile));
    assert_eq!(traymark::find_season(&later.repeat(64), 0, 0, 0), Err(Refusal::SharedDay));
    // 29 February 2100; the last date before the first; the bytes at the end; one more day
    for (place, value, refusal) in [
        (14..18, &[8, 52, 2, 29][..], Refusal::WindowFile),
        (18..20, &[7, 207], Refusal::WindowFile),
        (10..11, &[1], Refusal::WindowFile),
        (23..24, &[1], Refusal::WindowFile),
        (20..22, &[7, 1], Refusal::SharedDay),
    ] {
        let mut file = file.clone();
        file[place].copy_from_slice(value);
        assert_eq!(traymark::find_season(&file, 2026, 7, 1), Err(refusal));
    }
}

#[test]
fn widen_plans() {
    // plan A in the old form, and any bytes
    let mut old = [7; 2 * OLD_PLAN_LENGTH];
    old[..OLD_PLAN_LENGTH].fill(0);
    old[..8].copy_from_slice(&[0, 12, 7, 3, 1, 1, 2, 4]);
    let mut wide = [9; 2 * PLAN_LENGTH];
    assert_eq!(traymark::widen_plans(&old[..47], &mut wide), Err(Refusal::FileLength));
    assert_eq!(traymark::widen_plans(&[0; 1001 * OLD_PLAN_LENGTH], &mut wide), Err(Refusal::FileLength));
    assert_eq!(traymark::widen_plans(&old, &mut wide[..79]), Err(Refusal::BufferLength));
    assert_eq!(wide, [9; 2 * PLAN_LENGTH]);
    assert_eq!(traymark::widen_plans(&old, &mut wide), Ok(()));
    assert_eq!(wide[..PLAN_LENGTH], PLAN);
    assert_eq!(wide[PLAN_LENGTH..78], [7; 38]);
    assert_eq!(wide[78..], [0, 0]);
    assert_eq!(traymark::widen_plans(&[], &mut []), Ok(()));
}

#[test]
fn oblong_marks() {
    for Oblong { plan, mark, .. } in OBLONGS {
        let mut written = [9; 6];
        assert_eq!(traymark::write_mark(&plan, &RECORD, &mut written[..5]), Err(Refusal::BufferLength));
        assert_eq!(traymark::write_mark(&plan, &RECORD, &mut written), Ok(()));
        assert_eq!(written, mark);
        // the last cell misread, the first in doubt
        written[5] = 4;
        let mut record = [9; 3];
        let reading = Reading { cost: 299, margin: 1, changed: 1, unread: 0, class: 1 };
        assert_eq!(traymark::read_mark(&plan, &written, &[99, 0, 0, 0, 0, 0], &mut record), Ok(reading));
        assert_eq!(record, RECORD);
        let doubts = [100, 0, 0, 0, 0, 0];
        assert_eq!(traymark::read_mark(&plan, &written, &doubts, &mut record), Err(Refusal::NoRecord));
        let at_the_radius = Reading { cost: 300, margin: 0, ..reading };
        assert_eq!(traymark::measure_mark(&plan, &RECORD, &written, &doubts), Ok(at_the_radius));
    }
}

/// As many cells as rows, the last in doubt.
#[test]
fn oblong_strips() {
    for Oblong { plan, strip, strip_radius, .. } in OBLONGS {
        let (mut written, mut doubts, mut record) = (vec![9; strip.len()], vec![0; strip.len()], [9; 2]);
        doubts[strip.len() - 1] = 99;
        let reading = Reading { cost: 99, margin: strip_radius - 99, changed: 0, unread: 0, class: 0 };
        assert_eq!(traymark::write_strip(&plan, &RECORD[..2], &mut written), Ok(()));
        assert_eq!(written, strip);
        assert_eq!(traymark::measure_strip(&plan, &RECORD[..2], strip, &doubts), Ok(reading));
        assert_eq!(traymark::read_strip(&plan, strip, &doubts, &mut record), Ok(reading));
        assert_eq!(record, RECORD[..2]);
    }
}

#[test]
fn write_mark() {
    let mut mark = [9; 9];
    assert_eq!(traymark::write_mark(&PLAN, &[3, 1, 7], &mut mark), Err(Refusal::Coefficient));
    assert_eq!(traymark::write_mark(&PLAN, &RECORD, &mut mark[..8]), Err(Refusal::BufferLength));
    assert_eq!(mark, [9; 9]);
    assert_eq!(traymark::write_mark(&PLAN, &RECORD, &mut mark), Ok(())); // a
    assert_eq!(mark, MARK);
}

#[test]
fn measure_mark() {
    for (symbols, doubts, reading) in PHOTOS {
        assert_eq!(traymark::measure_mark(&PLAN, &RECORD, &symbols, &doubts), Ok(reading));
    }
    let beyond = Reading { cost: 1200, margin: -600, changed: 6, unread: 0, class: 2 };
    assert_eq!(traymark::measure_mark(&PLAN, &[0, 0, 0], &CASE_C, &SURE), Ok(beyond));
    assert_eq!(traymark::measure_mark(&PLAN, &[3, 1, 7], &CASE_C, &SURE), Err(Refusal::Coefficient));
}

#[test]
fn read_mark() {
    let mut record = [9; 3];
    assert_eq!(traymark::read_mark(&PLAN, &CASE_D, &SURE, &mut record), Err(Refusal::NoRecord)); // d
    assert_eq!(traymark::read_mark(&PLAN, &CASE_F, &SURE, &mut record), Err(Refusal::Doubt));
    assert_eq!(record, [9; 3]);
    for (symbols, doubts, reading) in PHOTOS {
        record = [9; 3];
        assert_eq!(traymark::read_mark(&PLAN, &symbols, &doubts, &mut record), Ok(reading));
        assert_eq!(record, RECORD);
    }
}

#[test]
fn later_marks() {
    for (symbols, doubts, reading) in LATER_PHOTOS {
        let mut record = [9; 3];
        assert_eq!(traymark::measure_mark(&LATER_PLAN, &RECORD, &symbols, &doubts), Ok(reading));
        assert_eq!(traymark::read_mark(&LATER_PLAN, &symbols, &doubts, &mut record), Ok(reading));
        assert_eq!(record, RECORD);
        assert_eq!(traymark::explain_mark(&LATER_PLAN, &RECORD, &symbols, &doubts, &mut record), Ok(Reason::Answer));
    }
    let mut record = [9; 3];
    let (symbols, unread_100, _) = PHOTOS[1];
    assert_eq!(traymark::read_mark(&LATER_PLAN, &symbols, &unread_100, &mut record), Err(Refusal::Doubt));
    assert_eq!(traymark::read_mark(&LATER_PLAN, &MARK, &[251; 9], &mut record), Err(Refusal::Doubt));
    let last_earlier = plan([0, 29, 7, 3, 3, 1], [1, 2, 4], [1, 2, 4]);
    assert_eq!(traymark::read_mark(&last_earlier, &MARK, &[101; 9], &mut record), Err(Refusal::Doubt));
    assert_eq!(record, [9; 3]);
    let reason = traymark::explain_mark(&LATER_PLAN, &[1, 0, 0], &CASE_D, &SURE, &mut record);
    assert_eq!(reason, Ok(Reason::Nothing { excess: 2_500 }));
}

#[test]
fn later_strips() {
    let mut record = [9; 2];
    let one_unread = Reading { cost: 250, margin: 250, changed: 0, unread: 1, class: 0 };
    assert_eq!(traymark::read_strip(&LATER_PLAN, &[4, 5, 255], &[0, 0, 100], &mut record), Err(Refusal::Doubt));
    assert_eq!(record, [9; 2]);
    assert_eq!(traymark::read_strip(&LATER_PLAN, &[4, 5, 255], &[0, 0, 250], &mut record), Ok(one_unread));
    assert_eq!(record, [3, 1]);
    let beyond = Reading { cost: 1_050, margin: -550, changed: 2, unread: 0, class: 1 };
    assert_eq!(traymark::measure_strip(&LATER_PLAN, &[0, 0], &[4, 5, 0], &[0, 0, 50]), Ok(beyond));
    let reason = traymark::explain_strip(&LATER_PLAN, &[0, 0], &[4, 5, 1], &[0; 3], &mut record);
    assert_eq!(reason, Ok(Reason::Nothing { excess: 1_000 }));
}

#[test]
fn write_strip() {
    let mut strip = [9; 3];
    assert_eq!(traymark::write_strip(&PLAN, &[3, 7], &mut strip), Err(Refusal::Coefficient));
    assert_eq!(strip, [9; 3]);
    assert_eq!(traymark::write_strip(&PLAN, &[3, 1], &mut strip), Ok(()));
    assert_eq!(strip, [4, 5, 0]);
}

#[test]
fn measure_strip() {
    let on_the_radius = Reading { cost: 200, margin: 0, changed: 1, unread: 0, class: 1 };
    assert_eq!(traymark::measure_strip(&PLAN, &[3, 1], &[4, 5, 1], &[0; 3]), Ok(on_the_radius));
    assert_eq!(traymark::measure_strip(&STRIP_PLAN, &[5], &STRIP.0, &STRIP.1), Ok(STRIP_READING));
    assert_eq!(traymark::measure_strip(&PLAN, &[3, 1], &[4, 5, 7], &[0; 3]), Err(Refusal::Symbol));
}

#[test]
fn read_strip() {
    let mut record = [9; 2];
    assert_eq!(traymark::read_strip(&PLAN, &[4, 5, 1], &[0; 3], &mut record), Err(Refusal::NoRecord));
    assert_eq!(record, [9; 2]);
    let one_unread = Reading { cost: 100, margin: 100, changed: 0, unread: 1, class: 0 };
    assert_eq!(traymark::read_strip(&PLAN, &[4, 5, 255], &[0, 0, 100], &mut record), Ok(one_unread));
    assert_eq!(record, [3, 1]);
    let mut record = [9];
    assert_eq!(traymark::read_strip(&STRIP_PLAN, &STRIP.0, &STRIP.1, &mut record), Ok(STRIP_READING));
    assert_eq!(record, [5]);
}

#[test]
fn explain_mark() {
    let explain = |record: [u8; 3], symbols: &[u8], doubts: &[u8]| {
        let mut other = [9; 3];
        (traymark::explain_mark(&PLAN, &record, symbols, doubts, &mut other), other)
    };
    for (symbols, doubts, _) in PHOTOS {
        assert_eq!(explain(RECORD, &symbols, &doubts), (Ok(Reason::Answer), [9; 3]));
        // the same first row, the same first column, another first cell
        assert_eq!(explain([2, 2, 2], &symbols, &doubts), (Ok(Reason::Other { place: 3 }), RECORD));
        assert_eq!(explain([1, 1, 4], &symbols, &doubts), (Ok(Reason::Other { place: 1 }), RECORD));
        assert_eq!(explain([0, 0, 0], &symbols, &doubts), (Ok(Reason::Other { place: 0 }), RECORD));
    }
    assert_eq!(explain(RECORD, &CASE_D, &SURE), (Ok(Reason::Nothing { excess: 0 }), [9; 3]));
    assert_eq!(explain([1, 0, 0], &CASE_D, &SURE), (Ok(Reason::Nothing { excess: 1_000 }), [9; 3]));
    assert_eq!(explain(RECORD, &CASE_D[..8], &SURE), (Err(Refusal::BufferLength), [9; 3]));
    assert_eq!(explain(RECORD, &[7; 9], &SURE), (Err(Refusal::Symbol), [9; 3]));
    assert_eq!(explain(RECORD, &CASE_F, &SURE), (Err(Refusal::Doubt), [9; 3]));
    assert_eq!(explain([3, 1, 7], &CASE_C, &SURE), (Err(Refusal::Coefficient), [9; 3]));
    let mut longer = [9; 4];
    assert_eq!(traymark::explain_mark(&PLAN, &RECORD, &CASE_C, &SURE, &mut longer), Err(Refusal::BufferLength));
    assert_eq!(traymark::explain_mark(&[], &RECORD, &CASE_C, &SURE, &mut longer), Err(Refusal::PlanForm));
}

#[test]
fn explain_strip() {
    let explain = |plan: &[u8], record: &[u8], symbols: &[u8], doubts: &[u8]| {
        let mut other = vec![9; record.len()];
        (traymark::explain_strip(plan, record, symbols, doubts, &mut other), other)
    };
    assert_eq!(explain(&PLAN, &[3, 1], &[4, 5, 0], &[0; 3]), (Ok(Reason::Answer), vec![9; 2]));
    // the same first cell, another first cell
    assert_eq!(explain(&PLAN, &[2, 2], &[4, 5, 0], &[0; 3]), (Ok(Reason::Other { place: 1 }), vec![3, 1]));
    assert_eq!(explain(&PLAN, &[0, 0], &[4, 5, 0], &[0; 3]), (Ok(Reason::Other { place: 0 }), vec![3, 1]));
    assert_eq!(explain(&PLAN, &[3, 1], &[4, 5, 1], &[0; 3]), (Ok(Reason::Nothing { excess: 0 }), vec![9; 2]));
    assert_eq!(explain(&PLAN, &[0, 0], &[4, 5, 1], &[0; 3]), (Ok(Reason::Nothing { excess: 400 }), vec![9; 2]));
    assert_eq!(explain(&PLAN, &[3, 1, 2], &[4, 5, 1], &[0; 3]), (Err(Refusal::BufferLength), vec![9; 3]));
    assert_eq!(explain(&PLAN, &[3, 7], &[4, 5, 1], &[0; 3]), (Err(Refusal::Coefficient), vec![9; 2]));
    assert_eq!(explain(&STRIP_PLAN, &[5], &STRIP.0, &STRIP.1), (Ok(Reason::Answer), vec![9]));
    assert_eq!(explain(&STRIP_PLAN, &[4], &STRIP.0, &STRIP.1), (Ok(Reason::Other { place: 0 }), vec![5]));
}

/// The marks have the first row of the answer's.
#[test]
fn explain_oblong_marks() {
    for (Oblong { plan, mark, .. }, (record, place)) in OBLONGS.into_iter().zip([([2, 2, 2], 3), ([3, 2, 2], 2)]) {
        let mut other = [9; 3];
        let reason = traymark::explain_mark(&plan, &record, &mark, &[0; 6], &mut other);
        assert_eq!((reason, other), (Ok(Reason::Other { place }), RECORD));
    }
}

/// A call that puts a record's mark, or strip, on symbols or takes it off.
type Mask = fn(&[u8], &[u8], &mut [u8]) -> Result<(), Refusal>;

/// What one of these calls leaves of the symbols.
fn left(call: Mask, plan: &[u8], record: &[u8], symbols: &[u8]) -> (Result<(), Refusal>, Vec<u8>) {
    let mut left = symbols.to_vec();
    (call(plan, record, &mut left), left)
}

/// Masked and unmasked, the other symbols come out.
fn there_and_back([mask, unmask]: [Mask; 2], plan: &[u8], record: &[u8], symbols: &[u8], masked: &[u8]) {
    assert_eq!(left(mask, plan, record, symbols), (Ok(()), masked.to_vec()));
    assert_eq!(left(unmask, plan, record, masked), (Ok(()), symbols.to_vec()));
}

const OF_MARKS: [Mask; 2] = [traymark::mask_mark, traymark::unmask_mark];
const OF_STRIPS: [Mask; 2] = [traymark::mask_strip, traymark::unmask_strip];

#[test]
fn mask_and_unmask_marks() {
    there_and_back(OF_MARKS, &PLAN, &MASK, &MARK, &MASKED_MARK);
    // an unread cell stays, a cell of 0 does not; a mask of 0
    there_and_back(OF_MARKS, &PLAN, &MASK, &[255, 1, 5, 0, 2, 6, 2, 4, 255], &[255, 1, 3, 5, 6, 1, 1, 2, 255]);
    there_and_back(OF_MARKS, &LATER_PLAN, &[0, 0, 0], &MARK, &MARK);
    for Oblong { plan, mark, masked_mark, .. } in OBLONGS {
        there_and_back(OF_MARKS, &plan, &MASK, &mark, &masked_mark);
    }
}

#[test]
fn mask_and_unmask_strips() {
    there_and_back(OF_STRIPS, &PLAN, &MASK[..2], &[4, 5, 0], &[6, 4, 0]);
    there_and_back(OF_STRIPS, &PLAN, &MASK[..2], &[255, 1, 255], &[255, 0, 255]);
    for Oblong { plan, strip, masked_strip, .. } in OBLONGS {
        there_and_back(OF_STRIPS, &plan, &MASK[..2], strip, masked_strip);
    }
}

#[test]
fn masks_refused() {
    // a symbol is 7 in the last cell, a coefficient is 7
    let (record, symbols) = ([7, 4, 6], [0, 1, 3, 5, 6, 1, 1, 2, 7]);
    for (calls, size, cells) in [(OF_MARKS, 3, 9), (OF_STRIPS, 2, 3)] {
        let (record, symbols) = (&record[..size], &symbols[9 - cells..]);
        for call in calls {
            let refused = |plan: &[u8], record: &[u8], symbols: &[u8], refusal: Refusal| {
                assert_eq!(left(call, plan, record, symbols), (Err(refusal), symbols.to_vec()));
            };
            refused(&PLAN[..39], record, symbols, Refusal::PlanForm);
            refused(&PLAN, &record[1..], symbols, Refusal::BufferLength);
            refused(&PLAN, record, &symbols[1..], Refusal::BufferLength);
            refused(&PLAN, record, &[], Refusal::BufferLength);
            refused(&PLAN, record, symbols, Refusal::Symbol);
            refused(&PLAN, record, &MARK[..cells], Refusal::Coefficient);
        }
    }
}

/// A photograph of a masked mark, unmasked, is read as the tray's record; with the mask on it is read as that plus the mask.
#[test]
fn masked_photographs() {
    for (symbols, doubts, reading) in PHOTOS {
        let (mut masked, mut record) = (symbols, [9; 3]);
        assert_eq!(traymark::mask_mark(&PLAN, &MASK, &mut masked), Ok(()));
        assert_eq!(traymark::read_mark(&PLAN, &masked, &doubts, &mut record), Ok(reading));
        assert_eq!(record, MASKED_RECORD);
        assert_eq!(traymark::unmask_mark(&PLAN, &MASK, &mut masked), Ok(()));
        assert_eq!(traymark::read_mark(&PLAN, &masked, &doubts, &mut record), Ok(reading));
        assert_eq!(record, RECORD);
    }
    let (mut masked, mut record) = (CASE_D, [9; 3]);
    assert_eq!(traymark::mask_mark(&PLAN, &MASK, &mut masked), Ok(()));
    assert_eq!(traymark::read_mark(&PLAN, &masked, &SURE, &mut record), Err(Refusal::NoRecord));
    assert_eq!(record, [9; 3]);
}

#[test]
fn a_set_has_the_size_that_the_library_says() {
    assert_eq!(unsafe { traymark::ffi::traymark_set_size() }, SET_SIZE);
    assert_eq!(size_of::<Set>(), SET_SIZE);
}

/// The symbols and the doubts of the combination.
fn combined(set: &Set) -> ([u8; 9], [u8; 9]) {
    let (mut symbols, mut doubts) = ([9; 9], [9; 9]);
    assert_eq!(set.combine(&mut symbols, &mut doubts), Ok(()));
    (symbols, doubts)
}

/// What is said of the combination's record, and the record.
fn read(set: &Set) -> (Result<Reading, Refusal>, [u8; 3]) {
    let mut record = [9; 3];
    (set.read(&mut record), record)
}

/// The bytes of a set that holds none, or the mark as each of these photographs.
fn bytes_of_set(plan: &[u8; PLAN_LENGTH], held: &[usize]) -> [u8; SET_SIZE] {
    let mut bytes = [255; SET_SIZE];
    bytes[..PLAN_LENGTH].copy_from_slice(plan);
    bytes[40..49].fill(0);
    for k in held {
        bytes[40 + k] = 1;
        bytes[49 + 256 * k..][..9].copy_from_slice(&MARK);
    }
    bytes
}

#[test]
fn sets_are_filled_and_emptied() {
    let mut set = Set::start(&PLAN).unwrap();
    assert_eq!(set.as_bytes(), &bytes_of_set(&PLAN, &[]));
    assert_eq!(combined(&set), ([255; 9], [100; 9]));
    assert_eq!(read(&set), (Err(Refusal::NoRecord), [9; 3]));
    for photograph in 0..9 {
        assert_eq!(set.add(photograph, &MARK, &[10 * photograph as u8; 9]), Ok(()));
    }
    assert_eq!(set.as_bytes(), &bytes_of_set(&PLAN, &[0, 1, 2, 3, 4, 5, 6, 7, 8]));
    assert_eq!(combined(&set), (MARK, SURE));
    let right = Reading { cost: 0, margin: 600, changed: 0, unread: 0, class: 0 };
    assert_eq!(read(&set), (Ok(right), RECORD));
    for photograph in [8, 0, 4, 3, 5, 1, 7] {
        assert_eq!(set.withdraw(photograph), Ok(()));
    }
    assert_eq!(set.as_bytes(), &bytes_of_set(&PLAN, &[2, 6]));
    assert_eq!(set.add(8, &MARK, &SURE), Ok(()));
    assert_eq!(set, Set::from_bytes(bytes_of_set(&PLAN, &[2, 6, 8])));
    assert_eq!(set.restart(&LATER_PLAN), Ok(()));
    assert_eq!(set.as_bytes(), &bytes_of_set(&LATER_PLAN, &[]));
    assert_eq!(combined(&set), ([255; 9], [250; 9]));
}

/// Cells of three photographs: all agree, 2 to 1, a tie of three, a tie of two, one vote, none.
#[test]
fn sets_combine_by_votes() {
    let photographs =
        [[6, 1, 5, 6, 5, 255, 255, 255, 0], [6, 1, 4, 255, 5, 4, 255, 0, 0], [6, 3, 3, 2, 255, 255, 255, 255, 6]];
    for (plan, full, two_of_three) in [(PLAN, 100, 67), (LATER_PLAN, 250, 167)] {
        let mut set = Set::start(&plan).unwrap();
        for (photograph, symbols) in (0..).zip(&photographs) {
            let doubts = symbols.map(|symbol| if symbol == 255 { full } else { 1 });
            assert_eq!(set.add(photograph, symbols, &doubts), Ok(()));
        }
        let doubts = [0, two_of_three, full, full, 0, 0, full, 0, two_of_three];
        assert_eq!(combined(&set), ([6, 1, 3, 2, 5, 4, 255, 0, 0], doubts));
    }
}

/// Case c alone, then with case d, then case d alone.
#[test]
fn sets_are_read() {
    let mut set = Set::start(&PLAN).unwrap();
    assert_eq!(set.add(0, &CASE_C, &SURE), Ok(()));
    let alone = Reading { cost: 400, margin: 200, changed: 2, unread: 0, class: 1 };
    assert_eq!(read(&set), (Ok(alone), RECORD));
    assert_eq!(set.add(5, &CASE_D, &SURE), Ok(()));
    // three cells tie, and the smaller symbol is the wrong one
    assert_eq!(combined(&set), ([0, 0, 0, 0, 2, 6, 2, 4, 0], [0, 100, 100, 0, 0, 0, 0, 0, 100]));
    let both = Reading { cost: 500, margin: 100, changed: 4, unread: 0, class: 2 };
    assert_eq!(read(&set), (Ok(both), RECORD));
    assert_eq!(set.withdraw(0), Ok(()));
    assert_eq!(read(&set), (Err(Refusal::NoRecord), [9; 3]));
    assert_eq!(set.read(&mut [9; 2]), Err(Refusal::BufferLength));
}

/// Each refusal with later ones beside it; the set stays as it was.
#[test]
fn sets_refuse() {
    assert_eq!(Set::start(&PLAN[..39]), Err(Refusal::PlanForm));
    let mut set = Set::from_bytes(bytes_of_set(&PLAN, &[4]));
    let before = set.clone();
    let unsound = plan([0, 12, 9, 3, 3, 1], [1, 2, 4], [1, 2, 4]);
    assert_eq!(set.restart(&unsound), Err(Refusal::Modulus));
    assert_eq!(set.add(4, &[7; 8], &[101; 9]), Err(Refusal::BufferLength));
    assert_eq!(set.add(9, &[7; 9], &[101; 8]), Err(Refusal::BufferLength));
    assert_eq!(set.add(4, &[7; 9], &[101; 9]), Err(Refusal::NotFree));
    for far in [9, 256, 1 << 16, u32::MAX] {
        assert_eq!(set.add(far, &MARK, &SURE), Err(Refusal::NotFree));
        assert_eq!(set.withdraw(far), Err(Refusal::NotHeld));
    }
    assert_eq!(set.add(3, &[7; 9], &[101; 9]), Err(Refusal::Symbol));
    assert_eq!(set.add(3, &MARK, &[101; 9]), Err(Refusal::Doubt));
    assert_eq!(set.add(3, &CASE_F, &SURE), Err(Refusal::Doubt));
    assert_eq!(set.withdraw(3), Err(Refusal::NotHeld));
    let (mut short, mut cells) = ([9; 8], [9; 9]);
    assert_eq!(set.combine(&mut short, &mut cells), Err(Refusal::BufferLength));
    assert_eq!(set.combine(&mut cells, &mut short), Err(Refusal::BufferLength));
    assert_eq!((short, cells), ([9; 8], [9; 9]));
    assert_eq!(set, before);
}

/// Bytes that no call has made: the plan is checked at each use, any flag but 0 is held, and every place votes.
#[test]
fn sets_of_any_bytes() {
    let zeros = Set::from_bytes([0; SET_SIZE]);
    assert_eq!(read(&zeros), (Err(Refusal::Modulus), [9; 3]));
    assert_eq!(zeros.clone().add(0, &MARK, &SURE), Err(Refusal::Modulus));
    assert_eq!(zeros.clone().withdraw(0), Err(Refusal::NotHeld));
    let mut bytes = bytes_of_set(&PLAN, &[4]);
    (bytes[42], bytes[49]) = (77, 254);
    let mut set = Set::from_bytes(bytes);
    assert_eq!(set.add(2, &MARK, &SURE), Err(Refusal::NotFree));
    assert_eq!(combined(&set).0, MARK);
    assert_eq!(set.withdraw(2), Ok(()));
    assert_eq!(set.withdraw(4), Ok(()));
    assert_eq!(read(&set), (Err(Refusal::Symbol), [9; 3]));
}
