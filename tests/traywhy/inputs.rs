//! The inputs: document 01's cases with expected records and a few more, with what they print, worked out by hand, of seasons
//! before 30 and from it on, and others with what the independent decoder says.

use crate::printed::printed;
use independent::calls::bytes;
use independent::{Code, Plan, PLAN};
use traymark_tests::photo::{agreeing, noise, one_cell_read, photograph, rival, Photo};
use traymark_tests::plans::{self, plan_a, season_12, with_season, Shape, LARGE_OBLONGS, LARGE_SQUARES};
use traymark_tests::program::{all_lengths, changed, rubbish, Input};
use traymark_tests::random::Random;

pub fn inputs() -> Vec<Input> {
    let mut inputs = documented();
    inputs.extend(in_two_seasons());
    inputs.extend(largest());
    inputs.extend(half_trays());
    inputs.extend(lengths());
    inputs.extend(every_length());
    inputs.extend(unsound());
    inputs.extend(unsound_large());
    inputs.extend(photographs());
    inputs.extend(rows_alike());
    inputs.extend(rubbish(800, printed));
    inputs
}

fn input(name: impl Into<String>, bytes: Vec<u8>) -> Input {
    let printed = printed(&bytes);
    Input::new(name, bytes, printed)
}

/// Case c of document 01 with 2 + 2X + 2Y expected.
fn case_c() -> Vec<u8> {
    [&plan_a()[..], &[2, 2, 2], &[0, 1, 5, 0, 2, 6, 2, 4, 0], &[0; 9]].concat()
}

/// The reading cases of document 01 with records that may be expected.
#[rustfmt::skip]
fn documented() -> Vec<Input> {
    let mark = [6, 1, 5, 0, 2, 6, 2, 4, 1];
    let (two_wrong, three_wrong) = ([0, 1, 5, 0, 2, 6, 2, 4, 0], [0, 0, 0, 0, 2, 6, 2, 4, 1]);
    let doubtful = [1, 1, 1, 0, 0, 0, 0, 0, 0];
    let (five, six) = ([255, 255, 255, 255, 255, 6, 2, 4, 1], [255, 255, 255, 255, 255, 255, 2, 4, 1]);
    let said = |name: &str, record: [u8; 3], symbols: [u8; 9], doubts: [u8; 9], printed: &str| {
        let bytes = [&plan_a()[..], &record, &symbols, &doubts].concat();
        Input::new(format!("case {name}, {record:?}"), bytes, printed)
    };
    let full = |cells: usize| std::array::from_fn(|cell| if cell < cells { 100 } else { 0 });
    let small = |d: usize, points: &[u32], rest: &[u8], printed: &str| {
        Input::new(format!("p 2, {rest:?}"), [&season_12(2, d, points, points), rest].concat(), printed)
    };
    vec![
        said("b", [3, 1, 2], mark, [0; 9], "ANSWER 0 600\n"),
        said("b", [3, 1, 3], mark, [0; 9], "OTHER 0\nRECORD 3 1 2\n"),
        said("c", [3, 1, 2], two_wrong, [0; 9], "ANSWER 400 200\n"),
        said("c", [2, 2, 2], two_wrong, [0; 9], "OTHER 3\nRECORD 3 1 2\n"),
        said("c", [0, 0, 0], two_wrong, [0; 9], "OTHER 0\nRECORD 3 1 2\n"),
        Input { pieces: 6, ..said("c in pieces", [2, 2, 2], two_wrong, [0; 9], "OTHER 3\nRECORD 3 1 2\n") },
        said("d", [3, 1, 2], three_wrong, [0; 9], "NONE 0\n"),
        said("d", [2, 2, 2], three_wrong, [0; 9], "NONE 1200\n"),
        said("d", [0, 0, 0], three_wrong, [0; 9], "NONE 400\n"),
        said("e", [3, 1, 2], three_wrong, doubtful, "ANSWER 597 3\n"),
        said("f", [3, 1, 2], five, full(5), "ANSWER 500 100\n"),
        said("f", [3, 1, 3], five, full(5), "OTHER 0\nRECORD 3 1 2\n"),
        said("g", [3, 1, 2], six, full(6), "NONE 0\n"),
        said("d, a coefficient of 7", [3, 7, 2], three_wrong, [0; 9], "REFUSED 9\n"),
        small(0, &[0], &[1, 1, 99], "ANSWER 99 1\n"),
        small(0, &[0], &[0, 1, 99], "OTHER 0\nRECORD 1\n"),
        small(0, &[0], &[1, 1, 100], "NONE 0\n"),
        small(0, &[0], &[0, 1, 100], "NONE 0\n"),
        small(1, &[0, 1], &[0, 0, 0, 1, 0, 0, 0, 0, 0, 0, 0], "NONE 0\n"),
        small(1, &[0, 1], &[0, 1, 0, 1, 0, 0, 0, 0, 0, 0, 0], "NONE 400\n"),
    ]
}

/// Of the last season before 30, and of 30: the same cases with the doubts of each, and bytes that are told otherwise.
#[rustfmt::skip]
fn in_two_seasons() -> Vec<Input> {
    let mark = [6, 1, 5, 0, 2, 6, 2, 4, 1];
    let (three_wrong, two_marks) = ([0, 0, 0, 0, 2, 6, 2, 4, 1], [6, 1, 5, 1, 3, 0, 5, 4, 1]);
    let (five, six) = ([255, 255, 255, 255, 255, 6, 2, 4, 1], [255, 255, 255, 255, 255, 255, 2, 4, 1]);
    let four_doubts = [0, 0, 0, 100, 100, 100, 100, 0, 0];
    let full = |cells: usize, doubt: u8| std::array::from_fn(|cell| if cell < cells { doubt } else { 0 });
    let said = |season: u16, record: [u8; 3], symbols: [u8; 9], doubts: [u8; 9], printed: &str| {
        let bytes = [&with_season(&plan_a(), season)[..], &record, &symbols, &doubts].concat();
        Input::new(format!("season {season}, {record:?}, {symbols:?}, {doubts:?}"), bytes, printed)
    };
    let small = |season: u16, rest: [u8; 3], printed: &str| {
        let bytes = [&with_season(&season_12(2, 0, &[0], &[0]), season)[..], &rest].concat();
        Input::new(format!("season {season}, p 2, {rest:?}"), bytes, printed)
    };
    vec![
        said(30, [3, 1, 2], mark, [0; 9], "ANSWER 0 1500\n"),
        said(30, [2, 2, 2], mark, [0; 9], "OTHER 3\nRECORD 3 1 2\n"),
        said(30, [3, 1, 2], three_wrong, [0; 9], "NONE 0\n"),
        said(30, [2, 2, 2], three_wrong, [0; 9], "NONE 3000\n"),
        said(30, [0, 0, 0], three_wrong, [0; 9], "NONE 1000\n"),
        said(30, [3, 1, 2], three_wrong, full(3, 1), "ANSWER 1497 3\n"),
        said(30, [3, 1, 2], five, full(5, 250), "ANSWER 1250 250\n"),
        said(30, [3, 1, 3], five, full(5, 250), "OTHER 0\nRECORD 3 1 2\n"),
        said(30, [3, 1, 2], six, full(6, 250), "NONE 0\n"),
        said(268, [3, 1, 2], three_wrong, full(3, 1), "ANSWER 1497 3\n"),
        said(7_680, [3, 1, 2], three_wrong, full(3, 1), "ANSWER 1497 3\n"),
        said(65_535, [3, 1, 2], three_wrong, full(3, 1), "ANSWER 1497 3\n"),
        small(30, [1, 1, 249], "ANSWER 249 1\n"),
        small(30, [0, 1, 249], "OTHER 0\nRECORD 1\n"),
        small(30, [1, 1, 250], "NONE 0\n"),
        small(30, [1, 1, 251], "REFUSED 8\n"),
        small(29, [1, 1, 99], "ANSWER 99 1\n"),
        small(29, [1, 1, 101], "REFUSED 8\n"),
        // six cells in doubt 100; one unread, with the full doubt of each season
        said(29, [3, 1, 2], mark, full(6, 100), "NONE 0\n"),
        said(30, [3, 1, 2], mark, full(6, 100), "ANSWER 600 900\n"),
        said(29, [3, 1, 2], five, full(5, 100), "ANSWER 500 100\n"),
        said(30, [3, 1, 2], five, full(5, 100), "REFUSED 8\n"),
        said(29, [3, 1, 2], five, full(5, 250), "REFUSED 8\n"),
        // one photograph of which another record is the answer
        said(29, [3, 1, 2], two_marks, four_doubts, "ANSWER 400 200\n"),
        said(30, [3, 1, 2], two_marks, four_doubts, "OTHER 3\nRECORD 2 2 2\n"),
        said(29, [2, 2, 2], two_marks, four_doubts, "OTHER 3\nRECORD 3 1 2\n"),
        said(30, [2, 2, 2], two_marks, four_doubts, "ANSWER 1400 100\n"),
    ]
}

/// The largest numbers, of 16 by 16 cells with p 251: with d 0 all cells right, or one read, almost in full doubt; with d 15 all
/// cells wrong, eight of them so that no record is the answer.
fn largest() -> Vec<Input> {
    let points: Vec<u32> = (0..16).collect();
    let said = |season: u16, degree: usize, photo: [[u8; 256]; 2], record: u8, printed: &str| {
        let plan = with_season(&season_12(251, degree, &points, &points), season);
        let record = vec![record; (degree + 1) * (degree + 2) / 2];
        Input::new(format!("season {season}, d {degree}, {printed}"), [plan, record, photo.concat()].concat(), printed)
    };
    let eight_8s = [std::array::from_fn(|cell| if cell < 8 { 8 } else { 7 }), [0; 256]];
    vec![
        said(29, 0, [[250; 256], [0; 256]], 250, "ANSWER 0 25600\n"),
        said(65_535, 0, [[250; 256], [0; 256]], 250, "ANSWER 0 64000\n"),
        said(29, 0, one_cell_read(100), 250, "ANSWER 25599 1\n"),
        said(65_535, 0, one_cell_read(250), 250, "ANSWER 63999 1\n"),
        said(29, 15, eight_8s, 0, "NONE 49600\n"),
        said(65_535, 15, eight_8s, 0, "NONE 124000\n"),
    ]
}

/// 3 + X + 2Y with three rows and two columns, and with two rows and three columns, its mark clean. Another record has the same
/// first row, the same first column, or no cell the same.
fn half_trays() -> Vec<Input> {
    let (tall, broad) = (season_12(7, 1, &[1, 2, 4], &[3, 5]), season_12(7, 1, &[3, 5], &[1, 2, 4]));
    let (tall_mark, broad_mark) = ([3, 0, 4, 1, 6, 3], [1, 3, 0, 3, 5, 2]);
    let said = |plan: &[u8], record: [u8; 3], mark: [u8; 6], printed: &str| {
        Input::new(format!("half tray, {record:?}"), [plan, &record, &mark, &[0; 6]].concat(), printed)
    };
    vec![
        said(&tall, [3, 1, 2], tall_mark, "ANSWER 0 300\n"),
        said(&tall, [2, 2, 2], tall_mark, "OTHER 2\nRECORD 3 1 2\n"),
        said(&tall, [0, 1, 3], tall_mark, "OTHER 1\nRECORD 3 1 2\n"),
        said(&tall, [4, 1, 2], tall_mark, "OTHER 0\nRECORD 3 1 2\n"),
        said(&broad, [3, 1, 2], broad_mark, "ANSWER 0 300\n"),
        said(&broad, [0, 2, 2], broad_mark, "OTHER 3\nRECORD 3 1 2\n"),
        said(&broad, [2, 1, 3], broad_mark, "OTHER 1\nRECORD 3 1 2\n"),
        input("half tray, one mark under the other's plan", [&broad[..], &[3, 1, 2], &tall_mark, &[0; 6]].concat()),
    ]
}

/// Case c cut short or with more bytes after it.
fn lengths() -> Vec<Input> {
    let short = [0, 1, 2, 5, 24, 39, 40, 41, 42, 43, 44, 51, 52, 53, 58, 60].map(|length| {
        let expected = if length < PLAN { "REFUSED 1\n" } else { "REFUSED 6\n" };
        Input::new(format!("case c, {length} bytes of it"), case_c()[..length].to_vec(), expected)
    });
    let long = [1, 9, 18, 40, 4_096, 65_536, 1_000_000].map(|more| {
        let mut bytes = case_c();
        bytes.resize(bytes.len() + more, 0);
        Input::new(format!("case c and {more} bytes"), bytes, "REFUSED 6\n")
    });
    short.into_iter().chain(long).collect()
}

/// Of the longest input, of 16 by 16 cells and 136 coefficients, and of two of 8 by 16 and 16 by 8.
fn every_length() -> Vec<Input> {
    let of = |shape: Shape| {
        let good = clean(shape);
        all_lengths(&format!("{shape:?}"), &good, &printed(&good))
    };
    [(251, 16, 16, 15), (251, 8, 16, 7), (251, 16, 8, 0)].into_iter().flat_map(of).collect()
}

/// A plan of that shape, a rival expected, and a mark without a fault.
fn clean(shape: Shape) -> Vec<u8> {
    let random = &mut Random::new(500);
    let plan = plans::plan(shape, random);
    let record = plans::record(Code::Mark, &plan, random);
    let expected = rival(Code::Mark, &plan, &record, random);
    let cells = Code::Mark.cells(&plan);
    asked(&plan, &expected, &Photo { symbols: Code::Mark.word(&plan, &record), doubts: vec![0; cells] })
}

fn asked(plan: &Plan, expected: &[u32], photo: &Photo) -> Vec<u8> {
    [plan.bytes().to_vec(), bytes(expected), bytes(&photo.symbols), bytes(&photo.doubts)].concat()
}

/// Case c with one byte changed, and of a later season with another doubt; with another degree the plan is sound, and the count
/// of bytes is wrong.
fn unsound() -> Vec<Input> {
    let fields = [(38, 1, 1), (39, 9, 1), (2, 9, 2), (2, 252, 2), (2, 1, 2), (5, 3, 4), (5, 255, 4)];
    let sides = [(3, 0, 3), (3, 17, 3), (3, 8, 3), (3, 1, 4), (4, 0, 13), (4, 17, 13), (4, 8, 13), (4, 1, 4)];
    let points = [(7, 1, 5), (8, 7, 5), (9, 5, 5), (21, 1, 5), (23, 1, 5), (24, 7, 5), (25, 5, 5), (37, 1, 5)];
    let counts = [(3, 2, 5), (3, 4, 5), (4, 2, 5), (4, 4, 5), (5, 0, 6), (5, 2, 6)];
    let record = [(40, 7, 9), (41, 255, 9), (42, 8, 9)];
    let photo = [(43, 7, 7), (51, 254, 7), (52, 101, 8), (60, 255, 8), (43, 255, 8)];
    let all = [&fields[..], &sides, &points, &counts, &record, &photo].concat();
    let later = [(52, 251, 8), (60, 255, 8), (43, 255, 8)];
    let season_30 = with_season(&case_c(), 30);
    [changed("case c", &case_c(), &all), changed("case c, season 30", &season_30, &later)]
        .into_iter()
        .flatten()
        .collect()
}

/// Large trays of both ages with one byte changed: the first and the last coefficient, symbol and doubt among them.
fn unsound_large() -> Vec<Input> {
    let plan = [(39, 1, 1), (2, 9, 2), (3, 17, 3), (4, 0, 13), (5, 16, 4), (6, 251, 5), (22, 251, 5)];
    let large = |shape: &Shape, season: u16, above: u8| {
        let (good, cells) = (with_season(&clean(*shape), season), shape.1 * shape.2);
        let doubts = good.len() - cells;
        let symbols = doubts - cells;
        let record = [(PLAN, 251, 9), (symbols - 1, 251, 9)];
        let photo = [(symbols, 251, 7), (doubts - 1, 251, 7), (doubts, above, 8), (good.len() - 1, above, 8)];
        changed(&format!("{shape:?}, season {season}"), &good, &[&plan[..], &record, &photo].concat())
    };
    let of_both = |shape: &Shape| [large(shape, 29, 101), large(shape, 30, 251)];
    [&LARGE_SQUARES[..], &LARGE_OBLONGS].concat().iter().flat_map(of_both).flatten().collect()
}

/// Photographs of all sizes and both ages whose cost is clean, around the radius, or anything below it, and of nothing; with the
/// record itself expected, a rival of it, and any record.
fn photographs() -> Vec<Input> {
    let mut inputs = Vec::new();
    for (k, shape) in plans::all_sizes().into_iter().enumerate() {
        let random = &mut Random::new(k as u64);
        for j in 0..5 {
            for season in plans::seasons(random) {
                let plan = Plan { season, ..plans::plan(shape, random) };
                let radius = Code::Mark.radius(&plan);
                inputs.extend(expected(&plan, [0, radius / 2, radius - 1, radius, radius + 1][j], random));
            }
        }
    }
    inputs
}

/// The same of one plan and cost.
fn expected(plan: &Plan, cost: u32, random: &mut Random) -> Vec<Input> {
    let record = plans::record(Code::Mark, plan, random);
    let near = rival(Code::Mark, plan, &record, random);
    let any = plans::record(Code::Mark, plan, random);
    let words = [&record, &near].map(|record| Code::Mark.word(plan, record));
    let photo = photograph(plan, &words[0], &words[1], cost, random);
    let mut inputs = Vec::new();
    for (j, expected) in [&record, &near, &any].into_iter().enumerate() {
        let name = format!("{plan:?} at cost {cost}, {expected:?} expected");
        inputs.push(Input { pieces: 1 + j % 2 * 4, ..input(name, asked(plan, expected, &photo)) });
    }
    let nothing = noise(Code::Mark, plan, random);
    inputs.push(input(format!("{plan:?}, a photograph of nothing"), asked(plan, &any, &nothing)));
    inputs
}

/// Records whose marks are alike in so many rows from the first: the lowest place at which they differ is where the next begins.
fn rows_alike() -> Vec<Input> {
    let mut inputs = Vec::new();
    for shape in [(13, 9, 5, 4), (101, 7, 12, 6), (251, 16, 16, 15)] {
        let random = &mut Random::new(900);
        let plan = plans::plan(shape, random);
        let record = plans::record(Code::Mark, &plan, random);
        let clean = Photo { symbols: Code::Mark.word(&plan, &record), doubts: vec![0; Code::Mark.cells(&plan)] };
        let coefficients: Vec<String> = record.iter().map(u32::to_string).collect();
        for alike in 0..=plan.degree {
            let expected = agreeing(Code::Mark, &plan, &record, [&plan.row_points[..alike], &[]], random);
            let printed = format!("OTHER {}\nRECORD {}\n", alike * plan.columns(), coefficients.join(" "));
            inputs.push(Input::new(format!("{shape:?}, {alike} rows alike"), asked(&plan, &expected, &clean), printed));
        }
    }
    inputs
}
