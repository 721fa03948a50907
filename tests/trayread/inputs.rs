//! The inputs: document 01's cases and a few more with what they print, worked out by hand, of seasons before 30 and from it on,
//! and others with what the independent decoder says.

use crate::printed::printed;
use independent::calls::bytes;
use independent::{Code, Plan, PLAN};
use traymark_tests::photo::{one_cell_read, photograph, rival};
use traymark_tests::plans::{self, plan_a, season_12, with_season, Shape, LARGE_OBLONGS, LARGE_SQUARES};
use traymark_tests::program::{all_lengths, changed, rubbish, Input};
use traymark_tests::random::Random;

pub fn inputs() -> Vec<Input> {
    let mut inputs = documented();
    inputs.extend(finer());
    inputs.extend(in_two_seasons());
    inputs.extend(changed_and_unread());
    inputs.extend(half_trays());
    inputs.extend(lengths());
    inputs.extend(counts());
    inputs.extend(every_length());
    inputs.extend(unsound());
    inputs.extend(unsound_large());
    inputs.extend(photographs());
    inputs.extend(rubbish(600, printed));
    inputs
}

fn input(name: impl Into<String>, bytes: Vec<u8>) -> Input {
    let printed = printed(&bytes);
    Input::new(name, bytes, printed)
}

fn joined(parts: &[&[u8]]) -> Vec<u8> {
    parts.concat()
}

/// Case c of document 01.
fn case_c() -> Vec<u8> {
    joined(&[&plan_a(), &[0, 1, 5, 0, 2, 6, 2, 4, 0], &[0; 9]])
}

/// The mark of 3 + X + 2Y by plan A.
const MARK: [u8; 9] = [6, 1, 5, 0, 2, 6, 2, 4, 1];

/// Plan A, these symbols, and that doubt for the first cells.
fn in_doubt(symbols: [u8; 9], cells: usize, doubt: u8) -> Vec<u8> {
    let mut doubts = [0; 9];
    doubts[..cells].fill(doubt);
    joined(&[&plan_a(), &symbols, &doubts])
}

/// The mark, with that symbol and doubt for the first cells.
fn first_cells(cells: usize, symbol: u8, doubt: u8) -> Vec<u8> {
    let mut symbols = MARK;
    symbols[..cells].fill(symbol);
    in_doubt(symbols, cells, doubt)
}

fn three_wrong(doubt: u8) -> Vec<u8> {
    first_cells(3, 0, doubt)
}

/// p 2.
fn small(d: usize, points: &[u32], photo: &[u8]) -> Vec<u8> {
    joined(&[&season_12(2, d, points, points), photo])
}

/// The reading cases of document 01.
#[rustfmt::skip]
fn documented() -> Vec<Input> {
    let unread = |cells: usize| first_cells(cells, 255, 100);
    let said = |name: &str, bytes: Vec<u8>, printed: &str| Input::new(format!("case {name}"), bytes, printed);
    vec![
        said("b", joined(&[&plan_a(), &MARK, &[0; 9]]), "READ 12 0 0 0 0 600\nRECORD 3 1 2\n"),
        said("c", case_c(), "READ 12 2 0 1 400 200\nRECORD 3 1 2\n"),
        Input { pieces: 6, ..said("c in pieces", case_c(), "READ 12 2 0 1 400 200\nRECORD 3 1 2\n") },
        said("d", three_wrong(0), "REFUSED 10\n"),
        said("e", three_wrong(1), "READ 12 3 0 1 597 3\nRECORD 3 1 2\n"),
        said("f", unread(5), "READ 12 0 5 0 500 100\nRECORD 3 1 2\n"),
        said("g", unread(6), "REFUSED 10\n"),
        said("h", small(0, &[0], &[1, 99]), "READ 12 0 0 0 99 1\nRECORD 1\n"),
        said("i", small(0, &[0], &[1, 100]), "REFUSED 10\n"),
        said("j", small(1, &[0, 1], &[1, 0, 0, 0, 0, 0, 0, 0]), "REFUSED 10\n"),
    ]
}

/// The same cases with doubts in 250ths, in the first season that has them and in later ones.
#[rustfmt::skip]
fn finer() -> Vec<Input> {
    let unread = |cells: usize| first_cells(cells, 255, 250);
    let said = |name: &str, season: u16, bytes: Vec<u8>, printed: &str| {
        Input::new(format!("case {name}, season {season}"), with_season(&bytes, season), printed)
    };
    vec![
        said("b", 30, joined(&[&plan_a(), &MARK, &[0; 9]]), "READ 30 0 0 0 0 1500\nRECORD 3 1 2\n"),
        said("c", 30, case_c(), "READ 30 2 0 1 1000 500\nRECORD 3 1 2\n"),
        Input { pieces: 6, ..said("c in pieces", 268, case_c(), "READ 268 2 0 1 1000 500\nRECORD 3 1 2\n") },
        said("d", 30, three_wrong(0), "REFUSED 10\n"),
        said("e", 30, three_wrong(1), "READ 30 3 0 1 1497 3\nRECORD 3 1 2\n"),
        said("e", 7_680, three_wrong(1), "READ 7680 3 0 1 1497 3\nRECORD 3 1 2\n"),
        said("f", 30, unread(5), "READ 30 0 5 0 1250 250\nRECORD 3 1 2\n"),
        said("f", 65_535, unread(5), "READ 65535 0 5 0 1250 250\nRECORD 3 1 2\n"),
        said("g", 30, unread(6), "REFUSED 10\n"),
        said("h", 30, small(0, &[0], &[1, 249]), "READ 30 0 0 0 249 1\nRECORD 1\n"),
        said("i", 30, small(0, &[0], &[1, 250]), "REFUSED 10\n"),
        said("j", 30, small(1, &[0, 1], &[1, 0, 0, 0, 0, 0, 0, 0]), "REFUSED 10\n"),
    ]
}

/// The same bytes in the last season before 30, and in 30: doubts at the bounds, and marks that read otherwise.
#[rustfmt::skip]
fn in_two_seasons() -> Vec<Input> {
    let two_marks = joined(&[&plan_a(), &[6, 1, 5, 1, 3, 0, 5, 4, 1], &[0, 0, 0, 100, 100, 100, 100, 0, 0]]);
    let each = |name: &str, bytes: Vec<u8>, printed: [&str; 2]| {
        [(29, printed[0]), (30, printed[1])].map(|(season, printed)| {
            Input::new(format!("{name}, season {season}"), with_season(&bytes, season), printed)
        })
    };
    [
        each("six in doubt 100", in_doubt(MARK, 6, 100), ["REFUSED 10\n", "READ 30 0 0 0 600 900\nRECORD 3 1 2\n"]),
        each("in doubt 100", in_doubt(MARK, 1, 100),
            ["READ 29 0 0 0 100 500\nRECORD 3 1 2\n", "READ 30 0 0 0 100 1400\nRECORD 3 1 2\n"]),
        each("in doubt 101", in_doubt(MARK, 1, 101), ["REFUSED 8\n", "READ 30 0 0 0 101 1399\nRECORD 3 1 2\n"]),
        each("in doubt 250", in_doubt(MARK, 1, 250), ["REFUSED 8\n", "READ 30 0 0 0 250 1250\nRECORD 3 1 2\n"]),
        each("in doubt 251", in_doubt(MARK, 1, 251), ["REFUSED 8\n", "REFUSED 8\n"]),
        each("unread with 100", first_cells(1, 255, 100), ["READ 29 0 1 0 100 500\nRECORD 3 1 2\n", "REFUSED 8\n"]),
        each("unread with 249", first_cells(1, 255, 249), ["REFUSED 8\n", "REFUSED 8\n"]),
        each("unread with 250", first_cells(1, 255, 250), ["REFUSED 8\n", "READ 30 0 1 0 250 1250\nRECORD 3 1 2\n"]),
        each("another record", two_marks,
            ["READ 29 4 0 2 400 200\nRECORD 3 1 2\n", "READ 30 2 0 1 1400 100\nRECORD 2 2 2\n"]),
    ]
    .into_iter()
    .flatten()
    .collect()
}

/// A cell wrong and a cell unread; a cell unread where the mark is 0; a hundred cells wrong and a hundred unread; none of either.
fn changed_and_unread() -> Vec<Input> {
    let hundreds = |season: u16, full: u8| {
        joined(&[&sixteen(season).bytes(), &[1; 100], &[255; 100], &[250; 56], &[full; 200], &[0; 56]])
    };
    let mixed = joined(&[&plan_a(), &[0, 255, 5, 0, 2, 6, 2, 4, 1], &[0, 100, 0, 0, 0, 0, 0, 0, 0]]);
    let no_zero = joined(&[&plan_a(), &[6, 1, 5, 255, 2, 6, 2, 4, 1], &[0, 0, 0, 100, 0, 0, 0, 0, 0]]);
    let clean = joined(&[&sixteen(65_535).bytes(), &[250; 256], &[0; 256]]);
    vec![
        Input::new("a cell wrong and a cell unread", mixed, "READ 12 1 1 1 300 300\nRECORD 3 1 2\n"),
        Input::new("unread where the mark is 0", no_zero, "READ 12 0 1 0 100 500\nRECORD 3 1 2\n"),
        Input::new("hundreds, season 29", hundreds(29, 100), "READ 29 100 100 3 20000 5600\nRECORD 250\n"),
        Input::new("hundreds, season 65535", hundreds(65_535, 250), "READ 65535 100 100 3 50000 14000\nRECORD 250\n"),
        Input::new("the highest margin", clean, "READ 65535 0 0 0 0 64000\nRECORD 250\n"),
    ]
}

/// 16 by 16 cells, d 0, p 251.
fn sixteen(season: u16) -> Plan {
    let points: Vec<u32> = (0..16).collect();
    Plan { season, p: 251, degree: 0, row_points: points.clone(), column_points: points }
}

/// 3 + X + 2Y with three rows and two columns, and with two rows and three columns: clean, a cost under the radius of 300 and
/// at it, and the one mark under the plan of the other, with rows and columns exchanged and as it stands.
fn half_trays() -> Vec<Input> {
    let (tall, broad) = (season_12(7, 1, &[1, 2, 4], &[3, 5]), season_12(7, 1, &[3, 5], &[1, 2, 4]));
    let (tall_mark, broad_mark) = ([3, 0, 4, 1, 6, 3], [1, 3, 0, 3, 5, 2]);
    let said =
        |name: &str, parts: &[&[u8]], printed: &str| Input::new(format!("half tray, {name}"), joined(parts), printed);
    vec![
        said("clean", &[&tall, &tall_mark, &[0; 6]], "READ 12 0 0 0 0 300\nRECORD 3 1 2\n"),
        said("broad", &[&broad, &broad_mark, &[0; 6]], "READ 12 0 0 0 0 300\nRECORD 3 1 2\n"),
        said(
            "under the radius",
            &[&tall, &[0, 0, 4, 1, 6, 3], &[0, 0, 0, 0, 0, 99]],
            "READ 12 1 0 1 299 1\nRECORD 3 1 2\n",
        ),
        said("at the radius", &[&tall, &[0, 0, 4, 1, 6, 255], &[0, 0, 0, 0, 0, 100]], "REFUSED 10\n"),
        said("exchanged", &[&broad, &[3, 4, 6, 0, 1, 3], &[0; 6]], "READ 12 0 0 0 0 300\nRECORD 3 2 1\n"),
        said(
            "under the radius, season 30",
            &[&with_season(&tall, 30), &[0, 0, 4, 1, 6, 3], &[0, 0, 0, 0, 0, 249]],
            "READ 30 1 0 1 749 1\nRECORD 3 1 2\n",
        ),
        input("half tray, one mark under the other's plan", joined(&[&broad, &tall_mark, &[0; 6]])),
    ]
}

/// Case c cut short or with more bytes after it.
fn lengths() -> Vec<Input> {
    let short = [0, 1, 2, 5, 21, 24, 38, 39, 40, 41, 48, 49, 50, 57].map(|length| {
        let expected = if length < PLAN { "REFUSED 1\n" } else { "REFUSED 6\n" };
        Input::new(format!("case c, {length} bytes of it"), case_c()[..length].to_vec(), expected)
    });
    let long = [1, 9, 18, 40, 4_096, 65_536, 1_000_000].map(|more| {
        let mut bytes = case_c();
        bytes.resize(bytes.len() + more, 0);
        Input::new(format!("case c and {more} bytes"), bytes, "REFUSED 6\n")
    });
    short.into_iter().chain(long).collect()
}

/// Marks, small and large, square and oblong, with one byte less than they have, one more and 5,000 more.
fn counts() -> Vec<Input> {
    let squares = [(251, 1, 1, 0), (251, 3, 3, 1), (251, 16, 16, 7)];
    let oblongs = [(251, 16, 1, 0), (251, 1, 16, 0), (251, 16, 8, 7), (251, 8, 16, 3)];
    let mut inputs = Vec::new();
    for shape in squares.into_iter().chain(oblongs) {
        let good = unharmed(shape);
        for length in [good.len() - 1, good.len() + 1, good.len() + 5_000] {
            let mut bytes = good.clone();
            bytes.resize(length, 0);
            inputs.push(Input::new(format!("{shape:?}, {length} bytes for {}", good.len()), bytes, "REFUSED 6\n"));
        }
        inputs.push(input(format!("{shape:?}, as many bytes as it has"), good));
    }
    inputs
}

/// Of a mark of 16 by 16 cells, and of one of 8 by 16.
fn every_length() -> Vec<Input> {
    let of = |shape: Shape| {
        let good = unharmed(shape);
        all_lengths(&format!("{shape:?}"), &good, &printed(&good))
    };
    [(251, 16, 16, 15), (251, 8, 16, 7)].into_iter().flat_map(of).collect()
}

/// A plan of that shape, of any season, and a mark of it without a fault.
fn unharmed(shape: Shape) -> Vec<u8> {
    let random = &mut Random::new(500);
    let plan = plans::plan(shape, random);
    photographed(&plan, 0, random)
}

/// Case c with one byte changed, and of a later season with another doubt.
fn unsound() -> Vec<Input> {
    let fields = [(38, 1, 1), (39, 9, 1), (2, 9, 2), (2, 252, 2), (2, 1, 2), (5, 3, 4), (5, 255, 4)];
    let rows = [(3, 0, 3), (3, 17, 3), (3, 8, 3), (3, 1, 4), (3, 2, 5), (3, 4, 5)];
    let columns = [(4, 0, 13), (4, 17, 13), (4, 8, 13), (4, 1, 4), (4, 2, 5), (4, 4, 5)];
    let row_points = [(7, 1, 5), (8, 7, 5), (9, 5, 5), (21, 1, 5)];
    let column_points = [(23, 1, 5), (24, 7, 5), (25, 5, 5), (37, 1, 5)];
    let photo = [(40, 7, 7), (48, 254, 7), (49, 101, 8), (57, 255, 8), (40, 255, 8)];
    let all = [&fields[..], &rows, &columns, &row_points, &column_points, &photo].concat();
    let later = [(40, 7, 7), (48, 254, 7), (49, 251, 8), (57, 255, 8), (40, 255, 8)];
    let season_30 = with_season(&case_c(), 30);
    [changed("case c", &case_c(), &all), changed("case c, season 30", &season_30, &later)]
        .into_iter()
        .flatten()
        .collect()
}

/// Large trays of both ages with one byte changed, in the photograph the first and the last symbol and doubt.
fn unsound_large() -> Vec<Input> {
    let fields = [(39, 1, 1), (2, 9, 2), (3, 17, 3), (4, 0, 13), (4, 17, 13), (5, 16, 4)];
    let points = [(6, 251, 5), (21, 251, 5), (22, 251, 5), (37, 251, 5)];
    let large = |shape: &Shape, season: u16, above: u8| {
        let (good, doubts) = (with_season(&unharmed(*shape), season), PLAN + shape.1 * shape.2);
        let photo = [(PLAN, 251, 7), (doubts - 1, 251, 7), (doubts, above, 8), (good.len() - 1, above, 8)];
        changed(&format!("{shape:?}, season {season}"), &good, &[&fields[..], &points, &photo].concat())
    };
    let of_both = |shape: &Shape| [large(shape, 29, 101), large(shape, 30, 251)];
    [&LARGE_SQUARES[..], &LARGE_OBLONGS].concat().iter().flat_map(of_both).flatten().collect()
}

/// Photographs of all sizes and both ages whose cost is clean, around the radius, or anything below it.
fn photographs() -> Vec<Input> {
    let mut inputs = Vec::new();
    for (k, shape) in plans::all_sizes().into_iter().enumerate() {
        let random = &mut Random::new(k as u64);
        for j in 0..5 {
            for season in plans::seasons(random) {
                let plan = Plan { season, ..plans::plan(shape, random) };
                let radius = Code::Mark.radius(&plan);
                let cost = [0, radius / 2, radius - 1, radius, radius + 1][j];
                let name = format!("{plan:?} at cost {cost}");
                inputs.push(Input { pieces: 1 + j % 2 * 4, ..input(name, photographed(&plan, cost, random)) });
            }
        }
    }
    inputs.push(Input::new("one read, season 29", one_read(29, 100), "READ 29 0 255 0 25599 1\nRECORD 250\n"));
    inputs.push(Input::new(
        "one read, season 65535",
        one_read(65_535, 250),
        "READ 65535 0 255 0 63999 1\nRECORD 250\n",
    ));
    inputs
}

fn photographed(plan: &Plan, cost: u32, random: &mut Random) -> Vec<u8> {
    let record = plans::record(Code::Mark, plan, random);
    let rival = rival(Code::Mark, plan, &record, random);
    let [word, rival] = [&record, &rival].map(|record| Code::Mark.word(plan, record));
    let photo = photograph(plan, &word, &rival, cost, random);
    joined(&[&plan.bytes(), &bytes(&photo.symbols), &bytes(&photo.doubts)])
}

/// 16 by 16 cells, d 0: one read cell is enough, though it is almost in full doubt.
fn one_read(season: u16, full: u8) -> Vec<u8> {
    let [symbols, doubts] = one_cell_read(full);
    joined(&[&sixteen(season).bytes(), &symbols, &doubts])
}
