//! Photographs of a mark or strip that cost a chosen sum, damaged in many ways.

use crate::random::Random;
use independent::{Code, Plan, UNREAD};
use std::cmp::Ordering::{Equal, Greater, Less};

#[derive(Clone, Debug)]
pub struct Photo {
    pub symbols: Vec<u32>,
    pub doubts: Vec<u32>,
}

/// Which cells are damaged first.
#[derive(Clone, Copy, Debug)]
pub enum Place {
    Anywhere,
    /// row by row
    Rows,
    /// column by column
    Columns,
    /// in a part that grows from a corner
    Corner,
    /// where the rival differs
    Rival,
}

/// What a damaged cell costs, by the full doubt of the season.
#[derive(Clone, Copy, Debug)]
pub enum Harm {
    /// sure errors: twice the full doubt
    Error,
    /// unread, or of full doubt
    Loss,
    /// some of both
    ErrorOrLoss,
    /// right with some doubt
    Doubt,
    /// wrong with some doubt
    DoubtfulError,
    /// doubts of 0, 1, half the full doubt, about 100 and about the full doubt, right and wrong
    Few,
    /// anything from 0 to twice the full doubt
    Any,
}

const PLACES: [Place; 5] = [Place::Anywhere, Place::Rows, Place::Columns, Place::Corner, Place::Rival];
const HARMS: [Harm; 7] =
    [Harm::Error, Harm::Loss, Harm::ErrorOrLoss, Harm::Doubt, Harm::DoubtfulError, Harm::Few, Harm::Any];

/// A way to damage a mark. Where `towards_rival` says so, wrong cells have the rival's value.
#[derive(Clone, Copy, Debug)]
pub struct Damage {
    pub place: Place,
    pub harm: Harm,
    pub towards_rival: bool,
}

/// A photograph of the word that costs exactly so much against it, damaged in any way.
pub fn photograph(plan: &Plan, word: &[u32], rival: &[u32], target: u32, random: &mut Random) -> Photo {
    photograph_in(plan.full_doubt(), plan, word, rival, target, random)
}

/// The same with another full doubt than the season's.
pub fn photograph_in(full: u32, plan: &Plan, word: &[u32], rival: &[u32], target: u32, random: &mut Random) -> Photo {
    let place = random.pick(&PLACES);
    let harm = random.pick(&HARMS);
    let damage = Damage { place, harm, towards_rival: random.one_in(2) };
    damaged_in(full, plan, word, rival, target, damage, random)
}

/// A photograph of the word that costs exactly so much against it, damaged in this way.
pub fn damaged(plan: &Plan, word: &[u32], rival: &[u32], target: u32, damage: Damage, random: &mut Random) -> Photo {
    damaged_in(plan.full_doubt(), plan, word, rival, target, damage, random)
}

/// The same with another full doubt than the season's.
fn damaged_in(
    full: u32,
    plan: &Plan,
    word: &[u32],
    rival: &[u32],
    target: u32,
    damage: Damage,
    random: &mut Random,
) -> Photo {
    let order = order(damage.place, plan.rows(), word, rival, random);
    let costs = costs(full, &order, damage.harm, target, random);
    let cell = |(cell, cost): (usize, u32)| {
        let wrong = match damage.towards_rival && rival[cell] != word[cell] {
            true => rival[cell],
            false => (word[cell] + random.between(1, plan.p - 1)) % plan.p,
        };
        match cost.cmp(&full) {
            Less => (word[cell], cost),
            Equal => (random.pick(&[UNREAD, UNREAD, word[cell], wrong]), full),
            Greater => (wrong, 2 * full - cost),
        }
    };
    let (symbols, doubts) = costs.into_iter().enumerate().map(cell).unzip();
    Photo { symbols, doubts }
}

/// A photograph of nothing: any symbols, some of them unread, and any doubts or none.
pub fn noise(code: Code, plan: &Plan, random: &mut Random) -> Photo {
    let full = plan.full_doubt();
    let most = random.pick(&[0, 1, full / 2, full]);
    let unread = random.between(2, 20) as usize;
    let cell = |_| match random.one_in(unread) {
        true => (UNREAD, full),
        false => (random.between(0, plan.p - 1), random.between(0, most)),
    };
    let (symbols, doubts) = (0..code.cells(plan)).map(cell).unzip();
    Photo { symbols, doubts }
}

/// A photograph of which no cell was read.
pub fn unread(code: Code, plan: &Plan) -> Photo {
    let cells = code.cells(plan);
    Photo { symbols: vec![UNREAD; cells], doubts: vec![plan.full_doubt(); cells] }
}

/// Symbols and doubts of 256 cells, of which one was read, as 250 and in one below the full doubt. With d 0 the record 250 costs
/// one below the radius.
pub fn one_cell_read(full: u8) -> [[u8; 256]; 2] {
    let mut photo = [[255; 256], [full; 256]];
    (photo[0][77], photo[1][77]) = (250, full - 1);
    photo
}

/// Another record whose mark, or strip, is at a small distance: a multiple of a product of d factors (X - x) and (Y - y) more.
/// With factors along the smaller side alone the marks differ in as few cells as two can.
pub fn rival(code: Code, plan: &Plan, record: &[u32], random: &mut Random) -> Vec<u32> {
    let d = plan.degree;
    let some = random.below(d + 1);
    let in_y = match code {
        Code::Strip => 0,
        Code::Mark if plan.rows() <= plan.columns() => random.pick(&[0, 0, d, some]),
        Code::Mark => random.pick(&[d, d, 0, some]),
    };
    let [mut rows, mut columns] = [&plan.row_points, &plan.column_points].map(Vec::clone);
    random.shuffle(&mut rows);
    random.shuffle(&mut columns);
    agreeing(code, plan, record, [&rows[..d - in_y], &columns[..in_y]], random)
}

/// Another record whose mark has the same values in these rows and columns, d at most, which are named by their points, and
/// outside of them no value that is the same.
pub fn agreeing(code: Code, plan: &Plan, record: &[u32], zeros: [&[u32]; 2], random: &mut Random) -> Vec<u32> {
    let [x, y] = zeros.map(|zeros| product(plan, zeros));
    let factor = random.between(1, plan.p - 1);
    let coefficient = |factors: &[u32], power: usize| factors.get(power).copied().unwrap_or(0);
    let more = |(i, j): (usize, usize)| factor * coefficient(&x, i) % plan.p * coefficient(&y, j) % plan.p;
    let terms = code.monomials(plan).into_iter().zip(record);
    terms.map(|(powers, c)| (c + more(powers)) % plan.p).collect()
}

/// The coefficients, lowest power first, of the product of the factors that are 0 at these points.
fn product(plan: &Plan, zeros: &[u32]) -> Vec<u32> {
    let mut product = vec![1];
    for zero in zeros {
        let shifted = [&[0], &product[..]].concat();
        product.push(0);
        product = shifted.iter().zip(&product).map(|(up, c)| (up + (plan.p - zero) * c) % plan.p).collect();
    }
    product
}

/// The cells in the order of damage. A strip is one column.
fn order(place: Place, rows: usize, word: &[u32], rival: &[u32], random: &mut Random) -> Vec<usize> {
    let columns = word.len() / rows;
    let mut lines: Vec<usize> = (0..rows.max(columns)).collect();
    random.shuffle(&mut lines);
    let flip = [0, 1].map(|_| random.one_in(2));
    let from_end = |k: usize, n: usize, flip: bool| if flip { n - 1 - k } else { k };
    let from_corner = |row: usize, column: usize| {
        let (row, column) = (from_end(row, rows, flip[0]), from_end(column, columns, flip[1]));
        row.max(column)
    };
    let rank = |cell: usize| match place {
        Place::Anywhere => 0,
        Place::Rows => lines[cell / columns],
        Place::Columns => lines[cell % columns],
        Place::Corner => from_corner(cell / columns, cell % columns),
        Place::Rival => usize::from(word[cell] == rival[cell]),
    };
    let mut cells: Vec<usize> = (0..word.len()).collect();
    random.shuffle(&mut cells);
    cells.sort_by_key(|&cell| rank(cell));
    cells
}

/// What each cell costs, so that the sum is the target: by the harm, and where that is not enough up to twice the full doubt
/// each.
fn costs(full: u32, order: &[usize], harm: Harm, target: u32, random: &mut Random) -> Vec<u32> {
    let mut costs = vec![0; order.len()];
    let mut left = target;
    for &cell in order {
        costs[cell] = harm_cost(full, harm, random).min(left);
        left -= costs[cell];
    }
    for &cell in order {
        let more = (2 * full - costs[cell]).min(left);
        costs[cell] += more;
        left -= more;
    }
    assert_eq!(left, 0, "a photograph can cost so much");
    costs
}

fn harm_cost(full: u32, harm: Harm, random: &mut Random) -> u32 {
    match harm {
        Harm::Error => 2 * full,
        Harm::Loss => full,
        Harm::ErrorOrLoss => random.pick(&[full, 2 * full]),
        Harm::Doubt => random.between(1, full - 1),
        Harm::DoubtfulError => random.between(full + 1, 2 * full - 1),
        Harm::Few => {
            let doubt = random.pick(&[0, 1, full / 2, 99, 100, 101, full - 1, full]).min(full);
            random.pick(&[doubt, 2 * full - doubt])
        }
        Harm::Any => random.between(0, 2 * full),
    }
}
