//! The library's method once more, in plain Rust and unproved: what its times are held against.
//!
//! The calls take the same bytes as those of `traymark`, make the same checks and give the same answers. Below
//! those for marks the layers are those of the library: numbers modulo p (`field`), polynomials (`polynomial`), the strip
//! decoder (`order`, `newton`, `interpolation`, `strip`), the mark decoder (`draft`, `steps`), the mark reader (`mark`).
//! They are generic over how a number is taken modulo p: by division (`Plain`) or with a reciprocal (`Tuned`).
//!
//! Marks and strips are masked and unmasked (`masking`). Photographs of one mark are combined (`set`), by sorting the votes of a
//! cell, and the season of a date is found (`season`), by sorting the windows, as one would in Rust, whatever the library does.
//! A set is a value of its own with the plan taken apart, not bytes, and is read by division. Nothing is allocated.

mod checks;
mod draft;
mod field;
mod interpolation;
mod mark;
mod masking;
mod newton;
mod order;
mod plan;
mod polynomial;
mod season;
mod set;
mod steps;
mod strip;
mod tally;

pub use field::{Plain, Reduction, Tuned};
pub use masking::{mask_mark, mask_strip, unmask_mark, unmask_strip};
pub use season::find_season;
pub use set::Set;

use plan::Plan;
use polynomial::Powers;
use tally::Tally;
use traymark::{Reading, Reason, Refusal};

/// Writes the mark of a record, as `traymark::write_mark`.
pub fn write_mark<R: Reduction>(plan: &[u8], record: &[u8], mark: &mut [u8]) -> Result<(), Refusal> {
    let plan: Plan<R> = Plan::parse(plan)?;
    checks::lengths(&[(record.len(), plan.size()), (mark.len(), plan.cells())])?;
    checks::record(&plan, record)?;
    let powers = Powers::new(&plan);
    let in_y = powers.put_in_x(&polynomial::columns(record, plan.degree));
    for (r, row) in mark.chunks_exact_mut(plan.columns).enumerate() {
        for (cell, value) in row.iter_mut().zip(powers.row(&in_y, r)) {
            *cell = value as u8;
        }
    }
    Ok(())
}

/// Measures a record against a photographed mark, as `traymark::measure_mark`.
pub fn measure_mark<R: Reduction>(
    plan: &[u8],
    record: &[u8],
    symbols: &[u8],
    doubts: &[u8],
) -> Result<Reading, Refusal> {
    let plan: Plan<R> = Plan::parse(plan)?;
    checks::photograph(&plan, symbols, doubts, record.len())?;
    checks::record(&plan, record)?;
    let tally = tally(&plan, &Powers::new(&plan), record, symbols, doubts);
    Ok(tally.reading(symbols, plan.radius()))
}

/// Reads a photographed mark, as `traymark::read_mark`.
pub fn read_mark<R: Reduction>(
    plan: &[u8],
    symbols: &[u8],
    doubts: &[u8],
    record: &mut [u8],
) -> Result<Reading, Refusal> {
    let plan: Plan<R> = Plan::parse(plan)?;
    checks::photograph(&plan, symbols, doubts, record.len())?;
    mark::read(&plan, symbols, doubts, record)
}

/// Explains why a record did not come up, as `traymark::explain_mark`.
pub fn explain_mark<R: Reduction>(
    plan: &[u8],
    record: &[u8],
    symbols: &[u8],
    doubts: &[u8],
    other: &mut [u8],
) -> Result<Reason, Refusal> {
    let plan: Plan<R> = Plan::parse(plan)?;
    checks::lengths(&[(other.len(), plan.size())])?;
    checks::photograph(&plan, symbols, doubts, record.len())?;
    checks::record(&plan, record)?;
    let powers = Powers::new(&plan);
    let cost = tally(&plan, &powers, record, symbols, doubts).cost;
    if cost < plan.radius() {
        return Ok(Reason::Answer);
    }
    match mark::decode(&plan, symbols, doubts, other) {
        Some(_) => Ok(Reason::Other { place: first_difference(&plan, &powers, record, other) }),
        None => Ok(Reason::Nothing { excess: cost - plan.radius() }),
    }
}

/// The tally of a record over all rows.
fn tally<R: Reduction>(plan: &Plan<R>, powers: &Powers<R>, record: &[u8], symbols: &[u8], doubts: &[u8]) -> Tally {
    let in_y = powers.put_in_x(&polynomial::columns(record, plan.degree));
    let mut tally = Tally::default();
    let rows = symbols.chunks_exact(plan.columns).zip(doubts.chunks_exact(plan.columns));
    for (r, (symbols, doubts)) in rows.enumerate() {
        tally += Tally::new(plan.full, symbols, doubts, &powers.row(&in_y, r));
    }
    tally
}

/// The lowest place at which the marks of two records differ.
fn first_difference<R: Reduction>(plan: &Plan<R>, powers: &Powers<R>, record: &[u8], answer: &[u8]) -> usize {
    let marks = [record, answer].map(|record| powers.put_in_x(&polynomial::columns(record, plan.degree)));
    let in_row = |r: usize| {
        let [expected, found] = marks.each_ref().map(|in_y| powers.row(in_y, r));
        let column = (0..plan.columns).find(|&c| expected[c] != found[c]);
        column.map(|c| r * plan.columns + c)
    };
    (0..plan.rows).find_map(in_row).expect("two records have two marks")
}
