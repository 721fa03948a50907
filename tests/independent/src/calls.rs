//! The calls of document 01, and those since, for both codes.

use crate::code::Code;
use crate::cost::{changed, class, cost, unread};
use crate::exhaustive;
use crate::field::Field;
use crate::mark;
use crate::plan::{widened, Plan, OLD_PLAN, PLAN};
use crate::strip::Strip;
use crate::{Found, UNREAD};

/// What measuring and reading answer. Of a refusal everything but the number is 0.
#[derive(Clone, Copy, Debug, Default, PartialEq, Eq)]
pub struct Reading {
    pub number: u32,
    pub cost: u32,
    pub margin: i32,
    pub changed: u32,
    pub unread: u32,
    pub class: u32,
}

impl Reading {
    pub fn refused(number: u32) -> Reading {
        Reading { number, ..Reading::default() }
    }
}

/// What explaining answers. Of a refusal everything but the number is 0.
#[derive(Clone, Copy, Debug, Default, PartialEq, Eq)]
pub struct Reason {
    pub number: u32,
    /// 1 the expected record is the answer, 2 another record is, 3 there is none
    pub reason: u32,
    pub place: u32,
    pub excess: u32,
}

impl Reason {
    pub fn refused(number: u32) -> Reason {
        Reason { number, ..Reason::default() }
    }

    pub fn answer() -> Reason {
        Reason { reason: 1, ..Reason::default() }
    }

    pub fn other(place: usize) -> Reason {
        Reason { reason: 2, place: place as u32, ..Reason::default() }
    }

    pub fn nothing(excess: u32) -> Reason {
        Reason { reason: 3, excess, ..Reason::default() }
    }
}

/// Plans with at most as many records are read by going through all of them.
pub const SEARCHED: u64 = 4096;

pub fn check_plan(plan: &[u8]) -> u32 {
    Plan::parse(plan).err().unwrap_or(0)
}

/// The place of the first plan of the season.
pub fn find_plan(file: &[u8], season: u16) -> Result<usize, u32> {
    if !file.len().is_multiple_of(PLAN) {
        return Err(11);
    }
    let first = file.chunks(PLAN).position(|plan| plan[..2] == season.to_be_bytes());
    first.map(|k| k * PLAN).ok_or(12)
}

/// The plans that plans of the old form become. Refusal 11 comes before 6.
pub fn widen_plans(old: &[u8], wide: &mut [u8]) -> u32 {
    if !old.len().is_multiple_of(OLD_PLAN) || old.len() > 1_000 * OLD_PLAN {
        return 11;
    }
    if wide.len() != old.len() / OLD_PLAN * PLAN {
        return 6;
    }
    let plans: Vec<u8> = old.chunks(OLD_PLAN).flat_map(widened).collect();
    wide.copy_from_slice(&plans);
    0
}

pub fn write(code: Code, plan: &[u8], record: &[u8], mark: &mut [u8]) -> u32 {
    put(written(code, plan, record, mark.len()), mark)
}

fn written(code: Code, plan: &[u8], record: &[u8], room: usize) -> Result<Vec<u8>, u32> {
    let plan = Plan::parse(plan)?;
    check_lengths(&[(record.len(), code.size(&plan)), (room, code.cells(&plan))])?;
    check_record(&plan, record)?;
    Ok(bytes(&code.word(&plan, &numbers(record))))
}

/// The mark, or strip, of the record is added to the symbols that were read.
pub fn mask(code: Code, plan: &[u8], record: &[u8], symbols: &mut [u8]) -> u32 {
    put(on_read(code, plan, record, symbols, |p, symbol, value| (symbol + value) % p), symbols)
}

/// Each symbol that was read becomes the one that masking makes it of.
pub fn unmask(code: Code, plan: &[u8], record: &[u8], symbols: &mut [u8]) -> u32 {
    let unmasked = |p: u32, symbol: u32, value: u32| {
        (0..p).find(|unmasked| (unmasked + value) % p == symbol).expect("all remainders come up")
    };
    put(on_read(code, plan, record, symbols, unmasked), symbols)
}

/// What becomes of the symbols where each that was read changes by p, itself and the record's value in its cell.
fn on_read(
    code: Code,
    plan: &[u8],
    record: &[u8],
    symbols: &[u8],
    change: impl Fn(u32, u32, u32) -> u32,
) -> Result<Vec<u8>, u32> {
    let plan = Plan::parse(plan)?;
    check_lengths(&[(record.len(), code.size(&plan)), (symbols.len(), code.cells(&plan))])?;
    check_symbols(&plan, symbols)?;
    check_record(&plan, record)?;
    let cells = numbers(symbols).into_iter().zip(code.word(&plan, &numbers(record)));
    let changed = cells.map(|(symbol, value)| match symbol {
        UNREAD => UNREAD,
        _ => change(plan.p, symbol, value),
    });
    Ok(bytes(&changed.collect::<Vec<u32>>()))
}

/// The bytes go into the buffer, or the number says why there are none.
fn put(bytes: Result<Vec<u8>, u32>, buffer: &mut [u8]) -> u32 {
    match bytes {
        Ok(bytes) => {
            buffer.copy_from_slice(&bytes);
            0
        }
        Err(number) => number,
    }
}

pub fn measure(code: Code, plan: &[u8], record: &[u8], symbols: &[u8], doubts: &[u8]) -> Reading {
    measured(code, plan, record, symbols, doubts).unwrap_or_else(Reading::refused)
}

fn measured(code: Code, plan: &[u8], record: &[u8], symbols: &[u8], doubts: &[u8]) -> Result<Reading, u32> {
    let plan = Plan::parse(plan)?;
    check_photograph(code, &plan, symbols, doubts, record.len())?;
    check_record(&plan, record)?;
    Ok(reading(code, &plan, &numbers(record), &numbers(symbols), &numbers(doubts)))
}

pub fn read(code: Code, plan: &[u8], symbols: &[u8], doubts: &[u8], record: &mut [u8]) -> Reading {
    match found(code, plan, symbols, doubts, record.len()) {
        Ok((reading, found)) => {
            record.copy_from_slice(&found);
            reading
        }
        Err(number) => Reading::refused(number),
    }
}

fn found(code: Code, plan: &[u8], symbols: &[u8], doubts: &[u8], room: usize) -> Result<(Reading, Vec<u8>), u32> {
    let plan = Plan::parse(plan)?;
    check_photograph(code, &plan, symbols, doubts, room)?;
    let (symbols, doubts) = (numbers(symbols), numbers(doubts));
    let record = nearest(code, &plan, &symbols, &doubts).ok_or(10u32)?.record;
    Ok((reading(code, &plan, &record, &symbols, &doubts), bytes(&record)))
}

pub fn explain(code: Code, plan: &[u8], record: &[u8], symbols: &[u8], doubts: &[u8], other: &mut [u8]) -> Reason {
    match explained(code, plan, record, symbols, doubts, other.len()) {
        Ok((reason, answer)) => {
            if reason.reason == 2 {
                other.copy_from_slice(&answer);
            }
            reason
        }
        Err(number) => Reason::refused(number),
    }
}

/// The reason, and the record that is the answer where there is one.
fn explained(
    code: Code,
    plan: &[u8],
    record: &[u8],
    symbols: &[u8],
    doubts: &[u8],
    room: usize,
) -> Result<(Reason, Vec<u8>), u32> {
    let plan = Plan::parse(plan)?;
    check_lengths(&[(room, code.size(&plan))])?;
    check_photograph(code, &plan, symbols, doubts, record.len())?;
    check_record(&plan, record)?;
    let [record, symbols, doubts] = [record, symbols, doubts].map(numbers);
    let Some(answer) = nearest(code, &plan, &symbols, &doubts).map(|found| found.record) else {
        let cost = reading(code, &plan, &record, &symbols, &doubts).cost;
        return Ok((Reason::nothing(cost - code.radius(&plan)), Vec::new()));
    };
    let [word, expected] = [&answer, &record].map(|record| code.word(&plan, record));
    let reason = (0..word.len()).find(|&cell| word[cell] != expected[cell]).map_or(Reason::answer(), Reason::other);
    Ok((reason, bytes(&answer)))
}

/// The record within the radius.
fn nearest(code: Code, plan: &Plan, symbols: &[u32], doubts: &[u32]) -> Option<Found> {
    match exhaustive::records(code, plan, SEARCHED) {
        Some(_) => by_search(code, plan, symbols, doubts),
        None => by_equations(code, plan, symbols, doubts),
    }
}

/// The record within the radius, by the method for small plans.
pub fn by_search(code: Code, plan: &Plan, symbols: &[u32], doubts: &[u32]) -> Option<Found> {
    let mut found = exhaustive::within(code, plan, symbols, doubts);
    assert!(found.len() < 2, "two records within the radius: {found:?} of {plan:?}");
    found.pop()
}

/// The record within the radius, by the method for large plans.
pub fn by_equations(code: Code, plan: &Plan, symbols: &[u32], doubts: &[u32]) -> Option<Found> {
    match code {
        Code::Strip => {
            let field = Field::new(plan.p);
            let Plan { row_points: points, degree, .. } = plan;
            let strip = Strip { field: &field, points, degree: *degree, full: plan.full_doubt() };
            strip.nearest(symbols, doubts)
        }
        Code::Mark => mark::nearest(plan, symbols, doubts),
    }
}

fn reading(code: Code, plan: &Plan, record: &[u32], symbols: &[u32], doubts: &[u32]) -> Reading {
    let word = code.word(plan, record);
    let cost = cost(plan.full_doubt(), symbols, doubts, &word);
    let margin = code.radius(plan) as i32 - cost as i32;
    let changed = changed(symbols, &word);
    Reading { number: 0, cost, margin, changed, unread: unread(symbols), class: class(changed) }
}

/// Refusals 6, 7 and 8.
fn check_photograph(code: Code, plan: &Plan, symbols: &[u8], doubts: &[u8], record: usize) -> Result<(), u32> {
    let cells = code.cells(plan);
    check_lengths(&[(symbols.len(), cells), (doubts.len(), cells), (record, code.size(plan))])?;
    check_symbols(plan, symbols)?;
    check_doubts(plan, symbols, doubts)
}

/// Refusal 6: pairs of the length that is there and the one that is owed.
pub(crate) fn check_lengths(lengths: &[(usize, usize)]) -> Result<(), u32> {
    if lengths.iter().any(|(is, owed)| is != owed) {
        return Err(6);
    }
    Ok(())
}

/// Refusal 7.
pub(crate) fn check_symbols(plan: &Plan, symbols: &[u8]) -> Result<(), u32> {
    if numbers(symbols).iter().any(|&symbol| symbol >= plan.p && symbol != UNREAD) {
        return Err(7);
    }
    Ok(())
}

/// Refusal 8.
pub(crate) fn check_doubts(plan: &Plan, symbols: &[u8], doubts: &[u8]) -> Result<(), u32> {
    let full = plan.full_doubt();
    let wrong = |(&symbol, &doubt): (&u32, &u32)| doubt > full || symbol == UNREAD && doubt != full;
    if numbers(symbols).iter().zip(&numbers(doubts)).any(wrong) {
        return Err(8);
    }
    Ok(())
}

/// Refusal 9.
fn check_record(plan: &Plan, record: &[u8]) -> Result<(), u32> {
    if numbers(record).iter().any(|&coefficient| coefficient >= plan.p) {
        return Err(9);
    }
    Ok(())
}

pub fn numbers(bytes: &[u8]) -> Vec<u32> {
    bytes.iter().map(|&byte| byte.into()).collect()
}

pub fn bytes(numbers: &[u32]) -> Vec<u8> {
    numbers.iter().map(|&number| number as u8).collect()
}

#[cfg(test)]
pub(crate) mod tests {
    use super::*;

    /// p 7, d 1, points 1 2 4 each way, of that season.
    pub(crate) fn plan_a(season: u8) -> [u8; PLAN] {
        let mut plan = [0; PLAN];
        plan[..9].copy_from_slice(&[0, season, 7, 3, 3, 1, 1, 2, 4]);
        plan[22..25].copy_from_slice(&[1, 2, 4]);
        plan
    }

    /// The reason that is given for a record of a mark whose doubts are all 0, and what is left of a buffer of 9s.
    fn explained(season: u8, record: [u8; 3], symbols: [u8; 9]) -> (Reason, [u8; 3]) {
        let mut other = [9; 3];
        (explain(Code::Mark, &plan_a(season), &record, &symbols, &[0; 9], &mut other), other)
    }

    #[test]
    fn a_record_is_the_answer_or_another_is_or_none() {
        // the mark 6 1 5 0 2 6 2 4 1 of 3 + X + 2Y with two cells misread, and with three, which is the radius
        let (two, three) = ([0, 1, 5, 0, 2, 6, 2, 4, 0], [0, 0, 0, 0, 2, 6, 2, 4, 1]);
        for (season, five_wrong) in [(29, 1_000), (30, 2_500)] {
            assert_eq!(explained(season, [3, 1, 2], two), (Reason::answer(), [9; 3]));
            assert_eq!(explained(season, [2, 2, 2], two), (Reason::other(3), [3, 1, 2]));
            assert_eq!(explained(season, [0, 0, 0], two), (Reason::other(0), [3, 1, 2]));
            assert_eq!(explained(season, [3, 1, 2], three), (Reason::nothing(0), [9; 3]));
            assert_eq!(explained(season, [1, 0, 0], three), (Reason::nothing(five_wrong), [9; 3]));
            assert_eq!(explained(season, [3, 1, 7], three), (Reason::refused(9), [9; 3]));
        }
    }

    #[test]
    fn masking_adds_and_unmasking_takes_off() {
        let plan = plan_a(12);
        // 1 0 5 5 4 2 6 5 3 is the mark of 5 + 4X + 6Y; 6 + 1 is 7, and two cells are unread
        let [symbols, masked] = [[6, 1, 5, 0, 255, 6, 2, 4, 255], [0, 1, 3, 5, 255, 1, 1, 2, 255]];
        let mut cells = symbols;
        assert_eq!(mask(Code::Mark, &plan, &[5, 4, 6], &mut cells), 0);
        assert_eq!(cells, masked);
        assert_eq!(unmask(Code::Mark, &plan, &[5, 4, 6], &mut cells), 0);
        assert_eq!(cells, symbols);
        for call in [mask, unmask] {
            assert_eq!(call(Code::Mark, &plan, &[5, 4, 7], &mut [7; 8]), 6);
            assert_eq!(call(Code::Mark, &plan, &[5, 4, 7], &mut [7; 9]), 7);
            assert_eq!(call(Code::Mark, &plan, &[5, 4, 7], &mut cells), 9);
            assert_eq!(cells, symbols);
        }
    }

    /// The cost and the margin of a mark whose first cell is misread in doubt 1 and whose last has this symbol and doubt, or
    /// the refusal.
    fn measured(season: u8, symbol: u8, doubt: u8) -> Result<(u32, i32), u32> {
        let (symbols, doubts) = ([0, 1, 5, 0, 2, 6, 2, 4, symbol], [1, 0, 0, 0, 0, 0, 0, 0, doubt]);
        let reading = measure(Code::Mark, &plan_a(season), &[3, 1, 2], &symbols, &doubts);
        let mut record = [9; 3];
        assert_eq!(read(Code::Mark, &plan_a(season), &symbols, &doubts, &mut record), reading);
        assert_eq!(record, if reading.number == 0 { [3, 1, 2] } else { [9; 3] });
        match reading.number {
            0 => Ok((reading.cost, reading.margin)),
            number => Err(number),
        }
    }

    #[test]
    fn costs_and_refusal_8_go_by_the_season() {
        // a right cell, a wrong one and an unread one
        let (right, wrong, unread) = (1, 0, 255);
        assert_eq!(measured(29, right, 100), Ok((299, 301)));
        assert_eq!(measured(30, right, 100), Ok((599, 901)));
        assert_eq!(measured(29, wrong, 99), Ok((300, 300)));
        assert_eq!(measured(30, wrong, 99), Ok((900, 600)));
        assert_eq!(measured(30, wrong, 249), Ok((750, 750)));
        assert_eq!(measured(29, unread, 100), Ok((299, 301)));
        assert_eq!(measured(30, unread, 250), Ok((749, 751)));
        assert_eq!([101, 250, 251].map(|doubt| measured(29, right, doubt)), [Err(8); 3]);
        assert_eq!([251, 255].map(|doubt| measured(30, right, doubt)), [Err(8); 2]);
        assert_eq!([0, 99, 101, 250].map(|doubt| measured(29, unread, doubt)), [Err(8); 4]);
        assert_eq!([0, 100, 249, 251].map(|doubt| measured(30, unread, doubt)), [Err(8); 4]);
    }
}
