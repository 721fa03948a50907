//! The library's calls on lent buffers. Each is made twice, as `include/traymark.h` declares it and through the Rust
//! wrapper; both must answer alike, and no byte beside what a call writes may change.

use crate::calls::{Arguments, Call, Outcome};
use crate::lent::Lent;
use crate::random::Random;
use independent::{Code, Date, Reading, Reason};
use std::array::from_fn;
use std::fmt::Debug;
use traymark::ffi::{self, Explain, Measure, RawReading, RawReason, Read, Write};
use traymark::Refusal;

/// What the library answers and leaves.
pub fn outcome(call: Call, given: &Arguments, random: &mut Random) -> Result<Outcome, String> {
    match call {
        Call::Check => check(given, random),
        Call::Write => write(given, random),
        Call::Measure => measure(given, random),
        Call::Read => read(given, random),
        Call::Explain => explain(given, random),
        Call::Mask => mask(given, random),
        Call::Unmask => unmask(given, random),
    }
}

fn check(given: &Arguments, random: &mut Random) -> Result<Outcome, String> {
    let plan = Lent::new(&given.plan, random);
    let raw = unsafe { ffi::traymark_check_plan(plan.bytes().as_ptr(), plan.bytes().len()) };
    untouched(&[&plan])?;
    alike(raw, raw, || refused(traymark::check_plan(plan.bytes())))?;
    untouched(&[&plan])?;
    Ok(Outcome::numbered(raw, Vec::new()))
}

fn write(given: &Arguments, random: &mut Random) -> Result<Outcome, String> {
    match given.code {
        Code::Strip => by_record(ffi::traymark_write_strip, traymark::write_strip, given, &given.mark, random),
        Code::Mark => by_record(ffi::traymark_write_mark, traymark::write_mark, given, &given.mark, random),
    }
}

fn mask(given: &Arguments, random: &mut Random) -> Result<Outcome, String> {
    match given.code {
        Code::Strip => by_record(ffi::traymark_mask_strip, traymark::mask_strip, given, &given.symbols, random),
        Code::Mark => by_record(ffi::traymark_mask_mark, traymark::mask_mark, given, &given.symbols, random),
    }
}

fn unmask(given: &Arguments, random: &mut Random) -> Result<Outcome, String> {
    match given.code {
        Code::Strip => by_record(ffi::traymark_unmask_strip, traymark::unmask_strip, given, &given.symbols, random),
        Code::Mark => by_record(ffi::traymark_unmask_mark, traymark::unmask_mark, given, &given.symbols, random),
    }
}

/// A call that takes a plan, a record and these cells, which it writes.
fn by_record(
    by_c: Write,
    by_rust: WriteSafe,
    given: &Arguments,
    cells: &[u8],
    random: &mut Random,
) -> Result<Outcome, String> {
    let [plan, record] = [&given.plan, &given.record].map(|bytes| Lent::new(bytes, random));
    let mut cells = Lent::new(cells, random);
    let number = {
        let (plan, record, cells) = (plan.bytes(), record.bytes(), cells.bytes_mut());
        unsafe { by_c(plan.as_ptr(), plan.len(), record.as_ptr(), record.len(), cells.as_mut_ptr(), cells.len()) }
    };
    let outcome = Outcome::numbered(number, cells.bytes().to_vec());
    guarded(&cells)?;
    untouched(&[&plan, &record])?;
    cells.restore();
    alike(number, number, || refused(by_rust(plan.bytes(), record.bytes(), cells.bytes_mut())))?;
    guarded(&cells)?;
    untouched(&[&plan, &record])?;
    same_buffer(&outcome, &cells)?;
    Ok(outcome)
}

fn measure(given: &Arguments, random: &mut Random) -> Result<Outcome, String> {
    let lent = [&given.plan, &given.record, &given.symbols, &given.doubts].map(|bytes| Lent::new(bytes, random));
    let [plan, record, symbols, doubts] = [0, 1, 2, 3].map(|k| lent[k].bytes());
    let (by_c, by_rust): (Measure, MeasureSafe) = match given.code {
        Code::Strip => (ffi::traymark_measure_strip, traymark::measure_strip),
        Code::Mark => (ffi::traymark_measure_mark, traymark::measure_mark),
    };
    let raw = unsafe {
        by_c(
            plan.as_ptr(),
            plan.len(),
            record.as_ptr(),
            record.len(),
            symbols.as_ptr(),
            symbols.len(),
            doubts.as_ptr(),
            doubts.len(),
        )
    };
    untouched(&lent.each_ref())?;
    alike(raw.number, reading(raw), || answered(by_rust(plan, record, symbols, doubts)))?;
    untouched(&lent.each_ref())?;
    Ok(Outcome::read(reading(raw), Vec::new()))
}

fn read(given: &Arguments, random: &mut Random) -> Result<Outcome, String> {
    let lent = [&given.plan, &given.symbols, &given.doubts].map(|bytes| Lent::new(bytes, random));
    let [plan, symbols, doubts] = [0, 1, 2].map(|k| lent[k].bytes());
    let mut record = Lent::new(&given.record, random);
    let (by_c, by_rust): (Read, ReadSafe) = match given.code {
        Code::Strip => (ffi::traymark_read_strip, traymark::read_strip),
        Code::Mark => (ffi::traymark_read_mark, traymark::read_mark),
    };
    let buffer = record.bytes_mut();
    let raw = unsafe {
        by_c(
            plan.as_ptr(),
            plan.len(),
            symbols.as_ptr(),
            symbols.len(),
            doubts.as_ptr(),
            doubts.len(),
            buffer.as_mut_ptr(),
            buffer.len(),
        )
    };
    let outcome = Outcome::read(reading(raw), buffer.to_vec());
    guarded(&record)?;
    untouched(&lent.each_ref())?;
    record.restore();
    alike(raw.number, outcome.reading, || answered(by_rust(plan, symbols, doubts, record.bytes_mut())))?;
    guarded(&record)?;
    untouched(&lent.each_ref())?;
    same_buffer(&outcome, &record)?;
    Ok(outcome)
}

fn explain(given: &Arguments, random: &mut Random) -> Result<Outcome, String> {
    let lent = [&given.plan, &given.record, &given.symbols, &given.doubts].map(|bytes| Lent::new(bytes, random));
    let [plan, record, symbols, doubts] = [0, 1, 2, 3].map(|k| lent[k].bytes());
    let mut other = Lent::new(&given.other, random);
    let (by_c, by_rust): (Explain, ExplainSafe) = match given.code {
        Code::Strip => (ffi::traymark_explain_strip, traymark::explain_strip),
        Code::Mark => (ffi::traymark_explain_mark, traymark::explain_mark),
    };
    let buffer = other.bytes_mut();
    let raw = unsafe {
        by_c(
            plan.as_ptr(),
            plan.len(),
            record.as_ptr(),
            record.len(),
            symbols.as_ptr(),
            symbols.len(),
            doubts.as_ptr(),
            doubts.len(),
            buffer.as_mut_ptr(),
            buffer.len(),
        )
    };
    let outcome = Outcome::explained(reason(raw)?, buffer.to_vec());
    guarded(&other)?;
    untouched(&lent.each_ref())?;
    other.restore();
    alike(raw.number, outcome.reason, || told(by_rust(plan, record, symbols, doubts, other.bytes_mut())))?;
    guarded(&other)?;
    untouched(&lent.each_ref())?;
    same_buffer(&outcome, &other)?;
    Ok(outcome)
}

/// Finding a plan: the number, and the offset in the file.
pub fn find(file: &[u8], season: u16, random: &mut Random) -> Result<(u32, usize), String> {
    let file = Lent::new(file, random);
    let bytes = file.bytes();
    let mut offset = usize::MAX;
    let number = unsafe { ffi::traymark_find_plan(bytes.as_ptr(), bytes.len(), season, &mut offset) };
    untouched(&[&file])?;
    if number == 0 && (offset > bytes.len() || bytes.len() - offset < traymark::PLAN_LENGTH) {
        return Err(format!("found a plan at {offset}, beyond the file"));
    }
    let mut part: &[u8] = &[];
    alike(number, number, || refused(traymark::find_plan(bytes, season).map(|found| part = found)))?;
    if number == 0 && part.as_ptr_range() != bytes[offset..offset + traymark::PLAN_LENGTH].as_ptr_range() {
        return Err("the wrapper's part is not that part of the file".into());
    }
    untouched(&[&file])?;
    Ok((number, offset))
}

/// Finding a season: the number, and what the lent season holds afterwards.
pub fn season(file: &Lent, date: Date, random: &mut Random) -> Result<(u32, u16), String> {
    let Date { year, month, day } = date;
    let bytes = file.bytes();
    // the middle one is lent
    let before: [u16; 3] = from_fn(|_| random.number() as u16);
    let mut after = before;
    let number = unsafe {
        let season = after.as_mut_ptr().add(1);
        ffi::traymark_find_season(bytes.as_ptr(), bytes.len(), year, month, day, season)
    };
    untouched(&[file])?;
    if [after[0], after[2]] != [before[0], before[2]] {
        return Err("changed a byte beside the season".into());
    }
    let found = (number, after[1]);
    alike(number, found, || match traymark::find_season(bytes, year, month, day) {
        Ok(season) => (0, season),
        Err(refusal) => (refusal.number(), 0),
    })?;
    untouched(&[file])?;
    Ok(found)
}

/// Widening plans: the number, and what the buffer holds afterwards.
pub fn widen(old: &[u8], wide: &[u8], random: &mut Random) -> Result<(u32, Vec<u8>), String> {
    let (old, mut wide) = (Lent::new(old, random), Lent::new(wide, random));
    let number = {
        let (old, wide) = (old.bytes(), wide.bytes_mut());
        unsafe { ffi::traymark_widen_plans(old.as_ptr(), old.len(), wide.as_mut_ptr(), wide.len()) }
    };
    let outcome = Outcome::numbered(number, wide.bytes().to_vec());
    guarded(&wide)?;
    untouched(&[&old])?;
    wide.restore();
    alike(number, number, || refused(traymark::widen_plans(old.bytes(), wide.bytes_mut())))?;
    guarded(&wide)?;
    untouched(&[&old])?;
    same_buffer(&outcome, &wide)?;
    Ok((number, outcome.buffer))
}

type WriteSafe = fn(&[u8], &[u8], &mut [u8]) -> Result<(), Refusal>;
type MeasureSafe = fn(&[u8], &[u8], &[u8], &[u8]) -> Result<traymark::Reading, Refusal>;
type ReadSafe = fn(&[u8], &[u8], &[u8], &mut [u8]) -> Result<traymark::Reading, Refusal>;
type ExplainSafe = fn(&[u8], &[u8], &[u8], &[u8], &mut [u8]) -> Result<traymark::Reason, Refusal>;

pub fn reading(raw: RawReading) -> Reading {
    let RawReading { number, cost, margin, changed, unread, class } = raw;
    Reading { number, cost, margin, changed, unread, class }
}

/// The wrapper knows three reasons.
fn reason(raw: RawReason) -> Result<Reason, String> {
    let RawReason { number, reason, place, excess } = raw;
    if number == 0 && !(1..=3).contains(&reason) {
        return Err(format!("gave the reason {reason}"));
    }
    Ok(Reason { number, reason, place, excess })
}

pub fn refused(answer: Result<(), Refusal>) -> u32 {
    answer.err().map_or(0, Refusal::number)
}

/// What the wrapper says of measuring and reading.
pub fn answered(answer: Result<traymark::Reading, Refusal>) -> Reading {
    match answer {
        Ok(traymark::Reading { cost, margin, changed, unread, class }) => {
            Reading { number: 0, cost, margin, changed, unread, class }
        }
        Err(refusal) => Reading::refused(refusal.number()),
    }
}

/// What it says of explaining.
pub fn told(answer: Result<traymark::Reason, Refusal>) -> Reason {
    match answer {
        Ok(traymark::Reason::Answer) => Reason::answer(),
        Ok(traymark::Reason::Other { place }) => Reason::other(place),
        Ok(traymark::Reason::Nothing { excess }) => Reason::nothing(excess),
        Err(refusal) => Reason::refused(refusal.number()),
    }
}

/// The wrapper's answer is the call's. It is asked only where the number is one that it knows.
pub fn alike<A: PartialEq + Debug>(number: u32, raw: A, wrapped: impl FnOnce() -> A) -> Result<(), String> {
    if number != 0 && Refusal::from_number(number).is_none() {
        return Err(format!("gave the number {number}"));
    }
    let wrapped = wrapped();
    if wrapped != raw {
        return Err(format!("gave {raw:?}, and {wrapped:?} through the wrapper"));
    }
    Ok(())
}

fn same_buffer(outcome: &Outcome, lent: &Lent) -> Result<(), String> {
    if lent.bytes() != outcome.buffer {
        return Err(format!("left {:?}, and {:?} through the wrapper", outcome.buffer, lent.bytes()));
    }
    Ok(())
}

pub fn guarded(lent: &Lent) -> Result<(), String> {
    if !lent.is_guarded() {
        return Err("changed a byte beside the buffer that it writes".into());
    }
    Ok(())
}

pub fn untouched(lent: &[&Lent]) -> Result<(), String> {
    if !lent.iter().all(|buffer| buffer.is_untouched()) {
        return Err("changed a buffer that it only reads, or a byte beside it".into());
    }
    Ok(())
}
