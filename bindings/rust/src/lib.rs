//! Square and oblong marks on fruit trays, written and read: a safe wrapper over the proved static library.
//!
//! Plans, records, marks, strips, photographs and season windows are plain bytes; `include/traymark.h` says what each holds.
//! A call that writes takes the buffer to write into, of the exact length; a refusal changes no byte of it. Masking and unmasking
//! change the symbols that they are given. Several photographs of one mark are a `Set`.
//!
//! A doubt is 0 to the full doubt, which is 100 for plans of seasons before 30 and 250 for plans of season 30 and later; that
//! of an unread cell is the full doubt.
//!
//! The package links `libtraymark.a` from the folder that the variable `TRAYMARK_LIB_DIR` names when it is built,
//! else from the repository's `target/staticlib`, where `make lib` writes it.
//!
//! ```
//! // season 12, p 7, 3 rows, 3 columns, d 1, row points 1 2 4, column points 1 2 4
//! let mut plan = [0; traymark::PLAN_LENGTH];
//! plan[..9].copy_from_slice(&[0, 12, 7, 3, 3, 1, 1, 2, 4]);
//! plan[22..25].copy_from_slice(&[1, 2, 4]);
//! let mut mark = [0; 9];
//! traymark::write_mark(&plan, &[3, 1, 2], &mut mark)?;
//! assert_eq!(mark, [6, 1, 5, 0, 2, 6, 2, 4, 1]);
//!
//! mark[0] = 0;
//! mark[8] = 0;
//! let mut record = [0; 3];
//! let reading = traymark::read_mark(&plan, &mark, &[0; 9], &mut record)?;
//! assert_eq!(record, [3, 1, 2]);
//! assert_eq!((reading.cost, reading.margin), (400, 200));
//! assert_eq!((reading.changed, reading.unread, reading.class), (2, 0, 1));
//!
//! mark[1] = 0;
//! let refusal = traymark::read_mark(&plan, &mark, &[0; 9], &mut record).unwrap_err();
//! assert_eq!(refusal, traymark::Refusal::NoRecord);
//! assert_eq!(refusal.number(), 10);
//! # Ok::<(), traymark::Refusal>(())
//! ```

pub mod ffi;
mod refusal;
mod set;

pub use ffi::SET_SIZE;
pub use refusal::Refusal;
pub use set::Set;

/// The length of a plan in bytes.
pub const PLAN_LENGTH: usize = 40;

/// The length of a plan of the old form, for squares alone, which `widen_plans` takes.
pub const OLD_PLAN_LENGTH: usize = 24;

/// The length of a season window, which `find_season` takes at most 64 of.
pub const WINDOW_LENGTH: usize = 12;

/// What measuring and reading say of a record against a photograph. A cell is right, changed or unread.
#[derive(Clone, Copy, Debug, PartialEq, Eq)]
pub struct Reading {
    /// D: the sum over the cells of the doubt where the symbol is the record's value, else of twice the full doubt less the
    /// doubt.
    pub cost: u32,
    /// The radius less the cost: above 0 exactly where the record is within the radius.
    pub margin: i32,
    /// The cells that were read and whose symbol is not the record's value.
    pub changed: u32,
    /// The cells that were not read, their symbol being 255; none of them is counted in `changed`.
    pub unread: u32,
    /// 0 to 3, by the changed count alone: 0; 1 to 3; 4 to 15; 16 and more.
    pub class: u32,
}

/// Why a record that was expected of a photograph did not come up. The answer is the record within the radius.
#[derive(Clone, Copy, Debug, PartialEq, Eq)]
pub enum Reason {
    /// The expected record is the answer.
    Answer,
    /// Another record is the answer.
    Other {
        /// The lowest place at which the marks, or strips, of the two records differ.
        place: usize,
    },
    /// No record is within the radius.
    Nothing {
        /// The expected record's cost less the radius, 0 or more.
        excess: u32,
    },
}

/// Checks a plan. Refusals 1 2 3 13 4 5.
pub fn check_plan(plan: &[u8]) -> Result<(), Refusal> {
    accepted(unsafe { ffi::traymark_check_plan(plan.as_ptr(), plan.len()) })
}

/// The first plan of the season, in the order of the file: 40 bytes of `file` itself, at a multiple of 40.
/// Only the season bytes are compared; the plan is not checked. Refusals 11 and 12.
pub fn find_plan(file: &[u8], season: u16) -> Result<&[u8], Refusal> {
    let mut offset = 0;
    accepted(unsafe { ffi::traymark_find_plan(file.as_ptr(), file.len(), season, &mut offset) })?;
    Ok(&file[offset..offset + PLAN_LENGTH])
}

/// The season of a date, by the windows of `file`: at most 64, 12 bytes each, in any order. Both end days belong to a window. The
/// numbers of the date may be any. Refusal 14 where the file is unsound and 15 where two of its windows share a day, whatever the
/// date, then 16 where the date is unreal or in no window.
///
/// ```
/// # use traymark::Refusal;
/// // season 30 from 1 July 2026 to 30 June 2027, season 29 in the year before; 2025 is 7 * 256 + 233
/// let file = [
///     [0, 30, 7, 234, 7, 1, 7, 235, 6, 30, 0, 0],
///     [0, 29, 7, 233, 7, 1, 7, 234, 6, 30, 0, 0],
/// ];
/// let season_on = |year, month, day| traymark::find_season(file.as_flattened(), year, month, day);
/// assert_eq!(season_on(2026, 11, 15), Ok(30));
/// assert_eq!(season_on(2026, 7, 1), Ok(30));
/// assert_eq!(season_on(2026, 6, 30), Ok(29));
/// assert_eq!(season_on(2027, 7, 1), Err(Refusal::NoWindow));
/// assert_eq!(season_on(2026, 2, 29), Err(Refusal::NoWindow));
/// ```
pub fn find_season(file: &[u8], year: u32, month: u32, day: u32) -> Result<u16, Refusal> {
    let mut season = 0;
    accepted(unsafe { ffi::traymark_find_season(file.as_ptr(), file.len(), year, month, day, &mut season) })?;
    Ok(season)
}

/// Gives plans of the old form, 24 bytes each, the form with rows and columns: `wide` has 40 bytes for each of them. n and
/// the points are given twice, bytes 21 to 23 dropped. No plan is checked. Refusal 11 where `old` has more than 1,000 plans
/// or its length is no multiple of 24, then 6.
///
/// ```
/// let mut old = [0; traymark::OLD_PLAN_LENGTH];
/// old[..8].copy_from_slice(&[0, 12, 7, 3, 1, 1, 2, 4]); // season 12, p 7, n 3, d 1, points 1 2 4
/// let mut wide = [0; traymark::PLAN_LENGTH];
/// traymark::widen_plans(&old, &mut wide)?;
/// assert_eq!(wide[..9], [0, 12, 7, 3, 3, 1, 1, 2, 4]);
/// assert_eq!(wide[22..25], [1, 2, 4]);
/// # Ok::<(), traymark::Refusal>(())
/// ```
pub fn widen_plans(old: &[u8], wide: &mut [u8]) -> Result<(), Refusal> {
    accepted(unsafe { ffi::traymark_widen_plans(old.as_ptr(), old.len(), wide.as_mut_ptr(), wide.len()) })
}

/// Writes the mark of a record: `record` has (d + 1)(d + 2) / 2 bytes, `mark` rows * columns. Refusals 1 2 3 13 4 5 6 9.
pub fn write_mark(plan: &[u8], record: &[u8], mark: &mut [u8]) -> Result<(), Refusal> {
    write_by(ffi::traymark_write_mark, plan, record, mark)
}

/// Measures a record against a photographed mark; a margin of 0 or below is no refusal. Refusals 1 2 3 13 4 5 6 7 8 9.
pub fn measure_mark(plan: &[u8], record: &[u8], symbols: &[u8], doubts: &[u8]) -> Result<Reading, Refusal> {
    measure_by(ffi::traymark_measure_mark, plan, record, symbols, doubts)
}

/// Reads a photographed mark: the one record within the radius goes into `record`. Refusals 1 2 3 13 4 5 6 7 8,
/// and 10 exactly where no record is within the radius.
pub fn read_mark(plan: &[u8], symbols: &[u8], doubts: &[u8], record: &mut [u8]) -> Result<Reading, Refusal> {
    read_by(ffi::traymark_read_mark, plan, symbols, doubts, record)
}

/// Explains why the expected `record` of a photographed mark did not come up. Where another record is the answer it goes into
/// `other`, which has as many bytes as `record`; else `other` is left as it is. Refusals 1 2 3 13 4 5 6 7 8 9.
///
/// ```
/// # use traymark::Reason;
/// # let mut plan = [0; traymark::PLAN_LENGTH];
/// # plan[..9].copy_from_slice(&[0, 12, 7, 3, 3, 1, 1, 2, 4]);
/// # plan[22..25].copy_from_slice(&[1, 2, 4]);
/// // the mark 6 1 5 0 2 6 2 4 1 of 3 + X + 2Y, its first and its last cell misread
/// let symbols = [0, 1, 5, 0, 2, 6, 2, 4, 0];
/// let mut other = [0; 3];
/// assert_eq!(traymark::explain_mark(&plan, &[3, 1, 2], &symbols, &[0; 9], &mut other)?, Reason::Answer);
///
/// // the mark of 2 + 2X + 2Y has the same first row
/// let reason = traymark::explain_mark(&plan, &[2, 2, 2], &symbols, &[0; 9], &mut other)?;
/// assert_eq!(reason, Reason::Other { place: 3 });
/// assert_eq!(other, [3, 1, 2]);
///
/// // a third cell misread: the record costs 600, which is the radius
/// let symbols = [0, 1, 5, 0, 2, 6, 2, 0, 0];
/// let reason = traymark::explain_mark(&plan, &[3, 1, 2], &symbols, &[0; 9], &mut other)?;
/// assert_eq!(reason, Reason::Nothing { excess: 0 });
/// # Ok::<(), traymark::Refusal>(())
/// ```
pub fn explain_mark(
    plan: &[u8],
    record: &[u8],
    symbols: &[u8],
    doubts: &[u8],
    other: &mut [u8],
) -> Result<Reason, Refusal> {
    explain_by(ffi::traymark_explain_mark, plan, record, symbols, doubts, other)
}

/// Writes the strip of a record: `record` has d + 1 bytes, `strip` as many as there are rows. Refusals 1 2 3 13 4 5 6 9.
pub fn write_strip(plan: &[u8], record: &[u8], strip: &mut [u8]) -> Result<(), Refusal> {
    write_by(ffi::traymark_write_strip, plan, record, strip)
}

/// Measures a record against a photographed strip; a margin of 0 or below is no refusal. Refusals 1 2 3 13 4 5 6 7 8 9.
pub fn measure_strip(plan: &[u8], record: &[u8], symbols: &[u8], doubts: &[u8]) -> Result<Reading, Refusal> {
    measure_by(ffi::traymark_measure_strip, plan, record, symbols, doubts)
}

/// Reads a photographed strip: the one record within the radius goes into `record`. Refusals 1 2 3 13 4 5 6 7 8,
/// and 10 exactly where no record is within the radius.
pub fn read_strip(plan: &[u8], symbols: &[u8], doubts: &[u8], record: &mut [u8]) -> Result<Reading, Refusal> {
    read_by(ffi::traymark_read_strip, plan, symbols, doubts, record)
}

/// Explains why the expected `record` of a photographed strip did not come up. Where another record is the answer it goes
/// into `other`, which has as many bytes as `record`; else `other` is left as it is. Refusals 1 2 3 13 4 5 6 7 8 9.
pub fn explain_strip(
    plan: &[u8],
    record: &[u8],
    symbols: &[u8],
    doubts: &[u8],
    other: &mut [u8],
) -> Result<Reason, Refusal> {
    explain_by(ffi::traymark_explain_strip, plan, record, symbols, doubts, other)
}

/// Puts the mark of `record` on a mark, photographed or written: each of the rows * columns `symbols` that is not 255 becomes
/// itself plus the value in its cell, modulo p, and an unread cell stays 255. A photograph then reads as it did, but for the
/// record, which is the former one plus `record`, coefficient by coefficient modulo p. Refusals 1 2 3 13 4 5 6 7 9.
///
/// ```
/// # let mut plan = [0; traymark::PLAN_LENGTH];
/// # plan[..9].copy_from_slice(&[0, 12, 7, 3, 3, 1, 1, 2, 4]);
/// # plan[22..25].copy_from_slice(&[1, 2, 4]);
/// // a station prints the mark of 3 + X + 2Y with that of 5 + 4X + 6Y on it, which is the mark of 1 + 5X + Y
/// let (tray, mask) = ([3, 1, 2], [5, 4, 6]);
/// let mut printed = [0; 9];
/// traymark::write_mark(&plan, &tray, &mut printed)?;
/// traymark::mask_mark(&plan, &mask, &mut printed)?;
/// assert_eq!(printed, [0, 1, 3, 5, 6, 1, 1, 2, 4]);
///
/// // a photograph of it, its first cell misread and its last unread, is unmasked and read: the record is the tray's
/// let (mut symbols, doubts) = ([6, 1, 3, 5, 6, 1, 1, 2, 255], [0, 0, 0, 0, 0, 0, 0, 0, 100]);
/// let mut record = [0; 3];
/// let masked = traymark::read_mark(&plan, &symbols, &doubts, &mut record)?;
/// assert_eq!(record, [1, 5, 1]);
/// traymark::unmask_mark(&plan, &mask, &mut symbols)?;
/// assert_eq!(symbols, [5, 1, 5, 0, 2, 6, 2, 4, 255]);
/// assert_eq!(traymark::read_mark(&plan, &symbols, &doubts, &mut record)?, masked);
/// assert_eq!(record, tray);
/// # Ok::<(), traymark::Refusal>(())
/// ```
pub fn mask_mark(plan: &[u8], record: &[u8], symbols: &mut [u8]) -> Result<(), Refusal> {
    write_by(ffi::traymark_mask_mark, plan, record, symbols)
}

/// Takes the mark of `record` off a mark, photographed or written: each of the rows * columns `symbols` that is not 255 becomes
/// itself less the value in its cell, modulo p, and an unread cell stays 255. Refusals 1 2 3 13 4 5 6 7 9.
pub fn unmask_mark(plan: &[u8], record: &[u8], symbols: &mut [u8]) -> Result<(), Refusal> {
    write_by(ffi::traymark_unmask_mark, plan, record, symbols)
}

/// Puts the strip of `record`, d + 1 bytes, on a strip, as many `symbols` as there are rows, as `mask_mark` does with marks.
/// Refusals 1 2 3 13 4 5 6 7 9.
pub fn mask_strip(plan: &[u8], record: &[u8], symbols: &mut [u8]) -> Result<(), Refusal> {
    write_by(ffi::traymark_mask_strip, plan, record, symbols)
}

/// Takes the strip of `record`, d + 1 bytes, off a strip, as many `symbols` as there are rows, as `unmask_mark` does with marks.
/// Refusals 1 2 3 13 4 5 6 7 9.
pub fn unmask_strip(plan: &[u8], record: &[u8], symbols: &mut [u8]) -> Result<(), Refusal> {
    write_by(ffi::traymark_unmask_strip, plan, record, symbols)
}

// Safety of the calls below: every pointer and its length come from one slice, and a `&mut` slice overlaps no other.

fn write_by(call: ffi::Write, plan: &[u8], record: &[u8], mark: &mut [u8]) -> Result<(), Refusal> {
    accepted(unsafe { call(plan.as_ptr(), plan.len(), record.as_ptr(), record.len(), mark.as_mut_ptr(), mark.len()) })
}

fn measure_by(
    call: ffi::Measure,
    plan: &[u8],
    record: &[u8],
    symbols: &[u8],
    doubts: &[u8],
) -> Result<Reading, Refusal> {
    reading(unsafe {
        call(
            plan.as_ptr(),
            plan.len(),
            record.as_ptr(),
            record.len(),
            symbols.as_ptr(),
            symbols.len(),
            doubts.as_ptr(),
            doubts.len(),
        )
    })
}

fn read_by(call: ffi::Read, plan: &[u8], symbols: &[u8], doubts: &[u8], record: &mut [u8]) -> Result<Reading, Refusal> {
    reading(unsafe {
        call(
            plan.as_ptr(),
            plan.len(),
            symbols.as_ptr(),
            symbols.len(),
            doubts.as_ptr(),
            doubts.len(),
            record.as_mut_ptr(),
            record.len(),
        )
    })
}

fn explain_by(
    call: ffi::Explain,
    plan: &[u8],
    record: &[u8],
    symbols: &[u8],
    doubts: &[u8],
    other: &mut [u8],
) -> Result<Reason, Refusal> {
    reason(unsafe {
        call(
            plan.as_ptr(),
            plan.len(),
            record.as_ptr(),
            record.len(),
            symbols.as_ptr(),
            symbols.len(),
            doubts.as_ptr(),
            doubts.len(),
            other.as_mut_ptr(),
            other.len(),
        )
    })
}

fn accepted(number: u32) -> Result<(), Refusal> {
    match number {
        0 => Ok(()),
        _ => Err(Refusal::from_number(number).expect("the library gives only these numbers")),
    }
}

fn reading(raw: ffi::RawReading) -> Result<Reading, Refusal> {
    accepted(raw.number)?;
    let ffi::RawReading { cost, margin, changed, unread, class, .. } = raw;
    Ok(Reading { cost, margin, changed, unread, class })
}

fn reason(raw: ffi::RawReason) -> Result<Reason, Refusal> {
    accepted(raw.number)?;
    match raw.reason {
        1 => Ok(Reason::Answer),
        2 => Ok(Reason::Other { place: raw.place as usize }),
        3 => Ok(Reason::Nothing { excess: raw.excess }),
        _ => unreachable!("the library gives only these reasons"),
    }
}
