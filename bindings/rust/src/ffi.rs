//! The calls as `include/traymark.h` declares them: each slice is a pointer and a length, in that order.
//!
//! What a caller owes is in that header: each pointer points to as many bytes as its length says, that of a set to `SET_SIZE`,
//! and what is written overlaps nothing else of the call.

/// What measuring and reading answer. Of a refusal everything but the number is 0.
#[repr(C)]
#[derive(Clone, Copy, Debug, PartialEq, Eq)]
pub struct RawReading {
    pub number: u32,
    pub cost: u32,
    pub margin: i32,
    pub changed: u32,
    pub unread: u32,
    pub class: u32,
}

/// What explaining answers. Of a refusal everything but the number is 0.
#[repr(C)]
#[derive(Clone, Copy, Debug, PartialEq, Eq)]
pub struct RawReason {
    pub number: u32,
    pub reason: u32,
    pub place: u32,
    pub excess: u32,
}

/// How many bytes a set has.
pub const SET_SIZE: usize = 2353;

/// The bytes of a set, which are the caller's. Any bytes are answered.
pub type RawSet = [u8; SET_SIZE];

extern "C" {
    pub fn traymark_check_plan(plan: *const u8, plan_len: usize) -> u32;

    pub fn traymark_find_plan(file: *const u8, file_len: usize, season: u16, offset: *mut usize) -> u32;

    pub fn traymark_find_season(
        file: *const u8,
        file_len: usize,
        year: u32,
        month: u32,
        day: u32,
        season: *mut u16,
    ) -> u32;

    pub fn traymark_widen_plans(old: *const u8, old_len: usize, wide: *mut u8, wide_len: usize) -> u32;

    pub fn traymark_write_mark(
        plan: *const u8,
        plan_len: usize,
        record: *const u8,
        record_len: usize,
        mark: *mut u8,
        mark_len: usize,
    ) -> u32;

    pub fn traymark_measure_mark(
        plan: *const u8,
        plan_len: usize,
        record: *const u8,
        record_len: usize,
        symbols: *const u8,
        symbols_len: usize,
        doubts: *const u8,
        doubts_len: usize,
    ) -> RawReading;

    pub fn traymark_read_mark(
        plan: *const u8,
        plan_len: usize,
        symbols: *const u8,
        symbols_len: usize,
        doubts: *const u8,
        doubts_len: usize,
        record: *mut u8,
        record_len: usize,
    ) -> RawReading;

    pub fn traymark_explain_mark(
        plan: *const u8,
        plan_len: usize,
        record: *const u8,
        record_len: usize,
        symbols: *const u8,
        symbols_len: usize,
        doubts: *const u8,
        doubts_len: usize,
        other: *mut u8,
        other_len: usize,
    ) -> RawReason;

    pub fn traymark_write_strip(
        plan: *const u8,
        plan_len: usize,
        record: *const u8,
        record_len: usize,
        strip: *mut u8,
        strip_len: usize,
    ) -> u32;

    pub fn traymark_measure_strip(
        plan: *const u8,
        plan_len: usize,
        record: *const u8,
        record_len: usize,
        symbols: *const u8,
        symbols_len: usize,
        doubts: *const u8,
        doubts_len: usize,
    ) -> RawReading;

    pub fn traymark_read_strip(
        plan: *const u8,
        plan_len: usize,
        symbols: *const u8,
        symbols_len: usize,
        doubts: *const u8,
        doubts_len: usize,
        record: *mut u8,
        record_len: usize,
    ) -> RawReading;

    pub fn traymark_explain_strip(
        plan: *const u8,
        plan_len: usize,
        record: *const u8,
        record_len: usize,
        symbols: *const u8,
        symbols_len: usize,
        doubts: *const u8,
        doubts_len: usize,
        other: *mut u8,
        other_len: usize,
    ) -> RawReason;

    pub fn traymark_mask_mark(
        plan: *const u8,
        plan_len: usize,
        record: *const u8,
        record_len: usize,
        symbols: *mut u8,
        symbols_len: usize,
    ) -> u32;

    pub fn traymark_unmask_mark(
        plan: *const u8,
        plan_len: usize,
        record: *const u8,
        record_len: usize,
        symbols: *mut u8,
        symbols_len: usize,
    ) -> u32;

    pub fn traymark_mask_strip(
        plan: *const u8,
        plan_len: usize,
        record: *const u8,
        record_len: usize,
        symbols: *mut u8,
        symbols_len: usize,
    ) -> u32;

    pub fn traymark_unmask_strip(
        plan: *const u8,
        plan_len: usize,
        record: *const u8,
        record_len: usize,
        symbols: *mut u8,
        symbols_len: usize,
    ) -> u32;

    pub fn traymark_set_size() -> usize;

    pub fn traymark_set_start(set: *mut RawSet, plan: *const u8, plan_len: usize) -> u32;

    pub fn traymark_set_add(
        set: *mut RawSet,
        photograph: u32,
        symbols: *const u8,
        symbols_len: usize,
        doubts: *const u8,
        doubts_len: usize,
    ) -> u32;

    pub fn traymark_set_withdraw(set: *mut RawSet, photograph: u32) -> u32;

    pub fn traymark_set_combine(
        set: *const RawSet,
        symbols: *mut u8,
        symbols_len: usize,
        doubts: *mut u8,
        doubts_len: usize,
    ) -> u32;

    pub fn traymark_set_read(set: *const RawSet, record: *mut u8, record_len: usize) -> RawReading;
}

/// Writing a mark or a strip: plan, record, mark. Masking and unmasking one: plan, record, symbols.
pub type Write = unsafe extern "C" fn(*const u8, usize, *const u8, usize, *mut u8, usize) -> u32;

/// Measuring: plan, record, symbols, doubts.
pub type Measure =
    unsafe extern "C" fn(*const u8, usize, *const u8, usize, *const u8, usize, *const u8, usize) -> RawReading;

/// Reading: plan, symbols, doubts, record.
pub type Read =
    unsafe extern "C" fn(*const u8, usize, *const u8, usize, *const u8, usize, *mut u8, usize) -> RawReading;

/// Explaining: plan, expected record, symbols, doubts, another record.
pub type Explain = unsafe extern "C" fn(
    *const u8,
    usize,
    *const u8,
    usize,
    *const u8,
    usize,
    *const u8,
    usize,
    *mut u8,
    usize,
) -> RawReason;
