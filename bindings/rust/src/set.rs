//! Several photographs of one mark, combined and read.

use crate::{accepted, ffi, reading, Reading, Refusal, SET_SIZE};

/// Up to nine photographs of one mark, numbered 0 to 8. They are added as they arrive and can be withdrawn; those that are held
/// are combined cell by cell, and the combination is read like any photograph. It is always the one that is made afresh from
/// those held.
///
/// A combined cell has the symbol with most votes, the smallest where several tie; a photograph casts no vote where its cell is
/// unread. With t votes, m for that symbol and s for the next, its doubt is the full doubt less the whole part of the full doubt
/// times (m - s) / t. Without a vote it is unread.
///
/// A set is its `SET_SIZE` bytes and nothing else: it allocates nothing, and the library copies none of them.
/// `include/traymark.h` says what they hold.
///
/// ```
/// use traymark::{Refusal, Set};
/// // season 12, p 7, 3 rows, 3 columns, d 1, row points 1 2 4, column points 1 2 4
/// let mut plan = [0; traymark::PLAN_LENGTH];
/// plan[..9].copy_from_slice(&[0, 12, 7, 3, 3, 1, 1, 2, 4]);
/// plan[22..25].copy_from_slice(&[1, 2, 4]);
///
/// // three photographs of the mark 6 1 5 0 2 6 2 4 1: of the first two cells are misread, of the second the first is unread
/// let mut set = Set::start(&plan)?;
/// set.add(0, &[0, 1, 5, 0, 2, 6, 2, 4, 0], &[0; 9])?;
/// set.add(1, &[255, 1, 5, 0, 2, 6, 2, 4, 1], &[100, 0, 0, 0, 0, 0, 0, 0, 0])?;
/// set.add(2, &[6, 1, 5, 0, 2, 6, 2, 4, 1], &[50; 9])?;
/// let (mut symbols, mut doubts) = ([0; 9], [0; 9]);
/// set.combine(&mut symbols, &mut doubts)?;
/// assert_eq!(symbols, [0, 1, 5, 0, 2, 6, 2, 4, 1]);
/// assert_eq!(doubts, [100, 0, 0, 0, 0, 0, 0, 0, 67]);
///
/// // a number that is held can't be added, and one that was withdrawn can be used again
/// assert_eq!(set.add(0, &[6; 9], &[0; 9]), Err(Refusal::NotFree));
/// set.withdraw(0)?;
/// assert_eq!(set.withdraw(0), Err(Refusal::NotHeld));
/// let mut record = [0; 3];
/// assert_eq!(set.read(&mut record)?.cost, 0);
/// assert_eq!(record, [3, 1, 2]);
/// # Ok::<(), Refusal>(())
/// ```
#[repr(transparent)]
#[derive(Clone, Debug, PartialEq, Eq)]
pub struct Set([u8; SET_SIZE]);

// Safety of the calls below: every pointer and its length come from one slice, that of a set from a reference to its bytes, and
// what is behind a `&mut` overlaps nothing else.
impl Set {
    /// A set with this plan that holds no photograph. Refusals 1 2 3 13 4 5.
    pub fn start(plan: &[u8]) -> Result<Set, Refusal> {
        let mut set = Set([0; SET_SIZE]);
        set.restart(plan)?;
        Ok(set)
    }

    /// Empties the set and gives it this plan; a refusal leaves it as it is. Refusals 1 2 3 13 4 5.
    pub fn restart(&mut self, plan: &[u8]) -> Result<(), Refusal> {
        accepted(unsafe { ffi::traymark_set_start(&mut self.0, plan.as_ptr(), plan.len()) })
    }

    /// Adds a photograph: `symbols` and `doubts` have rows * columns bytes. The doubts are checked and not kept. Refusals 6, 17
    /// where the number is above 8 or held, 7 and 8; before them, in bytes that the calls have not made, 1 2 3 13 4 5.
    pub fn add(&mut self, photograph: u32, symbols: &[u8], doubts: &[u8]) -> Result<(), Refusal> {
        accepted(unsafe {
            ffi::traymark_set_add(
                &mut self.0,
                photograph,
                symbols.as_ptr(),
                symbols.len(),
                doubts.as_ptr(),
                doubts.len(),
            )
        })
    }

    /// Withdraws a photograph. Refusal 18 where the number is not held, as none above 8 is.
    pub fn withdraw(&mut self, photograph: u32) -> Result<(), Refusal> {
        accepted(unsafe { ffi::traymark_set_withdraw(&mut self.0, photograph) })
    }

    /// Combines the photographs that are held: `symbols` and `doubts` have rows * columns bytes. Refusal 6; before it, in bytes
    /// that the calls have not made, 1 2 3 13 4 5.
    pub fn combine(&self, symbols: &mut [u8], doubts: &mut [u8]) -> Result<(), Refusal> {
        accepted(unsafe {
            ffi::traymark_set_combine(&self.0, symbols.as_mut_ptr(), symbols.len(), doubts.as_mut_ptr(), doubts.len())
        })
    }

    /// Reads the combination as `read_mark` does: the one record within the radius goes into `record`. Refusal 6, and 10 exactly
    /// where no record is within the radius; in bytes that the calls have not made, 1 2 3 13 4 5 before 6, and 7 after it.
    pub fn read(&self, record: &mut [u8]) -> Result<Reading, Refusal> {
        reading(unsafe { ffi::traymark_set_read(&self.0, record.as_mut_ptr(), record.len()) })
    }

    /// A set of these bytes. All calls answer whatever bytes they are.
    pub fn from_bytes(bytes: [u8; SET_SIZE]) -> Set {
        Set(bytes)
    }

    /// Its bytes.
    pub fn as_bytes(&self) -> &[u8; SET_SIZE] {
        &self.0
    }
}
