//! Streams of distinct marks and strips that are masked or unmasked, each with a record of its own.

use crate::port::{self, Plain, Tuned};
use crate::stream::{self, Kind, Mark, SEASON};
use crate::timing::BATCH;
use independent::Code;
use std::hint::black_box;
use traymark::Refusal;
use traymark_tests::plans::Shape;

/// A call that puts the mark or the strip of a record on symbols, or takes it off.
pub type Shift = fn(&[u8], &[u8], &mut [u8]) -> Result<(), Refusal>;

#[derive(Clone, Copy, Debug)]
pub enum Way {
    Mask,
    Unmask,
}

impl Way {
    pub const ALL: [Way; 2] = [Way::Mask, Way::Unmask];

    /// Its name, a word.
    pub fn name(self) -> &'static str {
        match self {
            Way::Mask => "mask",
            Way::Unmask => "unmask",
        }
    }
}

/// What is masked or unmasked: a mark or a strip of a plan of that shape.
#[derive(Clone, Copy, Debug)]
pub struct Masking {
    pub code: Code,
    pub shape: Shape,
    pub way: Way,
}

/// The plans, each for marks or for strips.
pub const PLANS: [(Code, Shape); 4] = [
    (Code::Mark, (251, 16, 16, 0)),
    (Code::Mark, (251, 16, 16, 7)),
    (Code::Mark, (251, 16, 16, 15)),
    (Code::Strip, (251, 16, 16, 7)),
];

impl Masking {
    /// Who is timed: the library, the port with division and the one with the reciprocal.
    pub fn calls(self) -> [Shift; 3] {
        match (self.code, self.way) {
            (Code::Mark, Way::Mask) => [traymark::mask_mark, port::mask_mark::<Plain>, port::mask_mark::<Tuned>],
            (Code::Mark, Way::Unmask) => {
                [traymark::unmask_mark, port::unmask_mark::<Plain>, port::unmask_mark::<Tuned>]
            }
            (Code::Strip, Way::Mask) => [traymark::mask_strip, port::mask_strip::<Plain>, port::mask_strip::<Tuned>],
            (Code::Strip, Way::Unmask) => {
                [traymark::unmask_strip, port::unmask_strip::<Plain>, port::unmask_strip::<Tuned>]
            }
        }
    }

    /// Marks enough for so many, in whole batches: as they were written where they are masked, which is what is printed, and
    /// with wrong, doubtful and unread cells where they are unmasked, which is what was photographed.
    pub fn marks(self, number: usize) -> Vec<Mark> {
        let kind = match self.way {
            Way::Mask => Kind::Clean,
            Way::Unmask => Kind::Doubts,
        };
        stream::marks(self.code, SEASON, self.shape, kind, number.next_multiple_of(BATCH))
    }
}

/// What a call answers, and what it leaves of a mark's symbols. The record is a rival of the mark's own.
pub fn left(call: Shift, mark: &Mark) -> (Result<(), Refusal>, Vec<u8>) {
    let mut cells = mark.symbols.clone();
    (call(&mark.plan, &mark.rival, &mut cells), cells)
}

/// The same of several marks, in a room that they share, for times.
pub fn run(call: Shift, marks: &[Mark]) {
    let mut room = [0; 256];
    for Mark { plan, rival, symbols, .. } in marks {
        let cells = &mut room[..symbols.len()];
        cells.copy_from_slice(symbols);
        _ = black_box(call(plan, rival, cells));
        black_box(&room);
    }
}
