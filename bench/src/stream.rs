//! Streams of distinct marks, or strips: repeating one mark would hide mispredicted branches.

use independent::calls::bytes;
use independent::{Code, Plan, PLAN};
use traymark_tests::photo::{damaged, noise, rival, Damage, Harm, Place};
use traymark_tests::plans::{self, Shape};
use traymark_tests::random::Random;

/// A season with doubts in 100ths, and one with doubts in 250ths.
pub const SEASON: u16 = 12;
pub const FINER_SEASON: u16 = 30;

#[derive(Debug)]
pub struct Mark {
    pub plan: [u8; PLAN],
    pub record: Vec<u8>,
    /// a rival of the record
    pub rival: Vec<u8>,
    pub symbols: Vec<u8>,
    pub doubts: Vec<u8>,
}

#[derive(Clone, Copy, PartialEq, Eq)]
pub enum Kind {
    Clean,
    Errors,
    Doubts,
    Rivals,
    Noise,
}

impl Kind {
    /// Its name, a word.
    pub fn name(self) -> &'static str {
        match self {
            Kind::Clean => "clean",
            Kind::Errors => "errors",
            Kind::Doubts => "doubts",
            Kind::Rivals => "rivals",
            Kind::Noise => "noise",
        }
    }

    pub fn described(self) -> &'static str {
        match self {
            Kind::Clean => "clean",
            Kind::Errors => "half the radius of sure errors",
            Kind::Doubts => "under the radius, mixed doubts",
            Kind::Rivals => "rows of rival records",
            Kind::Noise => "noise",
        }
    }
}

/// A plan of this season. A square has the same points each way, as every plan that was widened.
pub fn plan(season: u16, shape: Shape, random: &mut Random) -> Plan {
    let plan = match shape {
        (p, rows, columns, d) if rows == columns => plans::square(p, rows, d, random),
        _ => plans::plan(shape, random),
    };
    Plan { season, ..plan }
}

/// So many marks or strips of one plan.
pub fn marks(code: Code, season: u16, shape: Shape, kind: Kind, number: usize) -> Vec<Mark> {
    let random = &mut Random::new(kind as u64);
    let plan = plan(season, shape, random);
    let radius = code.radius(&plan);
    let mut mark = || {
        let record = plans::record(code, &plan, random);
        let rival = rival(code, &plan, &record, random);
        let [word, rival_word] = [&record, &rival].map(|record| code.word(&plan, record));
        let mut photo = |cost: u32, place: Place, harm: Harm| {
            let damage = Damage { place, harm, towards_rival: matches!(kind, Kind::Rivals) };
            damaged(&plan, &word, &rival_word, cost, damage, random)
        };
        let photo = match kind {
            Kind::Clean => photo(0, Place::Anywhere, Harm::Error),
            Kind::Errors => photo(radius / 2, Place::Anywhere, Harm::Error),
            Kind::Doubts => photo(radius - 1, Place::Anywhere, Harm::Any),
            Kind::Rivals => photo(radius - 1, Place::Rows, Harm::Error),
            Kind::Noise => noise(code, &plan, random),
        };
        Mark {
            plan: plan.bytes(),
            record: bytes(&record),
            rival: bytes(&rival),
            symbols: bytes(&photo.symbols),
            doubts: bytes(&photo.doubts),
        }
    };
    (0..number).map(|_| mark()).collect()
}
