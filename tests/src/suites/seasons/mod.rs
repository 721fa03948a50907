//! Seasons by date: cases worked out by hand, every day and every date of some centuries, and window files of all kinds, held
//! against the independent calendar.

pub mod days;
pub mod documented;
pub mod faults;
pub mod files;

use independent::{Date, Windows};
use traymark_tests::counts::Counts;
use traymark_tests::lent::Lent;
use traymark_tests::library;
use traymark_tests::random::Random;

/// A file that is lent for one date after another.
struct File(Lent);

impl File {
    fn new(bytes: &[u8], random: &mut Random) -> File {
        File(Lent::new(bytes, random))
    }

    /// The date's season, or the refusal, is this.
    fn expect(
        &self,
        date: Date,
        expected: Result<u16, u32>,
        random: &mut Random,
        counts: &mut Counts,
    ) -> Result<(), String> {
        let told = |what| {
            let bytes = self.0.bytes();
            format!("{date:?}: {what}; file of {} bytes, {:?}", bytes.len(), &bytes[..bytes.len().min(1_000)])
        };
        let (number, season) = library::season(&self.0, date, random).map_err(told)?;
        counts.number(number);
        let expected = expected.map_or_else(|number| (number, 0), |season| (0, season));
        if (number, season) != expected {
            return Err(told(format!("number {number}, season {season}, expected {expected:?}")));
        }
        Ok(())
    }

    /// The same by the independent calendar, which has the file's windows taken apart.
    fn hold(
        &self,
        windows: &Result<Windows, u32>,
        date: Date,
        random: &mut Random,
        counts: &mut Counts,
    ) -> Result<(), String> {
        let expected = windows.as_ref().map_or_else(|&number| Err(number), |windows| windows.season(date));
        self.expect(date, expected, random, counts)?;
        counts.date(windows, date);
        Ok(())
    }
}
