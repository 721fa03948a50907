//! A photograph with a mask on is read as it is without, but for the record, which is more by the mask's; measured and explained
//! likewise. That needs no decoder: the library is held against itself, and where the photograph costs the radius or less
//! against its record, against the theory.

use independent::calls::{bytes, numbers};
use independent::{Code, Plan};
use traymark_tests::calls::{answered, hold, Arguments, Call, Outcome};
use traymark_tests::counts::Counts;
use traymark_tests::photo::{noise, photograph, rival};
use traymark_tests::plans;
use traymark_tests::random::Random;

/// A tray and the mask that goes on its mark, or strip; another record, whose mark is near the tray's; and what a photograph is
/// to cost against the tray's record, or nothing where it is of no mark at all.
struct Trial<'a> {
    code: Code,
    plan: &'a Plan,
    record: Vec<u8>,
    rival: Vec<u8>,
    mask: Vec<u8>,
    cost: Option<u32>,
}

/// Every shape, marks and strips: a photograph is made and then masked.
pub fn masked(seed: u64, random: &mut Random, counts: &mut Counts) -> Result<(), String> {
    each(seed, random, counts, |trial, random, counts| {
        let given = trial.photographed(&trial.record, &trial.rival, random);
        let masked = hold(Call::Mask, &trial.with_mask(&given), random, counts)?.buffer;
        trial.hold(&given, masked, random, counts)
    })
}

/// Every shape, marks and strips, in the station's way: a mark is written, masked and printed, what is printed is photographed,
/// and the photograph is unmasked to be read.
pub fn printed(seed: u64, random: &mut Random, counts: &mut Counts) -> Result<(), String> {
    each(seed, random, counts, |trial, random, counts| {
        let [record, rival] = [&trial.record, &trial.rival].map(|record| trial.more(record));
        trial.print(&record, random, counts)?;
        let masked = trial.photographed(&record, &rival, random);
        let symbols = hold(Call::Unmask, &trial.with_mask(&masked), random, counts)?.buffer;
        let given = Arguments { symbols, ..masked.clone() };
        trial.hold(&given, masked.symbols, random, counts)
    })
}

type Case = fn(&Trial, &mut Random, &mut Counts) -> Result<(), String>;

/// Strips and marks of the seed's shape, at R - 1, R, R + 1 and at another cost, or photographs of nothing.
fn each(seed: u64, random: &mut Random, counts: &mut Counts, case: Case) -> Result<(), String> {
    let plan = &plans::plan(plans::shapes()[seed as usize], random);
    for code in [Code::Strip, Code::Mark] {
        let radius = code.radius(plan);
        let any = Some(random.between(0, radius - 1));
        let other = random.pick(&[None, any, Some(0)]);
        for cost in [Some(radius - 1), Some(radius), Some(radius + 1), other] {
            let record = plans::record(code, plan, random);
            let rival = bytes(&rival(code, plan, &record, random));
            let mask = bytes(&mask(code, plan, &record, random));
            case(&Trial { code, plan, record: bytes(&record), rival, mask, cost }, random, counts)?;
        }
    }
    Ok(())
}

/// Any record, that of 0, that with the largest coefficients, or the one that makes the tray's mark 0.
fn mask(code: Code, plan: &Plan, record: &[u32], random: &mut Random) -> Vec<u32> {
    match random.below(6) {
        0 => vec![0; record.len()],
        1 => vec![plan.p - 1; record.len()],
        2 => record.iter().map(|coefficient| (plan.p - coefficient) % plan.p).collect(),
        _ => plans::record(code, plan, random),
    }
}

impl Trial<'_> {
    /// The record plus the mask's, coefficient by coefficient.
    fn more(&self, record: &[u8]) -> Vec<u8> {
        let sum = |(one, other): (u32, u32)| (one + other) % self.plan.p;
        bytes(&numbers(record).into_iter().zip(numbers(&self.mask)).map(sum).collect::<Vec<u32>>())
    }

    /// The arguments with the mask's record.
    fn with_mask(&self, given: &Arguments) -> Arguments {
        Arguments { record: self.mask.clone(), ..given.clone() }
    }

    /// The mark of the tray's record, masked, is the mark of this one.
    fn print(&self, record: &[u8], random: &mut Random, counts: &mut Counts) -> Result<(), String> {
        let mark = random.bytes(self.code.cells(self.plan));
        let given = Arguments::on_plan(self.code, &self.plan.bytes());
        let given = Arguments { record: self.record.clone(), mark, ..given };
        let written = answered(Call::Write, &given, random, counts)?.buffer;
        let given = self.with_mask(&Arguments { symbols: written, ..given });
        let printed = answered(Call::Mask, &given, random, counts)?;
        if printed != Outcome::numbered(0, bytes(&self.code.word(self.plan, &numbers(record)))) {
            return Err(format!("masked gave {printed:?}, not the mark of {record:?}; {given:?}"));
        }
        Ok(())
    }

    /// A photograph of the mark of a record, damaged towards another one or anyhow, or one of nothing; with any bytes in the
    /// buffers for records.
    fn photographed(&self, record: &[u8], rival: &[u8], random: &mut Random) -> Arguments {
        let Trial { code, plan, .. } = *self;
        let [word, rival] = [record, rival].map(|record| code.word(plan, &numbers(record)));
        let photo = match self.cost {
            Some(cost) => photograph(plan, &word, &rival, cost, random),
            None => noise(code, plan, random),
        };
        let [symbols, doubts] = [photo.symbols, photo.doubts].map(|numbers| bytes(&numbers));
        let [record, other] = [0, 1].map(|_| random.bytes(code.size(plan)));
        Arguments { record, symbols, doubts, other, ..Arguments::on_plan(code, &plan.bytes()) }
    }

    /// The photograph and its symbols with the mask on: they are read alike, and now and then measured and explained.
    fn hold(&self, given: &Arguments, masked: Vec<u8>, random: &mut Random, counts: &mut Counts) -> Result<(), String> {
        let with_mask = Arguments { symbols: masked, ..given.clone() };
        let read = self.alike(Call::Read, given, &with_mask, random, counts)?;
        self.theory(&read).map_err(|what| format!("{what}; {given:?}"))?;
        counts.masked(self.code, self.plan, &self.mask, self.cost, read.reading.number);
        if random.one_in(4) {
            for record in [&self.record, &self.rival] {
                let given = Arguments { record: record.clone(), ..given.clone() };
                let with_mask = Arguments { record: self.more(record), ..with_mask.clone() };
                self.alike(Call::Measure, &given, &with_mask, random, counts)?;
                self.alike(Call::Explain, &given, &with_mask, random, counts)?;
            }
        }
        Ok(())
    }

    /// The outcome without the mask. With it on, the outcome is the same, but a record that is written is more by the mask's.
    fn alike(
        &self,
        call: Call,
        given: &Arguments,
        with_mask: &Arguments,
        random: &mut Random,
        counts: &mut Counts,
    ) -> Result<Outcome, String> {
        let plain = answered(call, given, random, counts)?;
        let masked = answered(call, with_mask, random, counts)?;
        let mut expected = plain.clone();
        if plain.is_written(call) {
            expected.buffer = self.more(&plain.buffer);
        }
        if masked != expected {
            let mask = &self.mask;
            return Err(format!("{call:?} gave {plain:?}, and with the mask {mask:?} on {masked:?}; {given:?}"));
        }
        Ok(plain)
    }

    /// Under the radius the tray's own record comes back, at its cost, and at the radius none does; a photograph is never refused
    /// but with 10.
    fn theory(&self, read: &Outcome) -> Result<(), String> {
        let radius = self.code.radius(self.plan);
        let reading = read.reading;
        let holds = match self.cost {
            Some(cost) if cost < radius => (reading.number, reading.cost, &read.buffer) == (0, cost, &self.record),
            Some(cost) if cost == radius => reading.number == 10,
            _ => matches!(reading.number, 0 | 10),
        };
        match holds {
            true => Ok(()),
            false => Err(format!("{:?} costs {:?}, and the reading is {read:?}", self.record, self.cost)),
        }
    }
}
