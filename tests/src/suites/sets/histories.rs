//! Histories: calls on several sets in turn. After each, the number and every byte of every set are those of the model; and three
//! times in four where something arrived, was withdrawn or was started anew, so are the combination and what it is read as. The
//! model combines the photographs held afresh.

use super::{expect, too_high};
use crate::suites::faults;
use independent::calls::bytes;
use independent::{Code, Plan, Set, PHOTOGRAPHS, SET};
use traymark_tests::calls::Arguments;
use traymark_tests::counts::Counts;
use traymark_tests::photo::{noise, photograph, rival, unread, Photo};
use traymark_tests::plans::{self, Shape, LARGE_OBLONGS, LARGE_SQUARES};
use traymark_tests::random::Random;
use traymark_tests::sets::{Event, LentSet, SetCall};

/// How many calls a history has.
const CALLS: usize = 60;

/// Two to four sets, of which the first is large in every eighth history.
pub fn case(seed: u64, random: &mut Random, counts: &mut Counts) -> Result<(), String> {
    let mut sets = Vec::new();
    for k in 0..random.between(2, 4) {
        sets.push(Tray::new(k == 0 && seed.is_multiple_of(8), random, counts)?);
    }
    for _ in 0..CALLS {
        let place = random.below(sets.len());
        sets[place].step(random, counts).map_err(|what| format!("{what}; {:?}", sets[place].model))?;
        sets.iter().try_for_each(Tray::hold_memory)?;
    }
    Ok(())
}

/// A set, what it is to hold, and the mark that is photographed for it.
struct Tray {
    set: LentSet,
    model: Set,
    mark: Mark,
    /// whether photographs mostly arrive, or are mostly withdrawn
    is_filling: bool,
    /// the numbers that were withdrawn since the start, and those since the last combination
    withdrawn: [bool; PHOTOGRAPHS],
    uncombined: [bool; PHOTOGRAPHS],
}

/// A mark that is photographed, and whether its photographs are of it, and not of nothing.
struct Mark {
    values: Vec<u32>,
    /// those of a near mark
    near: Vec<u32>,
    is_sharp: bool,
}

impl Mark {
    /// Any mark by that plan.
    fn by(plan: &Plan, random: &mut Random) -> Mark {
        let record = plans::record(Code::Mark, plan, random);
        let rival = rival(Code::Mark, plan, &record, random);
        let [values, near] = [record, rival].map(|record| Code::Mark.word(plan, &record));
        Mark { values, near, is_sharp: !random.one_in(4) }
    }
}

fn shape(is_large: bool, random: &mut Random) -> Shape {
    match is_large {
        true => random.pick(&[&LARGE_SQUARES[..], &LARGE_OBLONGS].concat()),
        false => random.pick(plans::shapes()),
    }
}

impl Tray {
    /// A set that is started in memory with any bytes; a start may have been refused before.
    fn new(is_large: bool, random: &mut Random, counts: &mut Counts) -> Result<Tray, String> {
        let plan = plans::plan(shape(is_large, random), random);
        let mut set = LentSet::new(&random.bytes(SET), random);
        if random.one_in(2) {
            let before = set.bytes().to_vec();
            refuse_start(&mut set, random, counts)?;
            expect("a refused start", set.bytes(), &before)?;
        }
        expect("start", set.start(&plan.bytes(), random)?, 0)?;
        counts.set_answer(SetCall::Start, 0);
        let model = Set::start(&plan.bytes()).expect("the plan is sound");
        let mark = Mark::by(&plan, random);
        let [withdrawn, uncombined] = [[false; PHOTOGRAPHS]; 2];
        let mut tray = Tray { set, model, mark, is_filling: true, withdrawn, uncombined };
        tray.hold_memory()?;
        tray.hold_combination(random, counts)?;
        Ok(tray)
    }

    /// One call that may change the set, or is refused, and what comes of it.
    fn step(&mut self, random: &mut Random, counts: &mut Counts) -> Result<(), String> {
        if random.one_in(24) {
            self.is_filling = !self.is_filling;
        }
        match random.below(40) {
            0 => self.restart(random, counts)?,
            1 => {
                counts.sets.event(Event::Unstarted);
                refuse_start(&mut self.set, random, counts)?;
            }
            2..6 => self.add_with_faults(random, counts)?,
            6..8 => self.withdraw_none(random, counts)?,
            8..11 => return self.hold_refusals(random, counts),
            _ if self.is_filling != random.one_in(6) => self.add(random, counts)?,
            _ => self.withdraw(random, counts)?,
        }
        match random.one_in(4) {
            true => Ok(()),
            false => self.hold_combination(random, counts),
        }
    }

    fn numbers(&self, held: bool) -> Vec<u32> {
        (0..).zip(&self.model.photographs).filter(|(_, place)| place.is_some() == held).map(|(k, _)| k).collect()
    }

    /// The set is started with another plan, or with its own.
    fn restart(&mut self, random: &mut Random, counts: &mut Counts) -> Result<(), String> {
        let plan = match random.one_in(4) {
            true => self.model.plan.clone(),
            false => plans::plan(shape(random.one_in(16), random), random),
        };
        expect("start", self.set.start(&plan.bytes(), random)?, 0)?;
        counts.set_answer(SetCall::Start, 0);
        let in_use = self.model.photographs.iter().any(Option::is_some);
        if in_use && Code::Mark.cells(&plan) != Code::Mark.cells(&self.model.plan) {
            counts.sets.event(Event::Restarted);
        }
        self.model = Set::start(&plan.bytes()).expect("the plan is sound");
        self.mark = Mark::by(&plan, random);
        self.withdrawn.fill(false);
        self.uncombined.fill(false);
        Ok(())
    }

    /// A photograph arrives under a number that is free, often one that was withdrawn since the last combination, or is refused
    /// where there is none.
    fn add(&mut self, random: &mut Random, counts: &mut Counts) -> Result<(), String> {
        let mut free = self.numbers(false);
        if free.iter().any(|&number| self.uncombined[number as usize]) && !random.one_in(4) {
            free.retain(|&number| self.uncombined[number as usize]);
        }
        let number = if free.is_empty() { random.between(0, 8) } else { random.pick(&free) };
        let [symbols, doubts] = self.photograph(random);
        self.arrive(number, &symbols, &doubts, random, counts)
    }

    /// A photograph of the mark, damaged in any way, or of nothing, or with no cell read.
    fn photograph(&self, random: &mut Random) -> [Vec<u8>; 2] {
        let plan = &self.model.plan;
        let Mark { values, near, is_sharp } = &self.mark;
        let radius = Code::Mark.radius(plan);
        let some = random.between(0, radius);
        let cost = random.pick(&[0, some, some, radius - 1, radius]);
        let Photo { symbols, doubts } = match random.below(16) {
            0 => unread(Code::Mark, plan),
            1 => photograph(plan, near, values, cost, random),
            2 => noise(Code::Mark, plan, random),
            _ if *is_sharp => photograph(plan, values, near, cost, random),
            _ => noise(Code::Mark, plan, random),
        };
        [bytes(&symbols), bytes(&doubts)]
    }

    fn arrive(
        &mut self,
        number: u32,
        symbols: &[u8],
        doubts: &[u8],
        random: &mut Random,
        counts: &mut Counts,
    ) -> Result<(), String> {
        let answer = self.set.add(number, symbols, doubts, random)?;
        counts.set_answer(SetCall::Add, answer);
        expect(&format!("add {number} {symbols:?} {doubts:?}"), answer, self.model.add(number, symbols, doubts))?;
        if answer == 0 {
            if self.withdrawn[number as usize] {
                counts.sets.event(Event::Reused);
            }
            if self.uncombined[number as usize] {
                counts.sets.event(Event::Replaced);
            }
            if self.numbers(false).is_empty() {
                counts.sets.event(Event::Full);
            }
        }
        Ok(())
    }

    /// A photograph that is refused for one of several reasons, mostly.
    fn add_with_faults(&mut self, random: &mut Random, counts: &mut Counts) -> Result<(), String> {
        let p = self.model.plan.p;
        let full = self.model.plan.full_doubt();
        let [mut symbols, mut doubts] = self.photograph(random);
        let number = random.between(0, 8);
        let number = if random.one_in(3) { too_high(number, random) } else { number };
        let cell = random.below(symbols.len());
        if random.one_in(4) {
            doubts[cell] = random.between(full + 1, 255) as u8;
        }
        if random.one_in(4) {
            (symbols[cell], doubts[cell]) = (255, random.pick(&[0, full - 1, 350 - full]) as u8);
        }
        if random.one_in(3) {
            let cell = random.below(symbols.len());
            let any = random.between(p, 254);
            symbols[cell] = random.pick(&[p, 254, any]) as u8;
        }
        if random.one_in(6) {
            let longer = symbols.len() + 1;
            symbols.resize(random.pick(&[0, longer - 2, longer]), 0);
        }
        if random.one_in(6) {
            let longer = doubts.len() + 1;
            doubts.resize(random.pick(&[0, longer - 2, longer]), 0);
        }
        self.arrive(number, &symbols, &doubts, random, counts)
    }

    /// A photograph that is held is withdrawn; where there is none that is refused.
    fn withdraw(&mut self, random: &mut Random, counts: &mut Counts) -> Result<(), String> {
        let held = self.numbers(true);
        let number = if held.is_empty() { random.between(0, 8) } else { random.pick(&held) };
        self.take_out(number, counts)
    }

    /// A number that is not held is to be withdrawn, or one that only looks like one that is.
    fn withdraw_none(&mut self, random: &mut Random, counts: &mut Counts) -> Result<(), String> {
        let free = self.numbers(false);
        let number = random.between(0, 8);
        let number = if free.is_empty() || random.one_in(2) { too_high(number, random) } else { random.pick(&free) };
        self.take_out(number, counts)
    }

    fn take_out(&mut self, number: u32, counts: &mut Counts) -> Result<(), String> {
        let answer = self.set.withdraw(number)?;
        counts.set_answer(SetCall::Withdraw, answer);
        expect(&format!("withdraw {number}"), answer, self.model.withdraw(number))?;
        if answer == 0 {
            self.withdrawn[number as usize] = true;
            self.uncombined[number as usize] = true;
            if self.numbers(true).is_empty() {
                counts.sets.event(Event::Emptied);
            }
        }
        Ok(())
    }

    /// Every byte of the set is what the model says.
    fn hold_memory(&self) -> Result<(), String> {
        let memory = self.model.memory();
        match self.set.bytes().iter().zip(&memory).position(|(byte, expected)| byte != expected) {
            None => Ok(()),
            Some(place) => {
                let byte = self.set.bytes()[place];
                Err(format!("byte {place} is {byte}, expected {}; {:?}", memory[place], self.model))
            }
        }
    }

    /// The combination, and what it is read as.
    fn hold_combination(&mut self, random: &mut Random, counts: &mut Counts) -> Result<(), String> {
        let plan = &self.model.plan;
        let cells = Code::Mark.cells(plan);
        let [mut symbols, mut doubts] = [random.bytes(cells), random.bytes(cells)];
        expect("combine", self.set.combine(&mut symbols, &mut doubts, random)?, 0)?;
        counts.set_answer(SetCall::Combine, 0);
        expect("combine left", [symbols, doubts], self.model.combined())?;
        let mut record = random.bytes(Code::Mark.size(plan));
        let mut expected = record.clone();
        let reading = self.set.read(&mut record, random)?;
        counts.set_answer(SetCall::Read, reading.number);
        expect("read", reading, self.model.read(&mut expected))?;
        expect("read left", &record, &expected)?;
        counts.sets.combined(&self.model);
        self.uncombined.fill(false);
        counts.sets.read(plan, reading.number);
        Ok(())
    }

    /// Combining and reading with buffers of the wrong length.
    fn hold_refusals(&self, random: &mut Random, counts: &mut Counts) -> Result<(), String> {
        let plan = &self.model.plan;
        let [cells, size] = [Code::Mark.cells(plan), Code::Mark.size(plan)];
        let lengths =
            random.pick(&[[cells + 1, cells], [cells, cells - 1], [0, cells], [cells, 0], [cells - 1, cells]]);
        let [mut symbols, mut doubts] = lengths.map(|length| random.bytes(length));
        let before = [symbols.clone(), doubts.clone()];
        expect("combine", self.set.combine(&mut symbols, &mut doubts, random)?, 6)?;
        counts.set_answer(SetCall::Combine, 6);
        expect("combine left", [symbols, doubts], before)?;
        let length = random.pick(&[0, size - 1, size + 1]);
        let mut record = random.bytes(length);
        let before = record.clone();
        expect("read", self.set.read(&mut record, random)?.number, 6)?;
        counts.set_answer(SetCall::Read, 6);
        expect("read left", record, before)
    }
}

/// A start with an unsound plan.
fn refuse_start(set: &mut LentSet, random: &mut Random, counts: &mut Counts) -> Result<(), String> {
    let (plan, mut given) = faults::sound(Code::Mark, random);
    faults::break_plan(&mut given, &plan, random);
    let Arguments { plan, .. } = given;
    let number = set.start(&plan, random)?;
    counts.set_answer(SetCall::Start, number);
    expect(&format!("start with {plan:?}"), number, independent::check_plan(&plan))
}
