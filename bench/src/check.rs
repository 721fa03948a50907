//! The ports held against the tests' decoder: cheap random plans and photographs, and faults in what is lent; those of masking
//! against it and against the library; against the tests' sets, which combine afresh: histories of photographs that are added and
//! withdrawn; and against the tests' calendar: random window files, and dates in and beside their windows.

use crate::masks::Shift;
use crate::port::{self, Plain, Reduction, Tuned};
use independent::calls::bytes;
use independent::windows::window_bytes;
use independent::{Code, Date, Plan, Windows, DAYS};
use traymark::Refusal;
use traymark_tests::calls::{expected, hold, Arguments, Call, Outcome};
use traymark_tests::counts::Counts;
use traymark_tests::library::{answered, told};
use traymark_tests::photo::{noise, photograph, rival, unread};
use traymark_tests::plans;
use traymark_tests::random::Random;
use traymark_tests::run::Suite;
use traymark_tests::windows;

/// Every shape with doubts in 100ths, and every shape with doubts in 250ths.
pub const SUITES: [Suite; 2] = [
    Suite { name: "ports before season 30", cases: 7_000, case: |seed, random, counts| case(0, seed, random, counts) },
    Suite { name: "ports from season 30 on", cases: 7_000, case: |seed, random, counts| case(1, seed, random, counts) },
];

/// Marks and strips masked and unmasked.
pub const MASKS: Suite = Suite { name: "ports of masking", cases: 7_000, case: mask_case };

/// Photographs added, withdrawn, combined and read.
pub const SETS: Suite = Suite { name: "port of sets", cases: 3_000, case: set_case };

/// The season of a date.
pub const SEASONS: Suite = Suite { name: "port of the season of a date", cases: 7_000, case: season_case };

/// One plan of a season of that age, before 30 or from 30 on, and a photograph; every fourth time something lent is spoiled.
fn case(age: usize, seed: u64, random: &mut Random, counts: &mut Counts) -> Result<(), String> {
    let shapes = plans::shapes();
    let plan = plans::plan(shapes[seed as usize % shapes.len()], random);
    let plan = Plan { season: plans::seasons(random)[age], ..plan };
    let mut given = arguments(Code::Mark, &plan, random);
    if random.one_in(4) {
        spoil(&mut given, random);
    }
    for call in [Call::Write, Call::Measure, Call::Read, Call::Explain] {
        let expected = expected(call, &given);
        ports_give(call, &given, &expected)?;
        counts.answer(call, &given, &expected);
    }
    Ok(())
}

/// One plan, and a mark or a strip of it; every fourth time something lent is spoiled. The library is held against the tests'
/// decoder, and the ports against the library.
fn mask_case(seed: u64, random: &mut Random, counts: &mut Counts) -> Result<(), String> {
    let shapes = plans::shapes();
    let plan = plans::plan(shapes[seed as usize % shapes.len()], random);
    let mut given = arguments(random.pick(&[Code::Mark, Code::Strip]), &plan, random);
    if random.one_in(4) {
        spoil(&mut given, random);
    }
    for call in [Call::Mask, Call::Unmask] {
        let outcome = hold(call, &given, random, counts)?;
        ports_give(call, &given, &outcome)?;
    }
    Ok(())
}

/// Both ports have this outcome.
fn ports_give(call: Call, given: &Arguments, expected: &Outcome) -> Result<(), String> {
    for (name, outcome) in [("plain", outcome::<Plain>(call, given)), ("tuned", outcome::<Tuned>(call, given))] {
        if outcome != *expected {
            return Err(format!("{name} {call:?} gave {outcome:?}, expected {expected:?}; {given:?}"));
        }
    }
    Ok(())
}

/// A record, or a rival of it, and a photograph that costs about the radius, or one of nothing, or one with all cells unread.
fn arguments(code: Code, plan: &Plan, random: &mut Random) -> Arguments {
    let record = plans::record(code, plan, random);
    let records = [rival(code, plan, &record, random), record];
    let [rival, word] = records.each_ref().map(|record| code.word(plan, record));
    let radius = code.radius(plan);
    let target = match random.below(4) {
        0 => 0,
        1 => random.between(0, radius),
        _ => random.between(radius - 1, radius + 1),
    };
    let photo = match random.below(16) {
        0 | 1 => noise(code, plan, random),
        2 => unread(code, plan),
        _ => photograph(plan, &word, &rival, target, random),
    };
    Arguments {
        code,
        plan: plan.bytes().to_vec(),
        record: bytes(&records[random.below(2)]),
        symbols: bytes(&photo.symbols),
        doubts: bytes(&photo.doubts),
        mark: random.bytes(word.len()),
        other: random.bytes(code.size(plan)),
    }
}

/// Changes a byte or the length of some of what is lent.
fn spoil(given: &mut Arguments, random: &mut Random) {
    let Arguments { plan, record, symbols, doubts, mark, other, .. } = given;
    for lent in [plan, record, symbols, doubts, mark, other] {
        spoil_bytes(lent, random);
    }
}

/// Changes a byte or the length, or nothing.
fn spoil_bytes(lent: &mut Vec<u8>, random: &mut Random) {
    match random.below(6) {
        0 => lent.push(random.byte()),
        1 => lent.truncate(random.below(lent.len())),
        2 | 3 => {
            let place = random.below(lent.len());
            lent[place] = random.pick(&[0, 1, 100, 101, 250, 251, 254, 255]);
        }
        _ => (),
    }
}

/// What a port answers, and what the buffer that it writes holds afterwards.
fn outcome<R: Reduction>(call: Call, given: &Arguments) -> Outcome {
    let Arguments { code, plan, record, symbols, doubts, mark, other } = given;
    match call {
        Call::Write => {
            let mut buffer = mark.clone();
            Outcome::numbered(number(port::write_mark::<R>(plan, record, &mut buffer)), buffer)
        }
        Call::Measure => Outcome::read(answered(port::measure_mark::<R>(plan, record, symbols, doubts)), Vec::new()),
        Call::Read => {
            let mut buffer = record.clone();
            Outcome::read(answered(port::read_mark::<R>(plan, symbols, doubts, &mut buffer)), buffer)
        }
        Call::Explain => {
            let mut buffer = other.clone();
            Outcome::explained(told(port::explain_mark::<R>(plan, record, symbols, doubts, &mut buffer)), buffer)
        }
        Call::Mask => masked(*code, [port::mask_mark::<R>, port::mask_strip::<R>], given),
        Call::Unmask => masked(*code, [port::unmask_mark::<R>, port::unmask_strip::<R>], given),
        Call::Check => unreachable!("the ports have no such call"),
    }
}

/// What the call for marks or the one for strips answers, and what it leaves of the symbols.
fn masked(code: Code, [of_mark, of_strip]: [Shift; 2], given: &Arguments) -> Outcome {
    let call = match code {
        Code::Mark => of_mark,
        Code::Strip => of_strip,
    };
    let mut buffer = given.symbols.clone();
    Outcome::numbered(number(call(&given.plan, &given.record, &mut buffer)), buffer)
}

/// A set, started, at times by a spoiled plan, and changed by 24 calls. After each call the port has the combination of the
/// tests' set, which makes it afresh, and at the end its reading.
fn set_case(_: u64, random: &mut Random, counts: &mut Counts) -> Result<(), String> {
    let mut plan = plans::plan(random.pick(plans::shapes()), random).bytes().to_vec();
    if random.one_in(4) {
        spoil_bytes(&mut plan, random);
    }
    let (mut model, mut set) = match (independent::Set::start(&plan), port::Set::start(&plan)) {
        (Ok(model), Ok(set)) => (model, set),
        (model, set) => return given(number(set), model.err().unwrap_or(0), counts),
    };
    let record = plans::record(Code::Mark, &model.plan, random);
    let records = [rival(Code::Mark, &model.plan, &record, random), record];
    let words = records.map(|record| Code::Mark.word(&model.plan, &record));
    for _ in 0..24 {
        change(&mut set, &mut model, &words, random, counts)?;
        combines(&set, &model, random, counts)?;
    }
    reads(&set, &model, random, counts)
}

/// A photograph arrives, or one is withdrawn. Those that arrive are of one mark, or of nothing, and every fourth is spoiled.
fn change(
    set: &mut port::Set,
    model: &mut independent::Set,
    [rival, word]: &[Vec<u32>; 2],
    random: &mut Random,
    counts: &mut Counts,
) -> Result<(), String> {
    let place = random.between(0, 9);
    if random.one_in(3) {
        return given(number(set.withdraw(place)), model.withdraw(place), counts);
    }
    let cost = random.between(0, Code::Mark.radius(&model.plan));
    let photo = match random.one_in(4) {
        true => noise(Code::Mark, &model.plan, random),
        false => photograph(&model.plan, word, rival, cost, random),
    };
    let [mut symbols, mut doubts] = [bytes(&photo.symbols), bytes(&photo.doubts)];
    if random.one_in(4) {
        spoil_bytes(&mut symbols, random);
        spoil_bytes(&mut doubts, random);
    }
    given(number(set.add(place, &symbols, &doubts)), model.add(place, &symbols, &doubts), counts)
}

/// The port writes the model's combination, or refuses buffers of wrong lengths and leaves them.
fn combines(set: &port::Set, model: &independent::Set, random: &mut Random, counts: &mut Counts) -> Result<(), String> {
    let combined = model.combined();
    let mut buffers = combined.each_ref().map(|cells| {
        let length = cells.len() + usize::from(random.one_in(16));
        random.bytes(length)
    });
    let (expected, left) = match buffers.each_ref().map(Vec::len) == combined.each_ref().map(Vec::len) {
        true => (0, combined),
        false => (6, buffers.clone()),
    };
    let [symbols, doubts] = &mut buffers;
    given(number(set.combine(symbols, doubts)), expected, counts)?;
    match buffers == left {
        true => Ok(()),
        false => Err(format!("the port combined {buffers:?}, expected {left:?}; {model:?}")),
    }
}

/// The port has the model's reading, and leaves the same of the buffer for the record, which is at times too long.
fn reads(set: &port::Set, model: &independent::Set, random: &mut Random, counts: &mut Counts) -> Result<(), String> {
    let room = vec![0; Code::Mark.size(&model.plan) + usize::from(random.one_in(8))];
    let [mut record, mut expected_record] = [room.clone(), room];
    let (reading, expected) = (answered(set.read(&mut record)), model.read(&mut expected_record));
    counts.number(expected.number);
    match (reading, &record) == (expected, &expected_record) {
        true => Ok(()),
        false => {
            Err(format!("the port read {reading:?} {record:?}, expected {expected:?} {expected_record:?}; {model:?}"))
        }
    }
}

/// The port gave the expected number, which is counted.
fn given(number: u32, expected: u32, counts: &mut Counts) -> Result<(), String> {
    counts.number(expected);
    match number == expected {
        true => Ok(()),
        false => Err(format!("the port of sets gave {number}, expected {expected}")),
    }
}

/// The number of an answer.
fn number<T>(answer: Result<T, Refusal>) -> u32 {
    answer.map_or_else(Refusal::number, |_| 0)
}

/// The ends of the calendar, and days that some years have, with the dates next to them.
const EDGES: [Date; 9] = [
    Date::new(1899, 12, 31),
    Date::new(1900, 1, 1),
    Date::new(1900, 2, 29),
    Date::new(2000, 2, 29),
    Date::new(2000, 3, 1),
    Date::new(2100, 2, 28),
    Date::new(2100, 2, 29),
    Date::new(2199, 12, 31),
    Date::new(2200, 1, 1),
];

/// One window file, at times of one window between two edges, and dates: about one of its windows, or any where it is refused;
/// an unreal one; and an edge.
fn season_case(_: u64, random: &mut Random, counts: &mut Counts) -> Result<(), String> {
    let file = match random.one_in(4) {
        true => window_bytes(random.number() as u16, random.pick(&EDGES), random.pick(&EDGES)).to_vec(),
        false => windows::any_file(random),
    };
    let days = match Windows::parse(&file) {
        Ok(Windows(all)) if !all.is_empty() => windows::days_about(random.pick(&all), random),
        _ => vec![random.below(DAYS)],
    };
    for date in days.into_iter().map(Date::of).chain([windows::unreal(random), random.pick(&EDGES)]) {
        let expected = independent::find_season(&file, date);
        let found = port::find_season(&file, date.year, date.month, date.day).map_err(Refusal::number);
        if found != expected {
            return Err(format!("the port gave {found:?}, expected {expected:?}; {date:?} {file:?}"));
        }
        counts.number(expected.err().unwrap_or(0));
    }
    Ok(())
}
