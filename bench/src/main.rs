//! Times of the proved library beside those of its method in plain Rust and of the tests' decoder, all in one run and
//! over the same streams of distinct marks; and of masking and unmasking, of sets of photographs and of finding the season of a
//! date, beside plain Rust.
//!
//! - `bench [N]` prints the tables and whether the targets are met; of each stream it takes at most N marks, trays or dates.
//! - `bench check` holds the ports in Rust against the tests' decoder, sets and calendar; those of masking against the
//!   library too.
//! - `bench profile P ROWS COLUMNS D KIND COUNT` runs the library alone, on COUNT marks of a line of season 12, for a profiler.
//!   KIND is clean, errors, doubts, rivals or noise for reading such marks, or write, measure, explain, mask or unmask; or, on
//!   sets of nine photographs, combine, read-set, read-combined, exchange or start.
//!
//! Each line of the first table is a plan and a stream: the microseconds of the median mark, each mark by its least time of
//! several rounds, by the library, by the port with division (`plain`), by the port with the reciprocal (`tuned`) and by
//! the tests' decoder (`equations`); how many times the library's time the others take; and the slowest of the marks that
//! the library reads, with how many of the plan's clean marks it lasts. Absolute times move with the machine; compare
//! those of one run. All is of season 12, with doubts in 100ths, but for one line of season 30, in 250ths, which says so.
//!
//! Each line of the second is a plan, for marks or for strips, and whether they are masked or unmasked; each line of the third
//! is a plan and what is done with sets of photographs; each line of the fourth is a kind of window file and date. These have
//! the microseconds of a call, of the median batch of calls.

mod check;
mod contender;
mod masks;
mod port;
mod question;
mod sets;
mod stream;
mod table;
mod timing;

use contender::{Call, Contender, EQUATIONS, LIBRARY, MARKS, PLAIN, TUNED};
use independent::Code;
use masks::{Masking, Way};
use question::{Question, FINDERS};
use sets::{Task, Tray};
use std::hint::black_box;
use std::iter;
use std::process::ExitCode;
use std::str::FromStr;
use stream::{Kind, Mark, FINER_SEASON, SEASON};
use table::{Line, MaskLine, PlainLine};
use timing::BATCH;
use traymark_tests::plans::Shape;
use traymark_tests::run::{run, Suite};

const PLANS: [Shape; 7] = [
    (251, 16, 16, 0),
    (251, 16, 16, 7),
    (251, 16, 16, 15),
    (101, 8, 8, 3),
    (17, 16, 16, 7),
    (251, 16, 8, 7),
    (251, 8, 16, 7),
];

/// The lines of a plan. Reading clean marks comes first: the slowest marks of the others are compared with it.
const CALLS: [(Call, Kind); 8] = [
    (Call::Read, Kind::Clean),
    (Call::Read, Kind::Errors),
    (Call::Read, Kind::Doubts),
    (Call::Read, Kind::Rivals),
    (Call::Read, Kind::Noise),
    (Call::Write, Kind::Clean),
    (Call::Measure, Kind::Doubts),
    (Call::Explain, Kind::Doubts),
];

/// The line that is there once more with doubts in 250ths.
const FINER: (Shape, Call, Kind) = ((251, 16, 16, 7), Call::Read, Kind::Doubts);

/// Who is timed on marks.
static CONTENDERS: [Contender; 4] = [LIBRARY, PLAIN, TUNED, EQUATIONS];

const USAGE: &str = "usage: bench [N] | bench check | bench profile P ROWS COLUMNS D KIND COUNT";

fn main() -> ExitCode {
    let words: Vec<String> = std::env::args().skip(1).collect();
    let words: Vec<&str> = words.iter().map(String::as_str).collect();
    let result = match words.as_slice() {
        [] => compare(MARKS),
        ["check"] => check(),
        ["profile", p, rows, columns, d, kind, count] => profile([p, rows, columns, d], kind, count),
        [most] => number(most).and_then(|most: usize| compare(most.clamp(1, MARKS))),
        _ => Err(USAGE.into()),
    };
    match result {
        Ok(()) => ExitCode::SUCCESS,
        Err(what) => {
            eprintln!("bench: {what}");
            ExitCode::FAILURE
        }
    }
}

fn number<T: FromStr>(word: &str) -> Result<T, String> {
    word.parse().map_err(|_| format!("no number: {word}; {USAGE}"))
}

/// Prints the tables, each with its targets.
fn compare(number: usize) -> Result<(), String> {
    compare_marks(number);
    println!();
    compare_masks(number);
    println!();
    compare_sets(number);
    println!();
    compare_seasons(number);
    Ok(())
}

/// All plans.
fn compare_marks(number: usize) {
    table::print_head();
    let mut lines = Vec::new();
    for shape in PLANS {
        let mut clean = None;
        for (season, call, kind) in lines_of(shape) {
            let marks = stream::marks(Code::Mark, season, shape, kind, number);
            agree(&marks, call);
            let streams = CONTENDERS.each_ref().map(|contender| &marks[..contender.marks.min(marks.len())]);
            let mut times = timing::times(streams, |contender, mark| CONTENDERS[contender].call(call, mark));
            let [library, plain, tuned, equations] = times.each_mut().map(|times| times.median());
            let slowest = times[0].slowest();
            let clean = *clean.get_or_insert(library);
            let line = Line { season, shape, call, kind, library, plain, tuned, equations, slowest, clean };
            line.print();
            lines.push(line);
        }
    }
    table::print_targets(&lines);
}

/// Masking and unmasking, marks and strips.
fn compare_masks(number: usize) {
    table::print_mask_head();
    let maskings = masks::PLANS.into_iter().flat_map(|(code, shape)| Way::ALL.map(|way| Masking { code, shape, way }));
    let lines = maskings.map(|masking| {
        let marks = masking.marks(number);
        marks.iter().for_each(|mark| agree_on_mask(masking, mark));
        let calls = masking.calls();
        let batches: Vec<&[Mark]> = marks.chunks(BATCH).collect();
        let mut times = timing::times([&batches[..]; 3], |contender, batch| masks::run(calls[contender], batch));
        let [library, plain, tuned] = times.each_mut().map(|times| times.median() / BATCH as f64);
        let line = MaskLine { masking, library, plain, tuned };
        line.print();
        line
    });
    table::print_mask_target(&lines.collect::<Vec<MaskLine>>());
}

/// Sets of photographs: combined, read, changed and started.
fn compare_sets(number: usize) {
    table::print_plain_head("sets of photographs");
    let lines = sets::KINDS.map(|kind| {
        let batches = kind.batches(number);
        batches.iter().flatten().for_each(|tray| sets::agree(kind.task, tray));
        let mut times =
            timing::times([&batches[..]; 2], |contender, batch: &[Tray; BATCH]| sets::run(kind.task, contender, batch));
        let [library, plain] = times.each_mut().map(|times| times.median() / BATCH as f64);
        let line = PlainLine { what: table::set_described(kind), library, plain };
        line.print();
        line
    });
    table::print_plain_target(&lines);
    let largest = sets::KINDS.iter().zip(&lines).filter(|(kind, _)| kind.is_largest_combination());
    let says = "nine photographs of 16 by 16 cells are combined in 3 microseconds or less";
    table::print_limit(says, 3.0, largest.map(|(_, line)| line));
}

/// The season of a date, by all kinds of window files.
fn compare_seasons(number: usize) {
    table::print_plain_head("the season of a date");
    let lines = question::KINDS.map(|kind| {
        let batches = question::batches(kind, number);
        batches.iter().flatten().for_each(agree_on);
        let ask =
            |finder: usize, batch: &[Question; BATCH]| batch.each_ref().map(|question| question.ask(FINDERS[finder]));
        let mut times = timing::times([&batches[..]; FINDERS.len()], ask);
        let [library, plain] = times.each_mut().map(|times| times.median() / BATCH as f64);
        let line = PlainLine { what: kind.described(), library, plain };
        line.print();
        line
    });
    table::print_plain_target(&lines);
}

/// The lines of a plan, each with its season.
fn lines_of(shape: Shape) -> impl Iterator<Item = (u16, Call, Kind)> {
    CALLS.into_iter().flat_map(move |(call, kind)| {
        let finer = ((shape, call, kind) == FINER).then_some(FINER_SEASON);
        iter::once(SEASON).chain(finer).map(move |season| (season, call, kind))
    })
}

/// All answer alike and write the same bytes, so that all did the work.
fn agree(marks: &[Mark], call: Call) {
    for (place, mark) in marks.iter().enumerate() {
        let outcome = LIBRARY.call(call, mark);
        for contender in [PLAIN, TUNED, EQUATIONS].iter().filter(|contender| place < contender.marks) {
            assert_eq!(contender.call(call, mark), outcome, "{} and the library: {call:?} {mark:?}", contender.name);
        }
    }
}

/// The library and the ports mask or unmask the mark, to the same symbols.
fn agree_on_mask(masking: Masking, mark: &Mark) {
    let [library, plain, tuned] = masking.calls().map(|call| masks::left(call, mark));
    assert_eq!(library.0, Ok(()), "the library: {masking:?} {mark:?}");
    assert_eq!(plain, library, "{} and the library: {masking:?} {mark:?}", PLAIN.name);
    assert_eq!(tuned, library, "{} and the library: {masking:?} {mark:?}", TUNED.name);
}

/// The library and the port find the same season, or none alike.
fn agree_on(question: &Question) {
    let [library, plain] = FINDERS.map(|find| question.ask(find));
    assert_eq!(plain, library, "{} and the library: {question:?}", PLAIN.name);
}

/// Holds the ports against the tests' decoder, for the seasons before 30 and for those from 30 on, those of masking against that
/// and the library, that of sets against the tests' sets, and that of the season of a date against the tests' calendar.
fn check() -> Result<(), String> {
    check::SUITES.into_iter().try_for_each(check_suite)?;
    check_masks(check::MASKS)?;
    check_sets(check::SETS)?;
    check_seasons(check::SEASONS)
}

fn check_masks(suite: Suite) -> Result<(), String> {
    let name = suite.name;
    let counts = run(&[suite]).map_err(|failures| failures.join("\n"))?;
    let numbers = [0, 1, 2, 3, 13, 4, 5, 6, 7, 9].map(|number| counts.numbers[number]);
    if numbers.contains(&0) {
        return Err(format!("a number that was never answered: {numbers:?}"));
    }
    println!("{name}: ok: {} calls, {} of them not refused", counts.calls, numbers[0]);
    Ok(())
}

fn check_sets(suite: Suite) -> Result<(), String> {
    let name = suite.name;
    let counts = run(&[suite]).map_err(|failures| failures.join("\n"))?;
    let numbers = [0, 1, 2, 3, 13, 4, 5, 6, 17, 18, 7, 8, 10].map(|number| counts.numbers[number]);
    if numbers.contains(&0) {
        return Err(format!("a number that was never answered: {numbers:?}"));
    }
    println!("{name}: ok: {} calls, {} of them not refused", counts.calls, numbers[0]);
    Ok(())
}

fn check_seasons(suite: Suite) -> Result<(), String> {
    let name = suite.name;
    let counts = run(&[suite]).map_err(|failures| failures.join("\n"))?;
    let numbers = [0, 14, 15, 16].map(|number| counts.numbers[number]);
    if numbers.into_iter().any(|n| n < 1_000) {
        return Err(format!("fewer than 1,000 answers of a number: {numbers:?}"));
    }
    println!("{name}: ok: {} dates, {} of them with a season", counts.calls, numbers[0]);
    Ok(())
}

fn check_suite(suite: Suite) -> Result<(), String> {
    let name = suite.name;
    let counts = run(&[suite]).map_err(|failures| failures.join("\n"))?;
    if counts.numbers[..=10].contains(&0) || counts.numbers[13] == 0 {
        return Err(format!("a number that was never answered: {:?}", counts.numbers));
    }
    if counts.explained().into_iter().any(|n| n < 500) {
        return Err(format!("fewer than 500 explanations with one of the reasons: {:?}", counts.explained()));
    }
    if counts.mixed_marks < 500 {
        return Err(format!("fewer than 500 marks read with changed and unread cells: {}", counts.mixed_marks));
    }
    println!(
        "{name}: ok: {} calls, {} marks read or without a record, {} with changed and unread cells",
        counts.calls, counts.marks, counts.mixed_marks
    );
    Ok(())
}

/// The library works on the marks of one line of season 12.
fn profile([p, rows, columns, d]: [&str; 4], word: &str, count: &str) -> Result<(), String> {
    let shape = (number(p)?, number(rows)?, number(columns)?, number(d)?);
    if let Some(way) = Way::ALL.into_iter().find(|way| way.name() == word) {
        let masking = Masking { code: Code::Mark, shape, way };
        let [library, ..] = masking.calls();
        masks::run(library, &masking.marks(number(count)?)[..number(count)?]);
        return Ok(());
    }
    if let Some(task) = Task::ALL.into_iter().find(|task| task.name() == word) {
        let kind = sets::Kind { season: SEASON, shape, photographs: 9, task };
        let trays: Vec<Tray> = kind.batches(number(count)?).into_iter().flatten().collect();
        sets::run(task, 0, &trays[..number::<usize>(count)?.min(trays.len())]);
        return Ok(());
    }
    let named = |&(call, kind): &(Call, Kind)| match call {
        Call::Read => kind.name() == word,
        Call::Write => word == "write",
        Call::Measure => word == "measure",
        Call::Explain => word == "explain",
    };
    let (call, kind) = CALLS.into_iter().find(named).ok_or(USAGE)?;
    for mark in stream::marks(Code::Mark, SEASON, shape, kind, number(count)?) {
        black_box(LIBRARY.call(call, black_box(&mark)));
    }
    Ok(())
}
