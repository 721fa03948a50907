//! Worked out by hand: combined cells, and the bytes of a set after each call.

use super::expect;
use crate::suites::rows::{oblong, plan_16, plan_a, plan_t, plan_w, CASE_C, CASE_D, EARLIER, LATER, MARK, SURE};
use independent::{Reading, FINER, PHOTOGRAPHS, SET};
use traymark_tests::counts::Counts;
use traymark_tests::plans::with_season;
use traymark_tests::random::Random;
use traymark_tests::sets::{LentSet, SetCall};

/// The symbols that were read, the symbol that comes of them, and its doubt of 100 and of 250.
type Votes = (&'static [u8], u8, [u8; 2]);

/// Of p 7.
const VOTES: [Votes; 34] = [
    // no vote
    (&[], 255, [100, 250]),
    // one vote, for a symbol, for 0 and for p - 1
    (&[4], 4, [0, 0]),
    (&[0], 0, [0, 0]),
    (&[6], 6, [0, 0]),
    // all agree
    (&[5, 5], 5, [0, 0]),
    (&[0, 0, 0, 0, 0], 0, [0, 0]),
    (&[5, 5, 5, 5, 5, 5, 5, 5, 5], 5, [0, 0]),
    (&[0, 0, 0, 0, 0, 0, 0, 0, 0], 0, [0, 0]),
    (&[6, 6, 6, 6, 6, 6, 6, 6, 6], 6, [0, 0]),
    // a tie of two: the smallest
    (&[6, 2], 2, [100, 250]),
    (&[0, 6], 0, [100, 250]),
    (&[3, 3, 1, 1, 0], 1, [100, 250]),
    (&[5, 5, 5, 5, 4, 4, 4, 4, 0], 4, [100, 250]),
    // a tie of three, and of all
    (&[6, 2, 4], 2, [100, 250]),
    (&[6, 6, 6, 5, 5, 5, 1, 1, 1], 1, [100, 250]),
    (&[6, 5, 4, 3, 2, 1, 0], 0, [100, 250]),
    // 5 to 4, and 4 to 3 to 2: one of nine is 11.1 of 100 and 27.8 of 250
    (&[6, 6, 6, 6, 6, 0, 0, 0, 0], 6, [89, 223]),
    (&[0, 0, 0, 0, 0, 6, 6, 6, 6], 0, [89, 223]),
    (&[3, 3, 3, 3, 1, 1, 1, 0, 0], 3, [89, 223]),
    (&[1, 1, 1, 1, 3, 3, 3, 6, 6], 1, [89, 223]),
    (&[6, 6, 1, 2, 3, 4, 5, 0], 6, [88, 219]),
    // 2 to 1: 33.3 and 83.3
    (&[0, 6, 6], 6, [67, 167]),
    (&[0, 6, 0], 0, [67, 167]),
    // 5 to 2 to 2, 4 to 2, 6 to 3: a third too
    (&[2, 2, 2, 2, 2, 1, 1, 4, 4], 2, [67, 167]),
    (&[2, 2, 2, 2, 1, 1], 2, [67, 167]),
    (&[4, 4, 4, 4, 4, 4, 5, 5, 5], 4, [67, 167]),
    // 3 to 1, 4 to 1, 5 to 1, 7 to 1, 8 to 1: 50 and 125, 60 and 150, 66.7 and 166.7, 75 and 187.5, 77.8 and 194.4
    (&[1, 5, 5, 5], 5, [50, 125]),
    (&[1, 5, 5, 5, 5], 5, [40, 100]),
    (&[1, 5, 5, 5, 5, 5], 5, [34, 84]),
    (&[5, 1, 1, 1, 1, 1, 1, 1], 1, [25, 63]),
    (&[5, 1, 1, 1, 1, 1, 1, 1, 1], 1, [23, 56]),
    // 4 to 3: 14.3 and 35.7; 6 to 1 to 1: 62.5 and 156.25; 7 to 2: 55.6 and 138.9
    (&[1, 1, 1, 2, 2, 2, 2], 2, [86, 215]),
    (&[0, 3, 3, 3, 3, 3, 3, 6], 3, [38, 94]),
    (&[3, 3, 3, 3, 3, 3, 3, 6, 6], 3, [45, 112]),
];

/// Of p 251.
const LARGE: [Votes; 6] = [
    (&[250], 250, [0, 0]),
    (&[250, 0], 0, [100, 250]),
    (&[250, 249, 250], 250, [67, 167]),
    (&[250, 249, 248, 247, 100, 3, 2, 1, 7], 1, [100, 250]),
    (&[250, 250, 248, 247, 246, 245, 244, 243, 242], 250, [89, 223]),
    (&[128, 127, 128, 127, 128, 127, 128, 127, 128], 128, [89, 223]),
];

pub const CASES: u64 = VOTES.len() as u64;

/// The row of the seed in the first cell and the others after it, the photographs in any order, in seasons of both ages.
pub fn case(seed: u64, random: &mut Random, counts: &mut Counts) -> Result<(), String> {
    let [row, column] = [oblong(7, 0, &[3], &[0, 1, 2, 4, 5]), oblong(7, 0, &[0, 1, 2, 4, 5], &[3])];
    let small = [plan_a(), plan_w(), plan_t(), row, column].map(|plan| (plan, &VOTES[..]));
    let large = [plan_16(7), oblong(251, 1, &[7, 8, 250], &[0, 100])].map(|plan| (plan, &LARGE[..]));
    for (plan, rows) in small.into_iter().chain(large) {
        for season in EARLIER.into_iter().chain(LATER) {
            voted(&with_season(&plan, season), rows, seed as usize, random, counts)?;
        }
    }
    expect("the size", unsafe { traymark::ffi::traymark_set_size() }, SET)?;
    history(random, counts)
}

/// Every season, a case for each high byte, in a set that is started anew with each.
pub fn every_season(seed: u64, random: &mut Random, counts: &mut Counts) -> Result<(), String> {
    let mut set = LentSet::new(&random.bytes(SET), random);
    (0..=255).try_for_each(|low| {
        let season = u16::from_be_bytes([seed as u8, low]);
        in_season(season, &mut set, random, counts).map_err(|what| format!("season {season}: {what}"))
    })
}

/// Three photographs of two cells: a doubt is at most the full doubt, and that of an unread cell is the full doubt.
fn in_season(season: u16, set: &mut LentSet, random: &mut Random, counts: &mut Counts) -> Result<(), String> {
    let age = usize::from(season >= FINER);
    let [full, other] = [[100, 250], [250, 100]][age];
    let plan = with_season(&oblong(3, 0, &[1], &[0, 2]), season);
    expect("start", set.start(&plan, random)?, 0)?;
    counts.set_answer(SetCall::Start, 0);
    let arriving = [
        (0, [2, 1], [0, full + 1], 8),
        (0, [2, 1], [0, full], 0),
        (4, [2, 255], [full, other], 8),
        (4, [2, 255], [full, full], 0),
        (8, [0, 0], [full + 1, 0], 8),
        (8, [0, 0], [full, 0], 0),
    ];
    for (number, symbols, doubts, answer) in arriving {
        expect(&format!("add {number} {doubts:?}"), set.add(number, &symbols, &doubts, random)?, answer)?;
        counts.set_answer(SetCall::Add, answer);
    }
    let mut memory = [&plan[..], &[1, 0, 0, 0, 1, 0, 0, 0, 1], &[255; 2304]].concat();
    memory[49..51].copy_from_slice(&[2, 1]);
    memory[1073] = 2;
    memory[2097..2099].fill(0);
    expect("add left", set.bytes(), &memory)?;

    // 2 to 1, and a tie of 1 and 0
    let (mut symbols, mut doubts) = ([9; 2], [9; 2]);
    expect("combine", set.combine(&mut symbols, &mut doubts, random)?, 0)?;
    counts.set_answer(SetCall::Combine, 0);
    expect("combine left", (symbols, doubts), ([2, 0], [[67, 100], [167, 250]][age]))?;
    // the second cell is wrong, at the full doubt, and the radius is twice that
    let (cost, margin) = [(167, 33), (417, 83)][age];
    let mut record = [9];
    let reading = set.read(&mut record, random)?;
    counts.set_answer(SetCall::Read, reading.number);
    expect("read", (reading, record), (Reading { number: 0, cost, margin, changed: 1, unread: 0, class: 1 }, [2]))
}

fn voted(plan: &[u8], rows: &[Votes], first: usize, random: &mut Random, counts: &mut Counts) -> Result<(), String> {
    let cells = usize::from(plan[3]) * usize::from(plan[4]);
    let age = usize::from(u16::from_be_bytes([plan[0], plan[1]]) >= FINER);
    let full = [100, 250][age];
    let mut photographs = vec![vec![255; cells]; PHOTOGRAPHS];
    let (mut symbols, mut doubts) = (Vec::new(), Vec::new());
    for cell in 0..cells {
        let (votes, symbol, doubt) = rows[(first + cell) % rows.len()];
        let mut cast = [255; PHOTOGRAPHS];
        cast[..votes.len()].copy_from_slice(votes);
        random.shuffle(&mut cast);
        photographs.iter_mut().zip(cast).for_each(|(photograph, vote)| photograph[cell] = vote);
        symbols.push(symbol);
        doubts.push(doubt[age]);
    }
    let mut set = LentSet::new(&random.bytes(SET), random);
    expect("start", set.start(plan, random)?, 0)?;
    for (number, photograph) in (0..).zip(&photographs) {
        let doubt = |&symbol: &u8| if symbol == 255 { full } else { random.between(0, full.into()) as u8 };
        let doubts: Vec<u8> = photograph.iter().map(doubt).collect();
        expect("add", set.add(number, photograph, &doubts, random)?, 0)?;
        counts.set_answer(SetCall::Add, 0);
    }
    let (mut left, mut left_doubts) = (random.bytes(cells), random.bytes(cells));
    expect("combine", set.combine(&mut left, &mut left_doubts, random)?, 0)?;
    expect(&format!("combined {photographs:?}, {plan:?}"), (left, left_doubts), (symbols, doubts))
}

/// A set under plan A, byte by byte: cases c and d of document 01 arrive, and case c is withdrawn; then the mark arrives under
/// its number.
fn history(random: &mut Random, counts: &mut Counts) -> Result<(), String> {
    let mut set = LentSet::new(&random.bytes(SET), random);
    let before = set.bytes().to_vec();
    expect("start", set.start(&plan_a()[..39], random)?, 1)?;
    expect("a refused start", set.bytes(), &before)?;
    expect("start", set.start(&plan_a(), random)?, 0)?;
    let mut memory = [&plan_a()[..], &[0; 9], &[255; 2304]].concat();
    expect("start left", set.bytes(), &memory)?;
    expect("read", read(&set, random)?, (Reading::refused(10), vec![9; 3]))?;
    expect("withdraw", set.withdraw(0)?, 18)?;

    expect("add", set.add(0, &CASE_C, &SURE, random)?, 0)?;
    memory[40] = 1;
    memory[49..58].copy_from_slice(&CASE_C);
    expect("add left", set.bytes(), &memory)?;
    let alone = Reading { number: 0, cost: 400, margin: 200, changed: 2, unread: 0, class: 1 };
    expect("read", read(&set, random)?, (alone, vec![3, 1, 2]))?;

    expect("add", set.add(0, &CASE_D, &SURE, random)?, 17)?;
    expect("add", set.add(8, &CASE_D, &[100; 9], random)?, 0)?;
    memory[48] = 1;
    memory[2097..2106].copy_from_slice(&CASE_D);
    expect("add left", set.bytes(), &memory)?;
    // three cells tie, and the smaller symbol is the wrong one
    let both = Reading { number: 0, cost: 500, margin: 100, changed: 4, unread: 0, class: 2 };
    expect("read", read(&set, random)?, (both, vec![3, 1, 2]))?;

    expect("withdraw", set.withdraw(0)?, 0)?;
    memory[40] = 0;
    memory[49..58].fill(255);
    expect("withdraw left", set.bytes(), &memory)?;
    expect("read", read(&set, random)?, (Reading::refused(10), vec![9; 3]))?;

    expect("add", set.add(0, &MARK, &SURE, random)?, 0)?;
    memory[40] = 1;
    memory[49..58].copy_from_slice(&MARK);
    expect("add left", set.bytes(), &memory)?;
    // of 6 and 0, 1 and 0, 5 and 0 the smaller are the wrong ones
    let ties = Reading { number: 0, cost: 300, margin: 300, changed: 3, unread: 0, class: 1 };
    expect("read", read(&set, random)?, (ties, vec![3, 1, 2]))?;
    counts.set_answer(SetCall::Read, 0);
    Ok(())
}

/// What is said of the record, and the record, or the 9s that were there.
fn read(set: &LentSet, random: &mut Random) -> Result<(Reading, Vec<u8>), String> {
    let mut record = vec![9; 3];
    Ok((set.read(&mut record, random)?, record))
}
