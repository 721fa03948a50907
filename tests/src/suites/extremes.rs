//! Changed and unread counts at the bounds of the classes, alone and together, the highest doubts, and the lowest and highest
//! margins, for every square and some oblongs of p 251 with every d, before season 30 and from it on.

use independent::calls::bytes;
use independent::{Code, Plan, Reading, Reason, UNREAD};
use traymark_tests::calls::{hold, Arguments, Call, Outcome};
use traymark_tests::counts::Counts;
use traymark_tests::plans::{self, Shape};
use traymark_tests::random::Random;

const OBLONGS: [(usize, usize); 8] = [(16, 1), (1, 16), (16, 8), (8, 16), (16, 15), (15, 16), (4, 2), (3, 5)];

/// The shapes: a case for each.
pub fn shapes() -> Vec<Shape> {
    let chosen = |&(_, rows, columns, _): &Shape| rows == columns || OBLONGS.contains(&(rows, columns));
    plans::shapes_of(251).filter(chosen).collect()
}

pub fn case(seed: u64, random: &mut Random, counts: &mut Counts) -> Result<(), String> {
    let plan = plans::plan(shapes()[seed as usize], random);
    for season in plans::seasons(random) {
        let plan = Plan { season, ..plan.clone() };
        for code in [Code::Strip, Code::Mark] {
            for damage in damages(plan.full_doubt(), code.cells(&plan)) {
                damaged(code, &plan, damage, random, counts)?;
            }
        }
    }
    Ok(())
}

/// So many cells are changed, so many after them unread, and all that are read have this doubt.
#[derive(Clone, Copy, Debug)]
struct Damage {
    changed: usize,
    unread: usize,
    doubt: u32,
}

/// Each bound of the classes, read cells being sure; then the highest doubts of right cells, of wrong ones, and of one right cell
/// beside unread ones, which is as much as an answer can cost.
fn damages(full: u32, cells: usize) -> Vec<Damage> {
    let bounds = [0, 1, 3, 4, 15, 16, 17, cells].into_iter().filter(|&some| some <= cells);
    let sure = bounds.flat_map(|some| [(some, 0), (0, some), (some, 1), (1, some), (some, cells - some)]);
    let doubted = [(0, 0), (cells, 0), (0, cells - 1)].into_iter();
    let with = |doubt: u32| move |(changed, unread)| Damage { changed, unread, doubt };
    let all = sure.map(with(0)).chain(doubted.clone().map(with(full - 1))).chain(doubted.map(with(full)));
    all.filter(|damage| damage.changed + damage.unread <= cells).collect()
}

fn damaged(code: Code, plan: &Plan, damage: Damage, random: &mut Random, counts: &mut Counts) -> Result<(), String> {
    let Damage { changed, unread, doubt } = damage;
    let full = plan.full_doubt();
    let record = plans::record(code, plan, random);
    let word = code.word(plan, &record);
    let mut symbols = word.clone();
    let mut doubts = vec![doubt; word.len()];
    for cell in 0..changed {
        symbols[cell] = (word[cell] + 1) % plan.p;
    }
    symbols[changed..changed + unread].fill(UNREAD);
    doubts[changed..changed + unread].fill(full);
    let given = Arguments {
        code,
        plan: plan.bytes().to_vec(),
        record: bytes(&record),
        symbols: bytes(&symbols),
        doubts: bytes(&doubts),
        mark: Vec::new(),
        other: random.bytes(record.len()),
    };
    let reading = hold(Call::Measure, &given, random, counts)?.reading;
    let [wrong, lost, right] = [changed, unread, word.len() - changed - unread].map(|cells| cells as u32);
    let cost = wrong * (2 * full - doubt) + lost * full + right * doubt;
    let margin = code.radius(plan) as i32 - cost as i32;
    let class = match changed {
        0 => 0,
        1..=3 => 1,
        4..=15 => 2,
        _ => 3,
    };
    if reading != (Reading { number: 0, cost, margin, changed: wrong, unread: lost, class }) {
        return Err(format!("{damage:?}, measured {reading:?}; {given:?}"));
    }
    let explained = hold(Call::Explain, &given, random, counts)?;
    if (explained.reason == Reason::answer()) != (margin > 0) {
        return Err(format!("{damage:?}, explained {explained:?}; {given:?}"));
    }
    let given = Arguments { record: random.bytes(record.len()), ..given };
    let outcome = hold(Call::Read, &given, random, counts)?;
    if cost < code.radius(plan) && outcome != Outcome::read(reading, bytes(&record)) {
        return Err(format!("{damage:?}, read {outcome:?}; {given:?}"));
    }
    Ok(())
}
