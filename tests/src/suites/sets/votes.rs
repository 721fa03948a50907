//! Votes in every way in which they can fall.

use super::expect;
use independent::{Code, Plan, Set, PHOTOGRAPHS, SET};
use traymark_tests::counts::Counts;
use traymark_tests::plans;
use traymark_tests::random::Random;
use traymark_tests::sets::{falls, LentSet, SetCall};

/// How many of the plans are for the largest marks, and how many there are in all: the others go through the primes four times.
const LARGEST: u64 = 108;
pub const CASES: u64 = LARGEST + 4 * 54;

/// Cells in which the votes of nine photographs fall in any way.
pub fn case(seed: u64, random: &mut Random, counts: &mut Counts) -> Result<(), String> {
    let plan = match seed {
        ..LARGEST => plans::largest(random),
        _ => plans::of_every_prime(seed, random),
    };
    let cells = Code::Mark.cells(&plan);
    let full = plan.full_doubt();
    let photographs = photographs(&plan, cells, random);
    let mut set = LentSet::new(&random.bytes(SET), random);
    let mut model = Set::start(&plan.bytes()).expect("the plan is sound");
    expect("start", set.start(&plan.bytes(), random)?, 0)?;
    for (number, symbols) in (0..).zip(&photographs) {
        let doubt = |&symbol: &u8| if symbol == 255 { full } else { random.between(0, full) } as u8;
        let doubts: Vec<u8> = symbols.iter().map(doubt).collect();
        expect("the model", model.add(number, symbols, &doubts), 0)?;
        expect("add", set.add(number, symbols, &doubts, random)?, 0)?;
        counts.set_answer(SetCall::Add, 0);
    }
    let [mut symbols, mut doubts] = [random.bytes(cells), random.bytes(cells)];
    expect("combine", set.combine(&mut symbols, &mut doubts, random)?, 0)?;
    counts.set_answer(SetCall::Combine, 0);
    counts.sets.combined(&model);
    expect(&format!("combining {model:?}"), [symbols, doubts], model.combined())
}

/// Nine photographs, with any symbols, 0 and p - 1 often among them, in any order.
fn photographs(plan: &Plan, cells: usize, random: &mut Random) -> Vec<Vec<u8>> {
    let p = plan.p as usize;
    let falls = falls(PHOTOGRAPHS as u32, PHOTOGRAPHS as u32);
    let falls: Vec<&Vec<u32>> = falls.iter().filter(|fall| fall.len() <= p).collect();
    let mut photographs = vec![vec![255; cells]; PHOTOGRAPHS];
    let mut symbols: Vec<u8> = (0..p).map(|symbol| symbol as u8).collect();
    for cell in 0..cells {
        random.shuffle(&mut symbols);
        for end in [0, p as u8 - 1] {
            if random.one_in(3) {
                let place = symbols.iter().position(|&symbol| symbol == end).expect("a symbol");
                symbols.swap(random.below(p.min(3)), place);
            }
        }
        let votes = random.pick(&falls).iter().zip(&symbols);
        let mut cast: Vec<u8> = votes.flat_map(|(&votes, &symbol)| vec![symbol; votes as usize]).collect();
        cast.resize(PHOTOGRAPHS, 255);
        random.shuffle(&mut cast);
        photographs.iter_mut().zip(cast).for_each(|(photograph, vote)| photograph[cell] = vote);
    }
    photographs
}
