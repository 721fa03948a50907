//! The calls on a set for any bytes as its memory, of which none is trusted: the plan in it may be unsound, a flag may have any
//! value, and a symbol too.

use crate::calls::{self, check_lengths, Reading};
use crate::code::Code;
use crate::plan::{Plan, PLAN};
use crate::sets::{check_arriving, combined, Set, PHOTOGRAPHS, PLACE};
use std::ops::Range;

/// Where the symbols of a photograph lie.
pub fn place(photograph: usize) -> Range<usize> {
    let first = PLAN + PHOTOGRAPHS + PLACE * photograph;
    first..first + PLACE
}

/// Whether the number is one of a photograph, and its flag is not 0.
fn is_held(memory: &[u8], photograph: u32) -> Option<bool> {
    let flags = &memory[PLAN..PLAN + PHOTOGRAPHS];
    flags.get(photograph as usize).map(|&flag| flag != 0)
}

pub fn start(memory: &mut [u8], plan: &[u8]) -> u32 {
    match Set::start(plan) {
        Ok(set) => {
            memory.copy_from_slice(&set.memory());
            0
        }
        Err(number) => number,
    }
}

pub fn add(memory: &mut [u8], photograph: u32, symbols: &[u8], doubts: &[u8]) -> u32 {
    let is_free = is_held(memory, photograph) == Some(false);
    let checked = Plan::parse(&memory[..PLAN]).and_then(|plan| check_arriving(&plan, is_free, symbols, doubts));
    if let Err(number) = checked {
        return number;
    }
    let photograph = photograph as usize;
    memory[place(photograph)][..symbols.len()].copy_from_slice(symbols);
    memory[PLAN + photograph] = 1;
    0
}

pub fn withdraw(memory: &mut [u8], photograph: u32) -> u32 {
    if is_held(memory, photograph) != Some(true) {
        return 18;
    }
    let photograph = photograph as usize;
    memory[place(photograph)].fill(255);
    memory[PLAN + photograph] = 0;
    0
}

pub fn combine(memory: &[u8], symbols: &mut [u8], doubts: &mut [u8]) -> u32 {
    match checked(memory, [symbols.len(), doubts.len()]) {
        Ok(combined) => {
            symbols.copy_from_slice(&combined[0]);
            doubts.copy_from_slice(&combined[1]);
            0
        }
        Err(number) => number,
    }
}

fn checked(memory: &[u8], room: [usize; 2]) -> Result<[Vec<u8>; 2], u32> {
    let plan = Plan::parse(&memory[..PLAN])?;
    let cells = Code::Mark.cells(&plan);
    check_lengths(&room.map(|room| (room, cells)))?;
    Ok(votes(memory, &plan))
}

/// The combination, to which all nine places have their say, held or not.
fn votes(memory: &[u8], plan: &Plan) -> [Vec<u8>; 2] {
    combined(plan, |cell| (0..PHOTOGRAPHS).map(move |photograph| memory[place(photograph)][cell]))
}

pub fn read(memory: &[u8], record: &mut [u8]) -> Reading {
    let plan = &memory[..PLAN];
    let [symbols, doubts] = Plan::parse(plan).map_or_else(|_| [const { Vec::new() }; 2], |plan| votes(memory, &plan));
    calls::read(Code::Mark, plan, &symbols, &doubts, record)
}

#[cfg(test)]
mod tests {
    use super::*;
    use crate::sets::SET;

    /// Plan A of season 12, number 2 with a flag of 77 and number 5 with one of 0, and 254 in the first cell of number 0.
    fn odd() -> Vec<u8> {
        let mut memory = vec![255; SET];
        memory[..PLAN + PHOTOGRAPHS].fill(0);
        memory[..9].copy_from_slice(&[0, 12, 7, 3, 3, 1, 1, 2, 4]);
        memory[22..25].copy_from_slice(&[1, 2, 4]);
        (memory[42], memory[49]) = (77, 254);
        memory
    }

    #[test]
    fn any_flag_but_0_is_held_and_every_place_votes() {
        let mark = [6, 1, 5, 0, 2, 6, 2, 4, 1];
        let mut memory = odd();
        assert_eq!(add(&mut memory, 2, &[7; 9], &[0; 9]), 17);
        assert_eq!([5, 9, 256].map(|photograph| withdraw(&mut memory, photograph)), [18; 3]);
        let (mut symbols, mut doubts) = ([9; 9], [9; 9]);
        assert_eq!(combine(&memory, &mut symbols, &mut doubts), 0);
        assert_eq!((symbols[0], doubts[0], symbols[1], doubts[1]), (254, 0, 255, 100));
        assert_eq!(read(&memory, &mut [9; 2]).number, 6);
        assert_eq!(read(&memory, &mut [9; 3]).number, 7);
        assert_eq!(memory, odd());
        // what is beyond the cells stays as it is
        memory[49 + 256 * 5 + 9] = 3;
        assert_eq!(add(&mut memory, 5, &mark, &[0; 9]), 0);
        assert_eq!(memory[45], 1);
        assert_eq!(memory[49 + 256 * 5..][..11], [6, 1, 5, 0, 2, 6, 2, 4, 1, 3, 255]);
        assert_eq!(read(&memory, &mut [9; 3]).cost, 100);
        assert_eq!([5, 2].map(|photograph| withdraw(&mut memory, photograph)), [0; 2]);
        memory[42] = 77;
        assert_eq!(memory, odd());
    }

    #[test]
    fn a_plan_that_is_unsound_is_refused_first() {
        let mut memory = odd();
        memory[2] = 9;
        let before = memory.clone();
        assert_eq!(add(&mut memory, 9, &[7; 8], &[0; 9]), 2);
        assert_eq!(combine(&memory, &mut [9; 8], &mut [9; 8]), 2);
        assert_eq!(read(&memory, &mut []).number, 2);
        assert_eq!(start(&mut memory, &before[..PLAN]), 2);
        assert_eq!(withdraw(&mut memory, 0), 18);
        assert_eq!(memory, before);
        assert_eq!(withdraw(&mut memory, 2), 0);
    }
}
