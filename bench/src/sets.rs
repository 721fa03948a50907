//! Streams of distinct trays, each photographed several times, with sets of these photographs.

use crate::contender::PLAIN;
use crate::port::{self, Plain};
use crate::stream::{self, FINER_SEASON, SEASON};
use crate::timing::BATCH;
use independent::calls::bytes;
use independent::{Code, Plan, PLAN, UNREAD};
use std::array::from_fn;
use std::cell::RefCell;
use std::hint::black_box;
use traymark::{Reading, Refusal};
use traymark_tests::plans::{self, Shape};
use traymark_tests::random::Random;

/// How many trays are taken at most: the sets of so many stay in the processor's second cache.
const TRAYS: usize = 200;

/// Who is timed: a set of the library or of the port, and the call that reads a mark.
pub trait Calls: Sized {
    fn start(plan: &[u8]) -> Result<Self, Refusal>;
    fn restart(&mut self, plan: &[u8]) -> Result<(), Refusal>;
    fn add(&mut self, photograph: u32, symbols: &[u8], doubts: &[u8]) -> Result<(), Refusal>;
    fn withdraw(&mut self, photograph: u32) -> Result<(), Refusal>;
    fn combine(&self, symbols: &mut [u8], doubts: &mut [u8]) -> Result<(), Refusal>;
    fn read(&self, record: &mut [u8]) -> Result<Reading, Refusal>;
    fn read_mark(plan: &[u8], symbols: &[u8], doubts: &[u8], record: &mut [u8]) -> Result<Reading, Refusal>;
}

macro_rules! calls {
    ($set:ty, $read_mark:expr) => {
        impl Calls for $set {
            fn start(plan: &[u8]) -> Result<Self, Refusal> {
                <$set>::start(plan)
            }

            fn restart(&mut self, plan: &[u8]) -> Result<(), Refusal> {
                self.restart(plan)
            }

            fn add(&mut self, photograph: u32, symbols: &[u8], doubts: &[u8]) -> Result<(), Refusal> {
                self.add(photograph, symbols, doubts)
            }

            fn withdraw(&mut self, photograph: u32) -> Result<(), Refusal> {
                self.withdraw(photograph)
            }

            fn combine(&self, symbols: &mut [u8], doubts: &mut [u8]) -> Result<(), Refusal> {
                self.combine(symbols, doubts)
            }

            fn read(&self, record: &mut [u8]) -> Result<Reading, Refusal> {
                self.read(record)
            }

            fn read_mark(plan: &[u8], symbols: &[u8], doubts: &[u8], record: &mut [u8]) -> Result<Reading, Refusal> {
                $read_mark(plan, symbols, doubts, record)
            }
        }
    };
}

calls!(traymark::Set, traymark::read_mark);
calls!(port::Set, port::read_mark::<Plain>);

#[derive(Clone, Copy, Debug, PartialEq, Eq)]
pub enum Task {
    /// combine the photographs
    Combine,
    /// read the set
    Read,
    /// read its combination, a mark like any other
    ReadCombined,
    /// withdraw a photograph and add it again
    Exchange,
    /// start the set again, by the same plan
    Start,
}

impl Task {
    pub const ALL: [Task; 5] = [Task::Combine, Task::Read, Task::ReadCombined, Task::Exchange, Task::Start];

    /// Its name, a word.
    pub fn name(self) -> &'static str {
        match self {
            Task::Combine => "combine",
            Task::Read => "read-set",
            Task::ReadCombined => "read-combined",
            Task::Exchange => "exchange",
            Task::Start => "start",
        }
    }

    fn run<S: Calls>(self, tray: &Tray, set: &mut S, room: &mut Room) -> Result<Option<Reading>, Refusal> {
        let Tray { plan, photographs, poor, combined: [symbols, doubts], size, .. } = tray;
        let [symbol_room, doubt_room, record] = room;
        let record = &mut record[..*size];
        match self {
            Task::Combine => {
                let [symbols, doubts] = [symbol_room, doubt_room].map(|room| &mut room[..symbols.len()]);
                set.combine(symbols, doubts).map(|()| None)
            }
            Task::Read => set.read(record).map(Some),
            Task::ReadCombined => S::read_mark(plan, symbols, doubts, record).map(Some),
            Task::Exchange => {
                let [symbols, doubts] = &photographs[*poor];
                set.withdraw(*poor as u32)?;
                set.add(*poor as u32, symbols, doubts).map(|()| None)
            }
            Task::Start => set.restart(plan).map(|()| None),
        }
    }
}

/// What is timed: a task on sets of so many photographs of marks of that shape.
#[derive(Clone, Copy, Debug)]
pub struct Kind {
    pub season: u16,
    pub shape: Shape,
    pub photographs: usize,
    pub task: Task,
}

/// A set of nine photographs of season 12, and a task.
const fn nine(shape: Shape, task: Task) -> Kind {
    Kind { season: SEASON, shape, photographs: 9, task }
}

pub const KINDS: [Kind; 12] = [
    nine((251, 16, 16, 7), Task::Combine),
    Kind { season: FINER_SEASON, ..nine((251, 16, 16, 7), Task::Combine) },
    Kind { photographs: 3, ..nine((251, 16, 16, 7), Task::Combine) },
    nine((251, 16, 8, 7), Task::Combine),
    nine((251, 16, 16, 0), Task::Read),
    nine((251, 16, 16, 0), Task::ReadCombined),
    nine((251, 16, 16, 7), Task::Read),
    nine((251, 16, 16, 7), Task::ReadCombined),
    nine((251, 16, 16, 15), Task::Read),
    nine((251, 16, 16, 15), Task::ReadCombined),
    nine((251, 16, 16, 7), Task::Exchange),
    nine((251, 16, 16, 7), Task::Start),
];

impl Kind {
    /// Whether as many photographs as a set holds, of the largest mark, are combined.
    pub fn is_largest_combination(self) -> bool {
        let Kind { shape: (_, rows, columns, _), photographs, task, .. } = self;
        (task, photographs, rows, columns) == (Task::Combine, 9, 16, 16)
    }

    /// Trays enough for so many, in batches.
    pub fn batches(self, number: usize) -> Vec<[Tray; BATCH]> {
        let random = &mut Random::new(self.photographs as u64);
        let plan = stream::plan(self.season, self.shape, random);
        let mut batch = |_| from_fn(|place| Tray::new(&plan, self.photographs, place, random));
        (0..number.min(TRAYS).div_ceil(BATCH)).map(&mut batch).collect()
    }
}

/// A tray with its photographs, and a set of these by each contender.
pub struct Tray {
    plan: [u8; PLAN],
    /// the symbols and the doubts of each
    photographs: Vec<[Vec<u8>; 2]>,
    /// the one that is withdrawn and added again
    poor: usize,
    /// the symbols and the doubts of the combination
    combined: [Vec<u8>; 2],
    /// the number of coefficients of its record
    size: usize,
    library: RefCell<traymark::Set>,
    plain: RefCell<port::Set>,
}

impl Tray {
    /// Photographs of one mark of the plan.
    fn new(plan: &Plan, number: usize, place: usize, random: &mut Random) -> Tray {
        let code = Code::Mark;
        let word = code.word(plan, &plans::record(code, plan, random));
        let photographs: Vec<[Vec<u8>; 2]> = (0..number).map(|_| photograph(plan, &word, random)).collect();
        let plan_bytes = plan.bytes();
        let plain: port::Set = holding(&plan_bytes, &photographs);
        let mut combined = [vec![0; word.len()], vec![0; word.len()]];
        let [symbols, doubts] = &mut combined;
        plain.combine(symbols, doubts).expect("buffers of the right lengths");
        Tray {
            plan: plan_bytes,
            poor: place % number,
            combined,
            size: code.size(plan),
            library: RefCell::new(holding(&plan_bytes, &photographs)),
            plain: plain.into(),
            photographs,
        }
    }
}

/// A photograph of the word: of 64 cells one is misread, and of the others one of 8 is unread. Doubts are any.
fn photograph(plan: &Plan, word: &[u32], random: &mut Random) -> [Vec<u8>; 2] {
    let full = plan.full_doubt();
    let cell = |&value: &u32| match (random.one_in(64), random.one_in(8)) {
        (true, _) => ((value + random.between(1, plan.p - 1)) % plan.p, random.between(0, full)),
        (false, true) => (UNREAD, full),
        (false, false) => (value, random.between(0, full)),
    };
    let (symbols, doubts): (Vec<u32>, Vec<u32>) = word.iter().map(cell).unzip();
    [bytes(&symbols), bytes(&doubts)]
}

/// A set that holds these photographs.
fn holding<S: Calls>(plan: &[u8], photographs: &[[Vec<u8>; 2]]) -> S {
    let mut set = S::start(plan).expect("a sound plan");
    for (number, [symbols, doubts]) in (0..).zip(photographs) {
        set.add(number, symbols, doubts).expect("a photograph of the plan, with a number of its own");
    }
    set
}

/// Where the calls write symbols, doubts and a record.
type Room = [[u8; 256]; 3];

/// No byte of it written yet.
const EMPTY: Room = [[0; 256]; 3];

/// The library and the port do the task on the trays, for times.
pub fn run(task: Task, contender: usize, trays: &[Tray]) {
    let mut room = EMPTY;
    for tray in trays {
        _ = black_box(match contender {
            0 => task.run(tray, &mut *tray.library.borrow_mut(), &mut room),
            _ => task.run(tray, &mut *tray.plain.borrow_mut(), &mut room),
        });
        black_box(&room);
    }
}

/// The library and the port do the task with the same answer, write the same bytes, and leave sets with the same combination.
pub fn agree(task: Task, tray: &Tray) {
    let library = done(task, tray, &mut *tray.library.borrow_mut());
    let plain = done(task, tray, &mut *tray.plain.borrow_mut());
    let Tray { plan, photographs, .. } = tray;
    assert!(library.is_ok(), "the library: {task:?} {library:?} {plan:?} {photographs:?}");
    assert_eq!(plain, library, "{} and the library: {task:?} {plan:?} {photographs:?}", PLAIN.name);
}

/// What the task answers, and what it and combining the set after it write.
fn done<S: Calls>(task: Task, tray: &Tray, set: &mut S) -> Result<(Option<Reading>, [Room; 2]), Refusal> {
    let mut rooms = [EMPTY; 2];
    let answer = task.run(tray, set, &mut rooms[0])?;
    Task::Combine.run(tray, set, &mut rooms[1])?;
    Ok((answer, rooms))
}
