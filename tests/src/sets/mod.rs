//! The calls on sets, and what the independent model says that they do. Each is made twice, as `include/traymark.h` declares it
//! on memory between guard bytes, and on the Rust wrapper's value; both must answer alike and leave the same bytes.

mod seen;

pub use seen::{falls, Event, Seen};

use crate::calls::Arguments;
use crate::counts::Counts;
use crate::lent::Lent;
use crate::library::{alike, answered, guarded, reading, refused, untouched};
use crate::random::Random;
use independent::{memory, Reading};
use traymark::ffi::{self, RawSet};

/// The calls on a set.
#[derive(Clone, Copy, Debug, PartialEq, Eq)]
pub enum SetCall {
    Start,
    Add,
    Withdraw,
    Combine,
    Read,
}

impl SetCall {
    pub const ALL: [SetCall; 5] = [SetCall::Start, SetCall::Add, SetCall::Withdraw, SetCall::Combine, SetCall::Read];
}

/// All that a call on a set can be given: the memory of the set; numbers of photographs, one to add and one to withdraw; and the
/// plan that it is started with, symbols, doubts and record. What a call leaves has the same form.
#[derive(Clone, Debug, PartialEq, Eq)]
pub struct SetArguments {
    pub memory: Vec<u8>,
    pub arriving: u32,
    pub withdrawn: u32,
    pub lent: Arguments,
}

/// Holds what the library answers and leaves against the independent model, for any bytes as memory.
pub fn hold(
    call: SetCall,
    given: &SetArguments,
    random: &mut Random,
    counts: &mut Counts,
) -> Result<(Reading, SetArguments), String> {
    let told = |what: String| format!("{call:?} {what}; {given:?}");
    let mut expected = given.clone();
    let reading = expected.expect(call);
    let mut left = given.clone();
    let answer = left.answer(call, random).map_err(told)?;
    counts.set_answer(call, answer.number);
    if (answer, &left) != (reading, &expected) {
        return Err(told(format!("gave {answer:?}, expected {reading:?}; left {left:?}, expected {expected:?}")));
    }
    Ok((answer, left))
}

impl SetArguments {
    /// What the model answers; what it leaves is left here.
    fn expect(&mut self, call: SetCall) -> Reading {
        let SetArguments { memory, arriving, withdrawn, lent } = self;
        match call {
            SetCall::Start => Reading::refused(memory::start(memory, &lent.plan)),
            SetCall::Add => Reading::refused(memory::add(memory, *arriving, &lent.symbols, &lent.doubts)),
            SetCall::Withdraw => Reading::refused(memory::withdraw(memory, *withdrawn)),
            SetCall::Combine => Reading::refused(memory::combine(memory, &mut lent.symbols, &mut lent.doubts)),
            SetCall::Read => memory::read(memory, &mut lent.record),
        }
    }

    /// What the library answers, likewise.
    fn answer(&mut self, call: SetCall, random: &mut Random) -> Result<Reading, String> {
        let SetArguments { memory, arriving, withdrawn, lent } = self;
        let mut set = LentSet::new(memory, random);
        let answer = match call {
            SetCall::Start => Reading::refused(set.start(&lent.plan, random)?),
            SetCall::Add => Reading::refused(set.add(*arriving, &lent.symbols, &lent.doubts, random)?),
            SetCall::Withdraw => Reading::refused(set.withdraw(*withdrawn)?),
            SetCall::Combine => Reading::refused(set.combine(&mut lent.symbols, &mut lent.doubts, random)?),
            SetCall::Read => set.read(&mut lent.record, random)?,
        };
        memory.copy_from_slice(set.bytes());
        Ok(answer)
    }
}

/// A set that is lent to one call after another: its memory between guard bytes, and the wrapper's value with the same bytes.
pub struct LentSet {
    memory: Lent,
    value: traymark::Set,
}

impl LentSet {
    /// A set of any bytes.
    pub fn new(bytes: &[u8], random: &mut Random) -> LentSet {
        let value = traymark::Set::from_bytes(bytes.try_into().expect("the bytes of a set"));
        LentSet { memory: Lent::new(bytes, random), value }
    }

    pub fn bytes(&self) -> &[u8] {
        self.memory.bytes()
    }

    pub fn start(&mut self, plan: &[u8], random: &mut Random) -> Result<u32, String> {
        let plan = Lent::new(plan, random);
        let lent = plan.bytes();
        let number = unsafe { ffi::traymark_set_start(self.raw_mut(), lent.as_ptr(), lent.len()) };
        untouched(&[&plan])?;
        alike(number, number, || refused(self.value.restart(lent)))?;
        let mut started = None;
        alike(number, number, || refused(traymark::Set::start(lent).map(|set| started = Some(set))))?;
        untouched(&[&plan])?;
        self.changed()?;
        if started.is_some_and(|set| set != self.value) {
            return Err("a new set has other bytes than one that is started again".into());
        }
        Ok(number)
    }

    pub fn add(&mut self, photograph: u32, symbols: &[u8], doubts: &[u8], random: &mut Random) -> Result<u32, String> {
        let lent = [symbols, doubts].map(|bytes| Lent::new(bytes, random));
        let [symbols, doubts] = [0, 1].map(|k| lent[k].bytes());
        let number = unsafe {
            let set = self.raw_mut();
            ffi::traymark_set_add(set, photograph, symbols.as_ptr(), symbols.len(), doubts.as_ptr(), doubts.len())
        };
        untouched(&lent.each_ref())?;
        alike(number, number, || refused(self.value.add(photograph, symbols, doubts)))?;
        untouched(&lent.each_ref())?;
        self.changed()?;
        Ok(number)
    }

    pub fn withdraw(&mut self, photograph: u32) -> Result<u32, String> {
        let number = unsafe { ffi::traymark_set_withdraw(self.raw_mut(), photograph) };
        alike(number, number, || refused(self.value.withdraw(photograph)))?;
        self.changed()?;
        Ok(number)
    }

    /// The buffers are left as the call leaves them.
    pub fn combine(&self, symbols: &mut [u8], doubts: &mut [u8], random: &mut Random) -> Result<u32, String> {
        let mut lent = [&*symbols, &*doubts].map(|bytes| Lent::new(bytes, random));
        let number = unsafe {
            let [symbols, doubts] = lent.each_mut().map(Lent::bytes_mut);
            let set = self.bytes().as_ptr().cast::<RawSet>();
            ffi::traymark_set_combine(set, symbols.as_mut_ptr(), symbols.len(), doubts.as_mut_ptr(), doubts.len())
        };
        for (buffer, lent) in [&mut *symbols, &mut *doubts].into_iter().zip(&mut lent) {
            guarded(lent)?;
            buffer.copy_from_slice(lent.bytes());
            lent.restore();
        }
        self.kept()?;
        let [by_wrapper, doubts_by_wrapper] = lent.each_mut().map(Lent::bytes_mut);
        alike(number, number, || refused(self.value.combine(by_wrapper, doubts_by_wrapper)))?;
        lent.iter().try_for_each(guarded)?;
        if [&*symbols, &*doubts] != lent.each_ref().map(Lent::bytes) {
            return Err("left other bytes through the wrapper".into());
        }
        self.kept()?;
        Ok(number)
    }

    /// The buffer is left as the call leaves it.
    pub fn read(&self, record: &mut [u8], random: &mut Random) -> Result<Reading, String> {
        let mut lent = Lent::new(record, random);
        let raw = unsafe {
            let buffer = lent.bytes_mut();
            ffi::traymark_set_read(self.bytes().as_ptr().cast::<RawSet>(), buffer.as_mut_ptr(), buffer.len())
        };
        guarded(&lent)?;
        record.copy_from_slice(lent.bytes());
        lent.restore();
        self.kept()?;
        alike(raw.number, reading(raw), || answered(self.value.read(lent.bytes_mut())))?;
        guarded(&lent)?;
        if record != lent.bytes() {
            return Err("left another record through the wrapper".into());
        }
        self.kept()?;
        Ok(reading(raw))
    }

    fn raw_mut(&mut self) -> *mut RawSet {
        self.memory.bytes_mut().as_mut_ptr().cast()
    }

    /// After a call that may change the set: what it left is the same both ways, and the guards are as they were.
    fn changed(&mut self) -> Result<(), String> {
        guarded(&self.memory)?;
        self.memory.settle();
        self.kept()
    }

    /// No byte of the set has changed, in either form, nor a guard.
    fn kept(&self) -> Result<(), String> {
        untouched(&[&self.memory])?;
        if self.value.as_bytes() != self.bytes() {
            return Err("the set has other bytes through the wrapper".into());
        }
        Ok(())
    }
}
