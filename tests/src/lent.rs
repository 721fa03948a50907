//! A buffer lent to a call, between guard bytes.

use crate::random::Random;

/// Guard bytes on each side.
const GUARD: usize = 32;

pub struct Lent {
    arena: Vec<u8>,
    before: Vec<u8>,
}

impl Lent {
    /// A copy of the bytes; the guards are any bytes, so that a result that hangs on them shows.
    pub fn new(bytes: &[u8], random: &mut Random) -> Lent {
        let mut arena = random.bytes(GUARD);
        arena.extend_from_slice(bytes);
        arena.extend(random.bytes(GUARD));
        Lent { before: arena.clone(), arena }
    }

    pub fn bytes(&self) -> &[u8] {
        &self.arena[GUARD..self.arena.len() - GUARD]
    }

    pub fn bytes_mut(&mut self) -> &mut [u8] {
        let end = self.arena.len() - GUARD;
        &mut self.arena[GUARD..end]
    }

    /// Whether no byte has changed, guards included.
    pub fn is_untouched(&self) -> bool {
        self.arena == self.before
    }

    /// Whether no guard has changed.
    pub fn is_guarded(&self) -> bool {
        let end = self.arena.len() - GUARD;
        self.arena[..GUARD] == self.before[..GUARD] && self.arena[end..] == self.before[end..]
    }

    /// The bytes are from now on to stay as they are.
    pub fn settle(&mut self) {
        self.before.copy_from_slice(&self.arena);
    }

    /// The bytes as they were first again.
    pub fn restore(&mut self) {
        self.arena.copy_from_slice(&self.before);
    }
}
