//! Read-write locks as they are held.

use crate::words::Word;

/// How many reading holds there may be, how many are out, and whether a writer is in.
#[derive(Clone, Copy, Debug, PartialEq, Eq, Hash)]
pub struct RwLock {
    places: u32,
    reading: u32,
    writing: bool,
}

impl RwLock {
    pub fn new(places: u32) -> RwLock {
        RwLock { places, reading: 0, writing: false }
    }

    /// The lock after one of its four words, if the word does not wait.
    pub fn after(self, word: Word) -> Option<RwLock> {
        let RwLock { reading, writing, .. } = self;
        match word {
            Word::Rdlock if reading < self.places && !writing => Some(RwLock { reading: reading + 1, ..self }),
            Word::Rdunlock if reading > 0 => Some(RwLock { reading: reading - 1, ..self }),
            Word::Wrlock if reading == 0 && !writing => Some(RwLock { writing: true, ..self }),
            Word::Wrunlock if writing => Some(RwLock { writing: false, ..self }),
            _ => None,
        }
    }
}
