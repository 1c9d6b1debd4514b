//! The types of the split sheet.

use crate::words::Word;

/// A type line. Locations, types and maps are held as indices.
#[derive(Clone, Copy, PartialEq, Eq)]
pub enum Type {
    Int,
    Ref {
        location: usize,
        content: usize,
    },
    /// The map that a lock gives to who takes it ("in"), and the one that it takes back ("out").
    Lock {
        taken: usize,
        given: usize,
    },
    Tid(usize),
    Sem(usize),
    Rwlock {
        reading: usize,
        writing: usize,
    },
}

impl Type {
    /// A lock that takes back what it gives.
    pub const fn lock(map: usize) -> Type {
        Type::Lock { taken: map, given: map }
    }

    /// The word that makes a thing of this type.
    pub fn maker(self) -> Word {
        match self {
            Type::Int => Word::Int,
            Type::Ref { .. } => Word::Ref,
            Type::Lock { .. } => Word::Newlock,
            Type::Tid(_) => Word::Newtid,
            Type::Sem(_) => Word::Newsem,
            Type::Rwlock { .. } => Word::Newrwlock,
        }
    }

    pub fn lock_in(self) -> Option<usize> {
        match self {
            Type::Lock { taken, .. } => Some(taken),
            _ => None,
        }
    }

    pub fn lock_out(self) -> Option<usize> {
        match self {
            Type::Lock { given, .. } => Some(given),
            _ => None,
        }
    }

    pub fn tid(self) -> Option<usize> {
        match self {
            Type::Tid(map) => Some(map),
            _ => None,
        }
    }

    pub fn sem(self) -> Option<usize> {
        match self {
            Type::Sem(map) => Some(map),
            _ => None,
        }
    }

    pub fn reading(self) -> Option<usize> {
        match self {
            Type::Rwlock { reading, .. } => Some(reading),
            _ => None,
        }
    }

    pub fn writing(self) -> Option<usize> {
        match self {
            Type::Rwlock { writing, .. } => Some(writing),
            _ => None,
        }
    }
}
