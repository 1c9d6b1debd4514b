//! The two claims about the states of an accepted program: no race, and no odd halt.

use super::expression::{Expression, Name, Value};
use super::state::{LockState, State};
use crate::words::Word;

#[derive(Clone, Copy, Debug, PartialEq, Eq)]
pub enum Fault {
    /// Two threads are about to access this cell, one of them to write it.
    Race(Name),
    /// This thread halts, yet it has not finished and does not wait.
    OddHalt(usize),
}

/// The first fault of a state, if it has one.
pub fn fault(state: &State) -> Option<Fault> {
    race(state).map(Fault::Race).or_else(|| odd_halt(state).map(Fault::OddHalt))
}

/// The cell that a thread is about to access, and whether it is about to write it.
pub fn about_to_access(state: &State, thread: usize) -> Option<(Name, bool)> {
    let Expression::Step { word, parts, .. } = state.threads[thread].expression.next_word() else { return None };
    match (word, parts.first()?.value()?) {
        (Word::Read, Value::Cell(cell)) => Some((cell, false)),
        (Word::Write, Value::Cell(cell)) => Some((cell, true)),
        _ => None,
    }
}

fn race(state: &State) -> Option<Name> {
    let accesses: Vec<(Name, bool)> =
        (0..state.threads.len()).filter_map(|thread| about_to_access(state, thread)).collect();
    let races = |place: usize| {
        let (cell, writes) = accesses[place];
        accesses[..place].iter().any(|&(other, other_writes)| other == cell && (writes || other_writes))
    };
    (0..accesses.len()).find(|&place| races(place)).map(|place| accesses[place].0)
}

fn odd_halt(state: &State) -> Option<usize> {
    (0..state.threads.len())
        .find(|&thread| !state.threads[thread].finished() && !waits(state, thread) && halts(state, thread))
}

/// No move of the thread's own is a reduction.
fn halts(state: &State, thread: usize) -> bool {
    state.moves(thread).into_iter().all(|step| state.reduced(step).is_none())
}

/// At a `join` on an identifier that no finished thread has, at a `lock` on a lock that is not open, at a
/// `wait` on a semaphore that counts 0, or at a word of a read-write lock that has no room for it or no
/// hold to give.
pub fn waits(state: &State, thread: usize) -> bool {
    let Expression::Step { word, parts, .. } = state.threads[thread].expression.next_word() else { return false };
    match (word, parts.first().and_then(|part| part.value())) {
        (Word::Join, Some(Value::Identifier(identifier))) => {
            !state.threads.iter().any(|other| other.finished() && other.identifier == identifier)
        }
        (Word::Lock, Some(Value::Lock(lock))) => state.locks.get(&lock) != Some(&LockState::Open),
        (Word::Wait, Some(Value::Semaphore(semaphore))) => state.semaphores.get(&semaphore) == Some(&0),
        (Word::Rdlock | Word::Rdunlock | Word::Wrlock | Word::Wrunlock, Some(Value::RwLock(lock))) => {
            state.rwlocks.get(&lock).is_some_and(|lock| lock.after(*word).is_none())
        }
        _ => false,
    }
}
