//! A run along a recorded order: threads keep the numbers of their spawning, and what a run may have is
//! limited (request (xii)).

use super::claims::{about_to_access, waits};
use super::expression::{Expression, Program};
use super::state::State;
use crate::answer::{OPEN_CALLS, THINGS, THREADS};
use crate::words::Word;

/// What is counted, each kind by itself: over a whole run, save open calls, which are counted in each state
/// and for each thread.
#[derive(Clone, Copy, Debug, PartialEq, Eq, PartialOrd, Ord)]
pub enum Counted {
    Threads,
    Cells,
    Locks,
    RwLocks,
    Semaphores,
    Identifiers,
    OpenCalls,
}

/// What there is a limit for.
pub const COUNTED: [Counted; 7] = [
    Counted::Threads,
    Counted::Cells,
    Counted::Locks,
    Counted::RwLocks,
    Counted::Semaphores,
    Counted::Identifiers,
    Counted::OpenCalls,
];

impl Counted {
    pub fn limit(self) -> usize {
        match self {
            Counted::Threads => THREADS,
            Counted::OpenCalls => OPEN_CALLS,
            _ => THINGS,
        }
    }
}

/// Why a line of a trace is not done.
#[derive(Clone, Copy, Debug, PartialEq, Eq, PartialOrd, Ord)]
pub enum Stopped {
    /// No thread of this number was spawned so far.
    NotSpawned,
    Finished,
    Joined,
    /// The next word has no such choice.
    Choice,
    /// The thread waits at this word.
    Waits(Word),
    /// The word has a value of the wrong kind.
    WrongKind(Word),
    /// The step goes past the limit of this kind.
    Past(Counted),
}

impl Stopped {
    /// The refusal's number.
    pub fn number(self) -> u32 {
        match self {
            Stopped::Past(_) => 48,
            _ => 47,
        }
    }
}

/// A state, with the number of each of its threads; a joined thread's number is not used again.
#[derive(Clone)]
pub struct Run {
    pub state: State,
    numbers: Vec<u32>,
    spawned: u32,
}

impl Run {
    pub fn start(program: &Program) -> Run {
        Run { state: State::start_with_marks(program), numbers: vec![0], spawned: 1 }
    }

    /// The numbers of the threads that are not joined.
    pub fn threads(&self) -> &[u32] {
        &self.numbers
    }

    fn place_of(&self, thread: u32) -> Option<usize> {
        self.numbers.iter().position(|&number| number == thread)
    }

    /// The word that a thread takes next, if it is running.
    pub fn next_word(&self, thread: u32) -> Option<Word> {
        match self.state.threads[self.place_of(thread)?].expression.next_word() {
            Expression::Step { word, .. } => Some(*word),
            _ => None,
        }
    }

    /// The run after one step of a thread. Among several finished threads a join takes the lowest: the
    /// threads of a state stand in spawn order, and so do the moves that list them.
    pub fn after(&self, thread: u32, choice: u32) -> Result<Run, Stopped> {
        let absent = if thread < self.spawned { Stopped::Joined } else { Stopped::NotSpawned };
        let place = self.place_of(thread).ok_or(absent)?;
        let word = self.next_word(thread).ok_or(Stopped::Finished)?;
        let moves = self.state.moves(place).into_iter().filter(|step| step.part == choice as usize);
        let taken = moves.clone().find_map(|step| Some((step, self.state.reduced(step)?)));
        let (step, state) = taken.ok_or_else(|| match moves.count() {
            0 => Stopped::Choice,
            _ if waits(&self.state, place) => Stopped::Waits(word),
            _ => Stopped::WrongKind(word),
        })?;
        let mut next = Run { state, numbers: self.numbers.clone(), spawned: self.spawned };
        match word {
            Word::Join => drop(next.numbers.remove(step.finished)),
            Word::Spawn => {
                next.numbers.push(next.spawned);
                next.spawned += 1;
            }
            _ => {}
        }
        match COUNTED.into_iter().find(|&kind| next.count(kind) > kind.limit()) {
            None => Ok(next),
            Some(kind) => Err(Stopped::Past(kind)),
        }
    }

    /// How many of a kind the run has had. The identifier of the start is not counted. Of open calls, the most
    /// that a thread has now.
    pub fn count(&self, kind: Counted) -> usize {
        match kind {
            Counted::Threads => self.spawned as usize,
            Counted::Cells => self.state.cells.len(),
            Counted::Locks => self.state.locks.len(),
            Counted::RwLocks => self.state.rwlocks.len(),
            Counted::Semaphores => self.state.semaphores.len(),
            Counted::Identifiers => self.state.identifiers.len() - 1,
            Counted::OpenCalls => {
                self.state.threads.iter().map(|thread| thread.expression.open_calls()).max().unwrap_or(0)
            }
        }
    }

    /// The lowest pair of threads that race: the smaller one least, and then the other.
    pub fn lowest_race(&self) -> Option<(u32, u32)> {
        let accesses: Vec<_> = (0..self.numbers.len()).map(|place| about_to_access(&self.state, place)).collect();
        let races = |one: usize, other: usize| match (accesses[one], accesses[other]) {
            (Some((cell, writes)), Some((same, other_writes))) => cell == same && (writes || other_writes),
            _ => false,
        };
        let places = 0..self.numbers.len();
        let mut pairs = places.flat_map(|one| (one + 1..self.numbers.len()).map(move |other| (one, other)));
        pairs.find(|&(one, other)| races(one, other)).map(|(one, other)| (self.numbers[one], self.numbers[other]))
    }
}
