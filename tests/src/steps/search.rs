//! Schedules: all of them up to a bound, or drawn ones.

use super::claims::{about_to_access, fault, Fault};
use super::expression::{Name, Program};
use super::state::State;
use crate::draw::random::Random;
use std::collections::{HashMap, HashSet, VecDeque};

/// What a search met.
#[derive(Default)]
pub struct Found {
    pub states: usize,
    /// No state was left out; for one schedule, it ran until no thread could go on.
    pub complete: bool,
    pub fault: Option<Fault>,
    /// The greatest number of threads in one state.
    pub threads: usize,
    /// Some cell was accessed by two threads, whichever way they kept apart.
    pub shared: bool,
}

/// Which thread first accessed each cell, to tell whether cells are shared at all. Threads are told
/// apart by their place, which is enough for a count of how telling the programs are.
#[derive(Default)]
struct Accesses(HashMap<Name, usize>);

impl Found {
    fn look_at(&mut self, state: &State, accesses: &mut Accesses) {
        self.states += 1;
        self.threads = self.threads.max(state.threads.len());
        self.fault = self.fault.or_else(|| fault(state));
        for thread in 0..state.threads.len() {
            if let Some((cell, _)) = about_to_access(state, thread) {
                self.shared |= *accesses.0.entry(cell).or_insert(thread) != thread;
            }
        }
    }
}

/// Every state that can be reached, nearest first, up to `bound` of them or to the first fault.
pub fn exhaustive(program: &Program, bound: usize) -> Found {
    let start = State::start(program);
    let (mut found, mut accesses) = (Found::default(), Accesses::default());
    let mut seen = HashSet::from([start.clone()]);
    let mut waiting = VecDeque::from([start]);
    while let Some(state) = waiting.pop_front() {
        found.look_at(&state, &mut accesses);
        if found.fault.is_some() || seen.len() >= bound {
            return found;
        }
        for next in successors(&state) {
            if seen.insert(next.clone()) {
                waiting.push_back(next);
            }
        }
    }
    found.complete = true;
    found
}

fn successors(state: &State) -> impl Iterator<Item = State> + '_ {
    let moves = (0..state.threads.len()).flat_map(|thread| state.moves(thread));
    moves.filter_map(|step| state.reduced(step))
}

/// One drawn schedule of so many moves. A move that is no reduction leaves the state alone.
pub fn drawn_schedule(program: &Program, random: &mut Random, moves: usize) -> Found {
    let mut state = State::start(program);
    let (mut found, mut accesses) = (Found::default(), Accesses::default());
    for _ in 0..moves {
        found.look_at(&state, &mut accesses);
        found.complete = successors(&state).next().is_none();
        if found.fault.is_some() || found.complete {
            return found;
        }
        let listed = state.moves(random.below(state.threads.len()));
        if let Some(next) = state.reduced(random.pick(&listed)) {
            state = next;
        }
    }
    found
}
