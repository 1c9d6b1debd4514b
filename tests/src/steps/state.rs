//! States, moves and reductions, after "The steps, from Figures 3 and 4".

use super::expression::{Expression, Name, Procedure, Program, Value};
use super::rwlock::RwLock;
use crate::words::Word;
use std::collections::{BTreeMap, BTreeSet};
use std::rc::Rc;

#[derive(Clone, Copy, Debug, PartialEq, Eq, Hash)]
pub enum LockState {
    Open,
    Closed,
}

#[derive(Clone, Debug, PartialEq, Eq, Hash)]
pub struct Thread {
    pub identifier: Name,
    pub expression: Rc<Expression>,
}

impl Thread {
    pub fn finished(&self) -> bool {
        self.expression.value().is_some()
    }
}

/// Threads in spawn order, cells, locks, identifiers, semaphores with their counts, and read-write locks.
/// The names used so far are those listed.
#[derive(Clone, Debug, PartialEq, Eq, Hash)]
pub struct State {
    pub threads: Vec<Thread>,
    pub cells: BTreeMap<Name, Value>,
    pub locks: BTreeMap<Name, LockState>,
    pub identifiers: BTreeSet<Name>,
    pub semaphores: BTreeMap<Name, usize>,
    pub rwlocks: BTreeMap<Name, RwLock>,
    /// What calls step to; the same in all states of a run.
    procedures: Rc<Vec<Procedure>>,
    /// Whether calls that are taken are marked as open. Marks are no part of the language: without them a
    /// procedure that calls itself in tail place comes back to the same state.
    marks_calls: bool,
}

/// What a scheduler decides: the thread, the part for an `if`, the finished thread for a `join`
/// and the name for a new thing.
#[derive(Clone, Copy, Debug, PartialEq, Eq)]
pub struct Move {
    pub thread: usize,
    pub part: usize,
    pub finished: usize,
    pub name: Name,
}

impl State {
    /// One thread, its identifier the one name used so far.
    pub fn start(program: &Program) -> State {
        State {
            threads: vec![Thread { identifier: 0, expression: program.root.clone() }],
            cells: BTreeMap::new(),
            locks: BTreeMap::new(),
            identifiers: BTreeSet::from([0]),
            semaphores: BTreeMap::new(),
            rwlocks: BTreeMap::new(),
            procedures: program.procedures.clone(),
            marks_calls: false,
        }
    }

    /// The same, with the calls marked that are open.
    pub fn start_with_marks(program: &Program) -> State {
        State { marks_calls: true, ..State::start(program) }
    }

    fn unused(&self, name: Name) -> bool {
        !self.cells.contains_key(&name)
            && !self.locks.contains_key(&name)
            && !self.identifiers.contains(&name)
            && !self.semaphores.contains_key(&name)
            && !self.rwlocks.contains_key(&name)
    }

    /// A name never used before. Names are given out from 0 upward, so their count is the next.
    pub fn new_name(&self) -> Name {
        let locks = self.locks.len() + self.semaphores.len() + self.rwlocks.len();
        let used = self.cells.len() + self.identifiers.len() + locks;
        (used as Name..).find(|&name| self.unused(name)).expect("names never run out")
    }

    /// The moves of one thread that could be reductions, up to the choice of a new name.
    pub fn moves(&self, thread: usize) -> Vec<Move> {
        let plain = Move { thread, part: 0, finished: 0, name: self.new_name() };
        match self.threads[thread].expression.next_word() {
            Expression::Step { word: Word::If, .. } => (0..2).map(|part| Move { part, ..plain }).collect(),
            Expression::Step { word: Word::Join, .. } => {
                (0..self.threads.len()).map(|finished| Move { finished, ..plain }).collect()
            }
            _ => vec![plain],
        }
    }

    /// The state after a move, if the move is a reduction.
    pub fn reduced(&self, step: Move) -> Option<State> {
        let thread = self.threads.get(step.thread)?;
        let Expression::Step { word, number, parts } = thread.expression.next_word() else { return None };
        let mut next = self.clone();
        let result = match word {
            Word::Let => parts[1].put(*number, parts[0].value()?),
            Word::If => parts.get(step.part)?.clone(),
            Word::While => Expression::unrolled(&parts[0]),
            Word::Newrwlock => next.create_rwlock(*number, step.name)?,
            Word::Call => {
                let Procedure { variable, body } = self.procedures.get(*number as usize)?;
                let body = body.put(*variable, parts[0].value()?);
                if self.marks_calls {
                    Expression::opened(body)
                } else {
                    body
                }
            }
            _ => {
                let operands: Vec<Value> = parts.iter().map_while(|part| part.value()).collect();
                let value = next.act(*word, &operands, parts.last(), step)?;
                Rc::new(Expression::Value(value))
            }
        };
        next.threads[step.thread].expression = thread.expression.with_next_word(result);
        if *word == Word::Join {
            next.threads.remove(step.finished);
        }
        Some(next)
    }

    /// A word that acts on the state, and the value that it becomes.
    fn act(&mut self, word: Word, operands: &[Value], body: Option<&Rc<Expression>>, step: Move) -> Option<Value> {
        match (word, operands) {
            (Word::Newtid | Word::Ref | Word::Newlock | Word::Newsem, _) => {
                return self.create(word, operands, step.name)
            }
            (Word::Read, [Value::Cell(cell)]) => return self.cells.get(cell).copied(),
            (Word::Write, [Value::Cell(cell), value]) => drop(self.cells.insert(*cell, *value)),
            (Word::Spawn, [Value::Identifier(identifier), ..]) => {
                self.threads.push(Thread { identifier: *identifier, expression: body?.clone() });
            }
            (Word::Join, [Value::Identifier(identifier)]) => {
                let listed = self.threads.get(step.finished)?;
                (listed.finished() && listed.identifier == *identifier).then_some(())?;
            }
            (Word::Lock, [Value::Lock(lock)]) => self.close_open_lock(*lock)?,
            (Word::Unlock, [Value::Lock(lock)]) => drop(self.locks.insert(*lock, LockState::Open)),
            (Word::Post, [Value::Semaphore(semaphore)]) => *self.semaphores.get_mut(semaphore)? += 1,
            (Word::Wait, [Value::Semaphore(semaphore)]) => {
                let count = self.semaphores.get_mut(semaphore)?;
                *count = count.checked_sub(1)?;
            }
            (Word::Rdlock | Word::Rdunlock | Word::Wrlock | Word::Wrunlock, [Value::RwLock(name)]) => {
                let lock = self.rwlocks.get_mut(name)?;
                *lock = lock.after(word)?;
            }
            _ => return None,
        }
        Some(Value::Constant(0))
    }

    /// A new read-write lock under an unused name.
    fn create_rwlock(&mut self, places: u32, name: Name) -> Option<Rc<Expression>> {
        if !self.unused(name) {
            return None;
        }
        self.rwlocks.insert(name, RwLock::new(places));
        Some(Rc::new(Expression::Value(Value::RwLock(name))))
    }

    /// A new identifier, cell, lock or semaphore under an unused name.
    fn create(&mut self, word: Word, operands: &[Value], name: Name) -> Option<Value> {
        if !self.unused(name) {
            return None;
        }
        match (word, operands) {
            (Word::Newtid, []) => {
                self.identifiers.insert(name);
                Some(Value::Identifier(name))
            }
            (Word::Ref, [value]) => {
                self.cells.insert(name, *value);
                Some(Value::Cell(name))
            }
            (Word::Newlock, []) => {
                self.locks.insert(name, LockState::Open);
                Some(Value::Lock(name))
            }
            (Word::Newsem, []) => {
                self.semaphores.insert(name, 0);
                Some(Value::Semaphore(name))
            }
            _ => None,
        }
    }

    /// `lock` waits unless the lock is open.
    fn close_open_lock(&mut self, lock: Name) -> Option<()> {
        let known = self.locks.get_mut(&lock)?;
        (*known == LockState::Open).then(|| *known = LockState::Closed)
    }
}
