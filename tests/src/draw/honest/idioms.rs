//! Idioms of several words that random choice seldom hits: critical sections, forks with joins, and
//! forks with signals.

use super::steps::moved;
use super::{Builder, Slip};
use crate::answer::WHOLE;
use crate::draw::draft::{at_least, sum, Map};
use crate::types::Type;
use crate::words::Word;

/// The words that open and close a critical section.
const SECTIONS: [(Word, Word); 3] =
    [(Word::Lock, Word::Unlock), (Word::Rdlock, Word::Rdunlock), (Word::Wrlock, Word::Wrunlock)];
/// The section of a reader.
const READING: usize = 1;

impl Builder<'_> {
    /// An idiom of int type. False, with nothing built, when it cannot be had here.
    pub(super) fn idiom(&mut self, kind: usize, now: &mut Map, need: &Map, size: usize) -> bool {
        match self.random.below(10) {
            0..=3 => self.critical_section(kind, now, need, size),
            4..=7 => self.fork_and_join(kind, now, need, size),
            _ => self.fork_and_signal(kind, now, need, size),
        }
    }

    /// Something for a thread to do, of any type: most often accesses to cells, guarded or not.
    pub(super) fn work(&mut self, now: &mut Map, need: &Map, size: usize) {
        let int = self.int_type();
        if self.slip == Some(Slip::BodiesForFree) && self.call(int, now, need, 2) {
            return;
        }
        let built = match self.random.below(10) {
            0..=2 => self.access(int, now, need),
            3..=5 if size > 1 => self.critical_section(int, now, need, size),
            6..=8 if size > 5 => self.two_works(int, now, need, size / 2),
            _ => false,
        };
        if !built {
            let kind = self.drawn_type(now, need);
            self.expression(kind, now, need, size);
        }
    }

    /// A write if it can be had, else a read.
    fn access(&mut self, kind: usize, now: &mut Map, need: &Map) -> bool {
        (self.random.percent(70) && self.step(Word::Write, kind, now, need, 1))
            || self.step(Word::Read, kind, now, need, 1)
    }

    /// `let _ = e in e'`, both at work.
    fn two_works(&mut self, kind: usize, now: &mut Map, need: &Map, size: usize) -> bool {
        let step = self.open_let();
        self.work(now, need, size);
        if !self.access(kind, now, need) && !self.critical_section(kind, now, need, size) {
            self.expression(kind, now, need, size);
        }
        self.close(step, kind, now)
    }

    /// `let _ = lock l in let _ = e in unlock l`, or in the end `let _ = unlock l in e`, also with the words
    /// of a read-write lock. With two loads the lock may be shown with another type when it is given back.
    fn critical_section(&mut self, kind: usize, now: &mut Map, need: &Map, size: usize) -> bool {
        let Some((take, give, lock)) = self.guard() else { return false };
        let again = self.shown_anew(lock);
        let loads = (moved(take, self.draft.types[lock]), moved(give, self.draft.types[again]));
        let (Some(map), Some(given)) = loads else { return false };
        let carried = self.draft.maps[map];
        let held = sum(now, &carried);
        let kept = sum(need, &self.draft.maps[given]);
        if held.iter().any(|&number| number > WHOLE) || !at_least(&held, &kept) {
            return false;
        }
        let (taken, done) = (self.open_let(), self.open_let_later());
        let int = self.int_type();
        let before: Map = std::array::from_fn(|place| need[place].max(kept[place].saturating_sub(carried[place])));
        self.gain(take, int, lock, map, now, &before, 1);
        let inner = self.open(Word::Let, done);
        let nested = self.random.percent(20) && self.critical_section(int, now, &kept, size.saturating_sub(6));
        if !nested && (!self.random.percent(70) || !self.access(int, now, &kept)) {
            self.work(now, &kept, size.saturating_sub(6));
        }
        if self.random.percent(60) {
            self.give_to(again, give, kind, now, need, 1);
        } else {
            self.give_and_work(again, give, kind, now, need);
        }
        self.close(inner, kind, now);
        self.close(taken, kind, now)
    }

    /// A lock in scope that guards something, with the words to take it and to give it back.
    fn guard(&mut self) -> Option<(Word, Word, usize)> {
        let reads = self.slip == Some(Slip::PlacesForFree);
        let first = if reads { READING } else { self.random.below(SECTIONS.len()) };
        for place in 0..SECTIONS.len() {
            let (take, give) = SECTIONS[(first + place) % SECTIONS.len()];
            let telling = |builder: &Self, number, kind| {
                moved(take, kind).is_some_and(|map| builder.draft.maps[map] != Map::default())
                    && builder.in_scope(number)
            };
            if let Some(lock) = self.type_where(telling) {
                return Some((take, give, lock));
            }
        }
        None
    }

    /// The type that a lock has when it is given back: with two loads sometimes another one, and always
    /// one that takes nothing back where the slip allows it.
    fn shown_anew(&mut self, lock: usize) -> usize {
        let slips = self.slip == Some(Slip::PrintedInequality);
        let has_two_loads = self.draft.has_two_loads() && matches!(self.draft.types[lock], Type::Lock { .. });
        if !slips && (!has_two_loads || self.random.percent(50)) {
            return lock;
        }
        let meant = |builder: &Self, number, kind| {
            matches!(kind, Type::Lock { given, .. } if !slips || builder.draft.maps[given] == Map::default())
                && builder.in_scope(number)
        };
        self.type_where(meant).unwrap_or(lock)
    }

    /// `let _ = unlock l in e`, with an access if one can be had.
    fn give_and_work(&mut self, lock: usize, give: Word, kind: usize, now: &mut Map, need: &Map) {
        let int = self.int_type();
        let step = self.open_let();
        self.give_to(lock, give, int, now, need, 1);
        if !self.access(kind, now, need) {
            self.leaf(Word::Int, 0, kind, now);
        }
        self.close(step, kind, now);
    }

    /// `let t = newtid in let _ = spawn(t){e} in let _ = e' in let _ = join t in e''`.
    pub(super) fn fork_and_join(&mut self, kind: usize, now: &mut Map, need: &Map, size: usize) -> bool {
        let affordable = |builder: &Self, _, kind| matches!(kind, Type::Tid(map) if at_least(now, &sum(need, &builder.draft.maps[map])));
        let Some(identifier) = self.type_where(affordable) else { return false };
        let Type::Tid(map) = self.draft.types[identifier] else { return false };
        let (int, half) = (self.int_type(), size.saturating_sub(8) / 2);
        let outer = self.open_let();
        self.leaf(Word::Newtid, 0, identifier, now);
        self.scope.push((self.draft.steps[outer].number, identifier));
        let spawned = self.open_let();
        self.spawn_on(identifier, int, now, need, half);
        let meanwhile = self.open_let();
        self.work(now, need, half);
        self.gain_and_work(Word::Join, identifier, map, kind, now, need);
        self.scope.pop();
        for step in [meanwhile, spawned, outer] {
            self.close(step, kind, now);
        }
        true
    }

    /// `let _ = spawn(newtid){e; post s; e} in let _ = e in let _ = wait s in e`.
    pub(super) fn fork_and_signal(&mut self, kind: usize, now: &mut Map, need: &Map, size: usize) -> bool {
        let known = |builder: &Self, number, kind| {
            matches!(kind, Type::Sem(map) if at_least(now, &sum(need, &builder.draft.maps[map])))
                && builder.in_scope(number)
        };
        let Some(semaphore) = self.type_where(known) else { return false };
        let Type::Sem(map) = self.draft.types[semaphore] else { return false };
        let carried = self.draft.maps[map];
        let kept = sum(need, &carried);
        let affordable = |builder: &Self, _, kind| matches!(kind, Type::Tid(map) if at_least(now, &sum(&kept, &builder.draft.maps[map])));
        let Some(identifier) = self.type_where(affordable) else { return false };
        let (int, half) = (self.int_type(), size.saturating_sub(10) / 2);
        let spawned = self.open_let();
        let body = |builder: &mut Self, held: &mut Map, given_back: &Map| {
            builder.work_and_signal(semaphore, &carried, held, given_back, half);
        };
        self.spawn_with(identifier, int, now, need, &carried, body);
        let meanwhile = self.open_let();
        self.work(now, need, half);
        self.gain_and_work(Word::Wait, semaphore, map, kind, now, need);
        self.close(meanwhile, kind, now);
        self.close(spawned, kind, now)
    }

    /// `let _ = e in let _ = post s in e`, the last e an access if one can be had.
    fn work_and_signal(&mut self, semaphore: usize, carried: &Map, held: &mut Map, given_back: &Map, size: usize) {
        let int = self.int_type();
        let worked = self.open_let();
        self.work(held, &sum(given_back, carried), size);
        let posted = self.open_let();
        self.give_to(semaphore, Word::Post, int, held, given_back, 1);
        if !self.access(int, held, given_back) {
            self.leaf(Word::Int, 0, int, held);
        }
        self.close(posted, int, held);
        self.close(worked, int, held);
    }

    /// `let _ = join t in e` or `let _ = wait s in e`, with an access that the other thread may have made
    /// room for.
    fn gain_and_work(&mut self, word: Word, part: usize, map: usize, kind: usize, now: &mut Map, need: &Map) {
        let int = self.int_type();
        let step = self.open_let();
        if !self.gain(word, int, part, map, now, need, 1) {
            self.leaf(Word::Int, 0, int, now);
        }
        if !self.access(kind, now, need) {
            self.expression(kind, now, need, 1);
        }
        self.close(step, kind, now);
    }

    /// Opens a `let` of a fresh variable.
    pub(super) fn open_let(&mut self) -> usize {
        let variable = self.open_let_later();
        self.open(Word::Let, variable)
    }

    /// A fresh variable for a `let` that opens later. A program has fewer `let`s than variables.
    fn open_let_later(&mut self) -> u32 {
        self.unbound.pop().expect("there are more variables than lets")
    }
}
