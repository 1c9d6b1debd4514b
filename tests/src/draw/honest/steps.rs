//! The words of an honest pair: what each takes from the map held now, and what it gives.

use super::{Builder, Slip, MAPS_IN_USE};
use crate::answer::{CONSTANTS, WHOLE};
use crate::draw::draft::{at_least, difference, lower, sum, Map, Step};
use crate::types::Type;
use crate::words::Word;

impl Builder<'_> {
    /// A step with this word and type. False, with nothing built, when it cannot be had here.
    pub fn step(&mut self, word: Word, kind: usize, now: &mut Map, need: &Map, size: usize) -> bool {
        let moves = matches!(word, Word::Spawn | Word::Call) || TAKING.contains(&word) || GIVING.contains(&word);
        if moves && self.draft.maps.len() > MAPS_IN_USE {
            return false;
        }
        let own = self.draft.types[kind];
        match (word, own) {
            (Word::Var, _) => self.var(kind, now),
            (Word::Int, Type::Int) => {
                let constant = self.random.between(0, CONSTANTS - 1);
                self.leaf(Word::Int, constant, kind, now)
            }
            (Word::Newtid, Type::Tid(_)) | (Word::Newsem, Type::Sem(_)) => self.leaf(word, 0, kind, now),
            (Word::Newlock, Type::Lock { given, .. }) => self.newlock(kind, given, now, need),
            (Word::Newrwlock, Type::Rwlock { reading, writing }) => self.newrwlock(kind, reading, writing, now, need),
            (Word::Let, _) => self.binding(kind, now, need, size),
            (Word::Call, _) => self.call(kind, now, need, size),
            (Word::If, _) => self.branch(kind, now, need, size),
            (Word::While, Type::Int) => self.repeat(kind, now, need, size),
            (Word::Spawn, Type::Int) => self.spawn(kind, now, need, size),
            (Word::Ref, Type::Ref { content, .. }) => self.new_cell(kind, content, now, need, size),
            (Word::Read, _) => self.read(kind, now, need, size),
            (Word::Write, Type::Int) => self.write(kind, now, need, size),
            (_, Type::Int) if TAKING.contains(&word) => self.take(word, kind, now, need, size),
            (_, Type::Int) if GIVING.contains(&word) => self.give(word, kind, now, need, size),
            _ => false,
        }
    }

    pub(super) fn open(&mut self, word: Word, number: u32) -> usize {
        self.draft.steps.push(Step { word, number, kind: 0, post: 0, start: None });
        self.draft.steps.len() - 1
    }

    pub(super) fn close(&mut self, step: usize, kind: usize, now: &Map) -> bool {
        let post = self.map_number(*now);
        self.draft.steps[step].kind = kind;
        self.draft.steps[step].post = post;
        true
    }

    pub(super) fn leaf(&mut self, word: Word, number: u32, kind: usize, now: &Map) -> bool {
        let step = self.open(word, number);
        self.close(step, kind, now)
    }

    fn var(&mut self, kind: usize, now: &Map) -> bool {
        let shown = self.scope.iter().filter(|known| self.shows(kind, known.1));
        let known: Vec<u32> = shown.map(|known| known.0).collect();
        !known.is_empty() && {
            let variable = self.random.pick(&known);
            self.leaf(Word::Var, variable, kind, now)
        }
    }

    fn newlock(&mut self, kind: usize, map: usize, now: &mut Map, need: &Map) -> bool {
        let price = self.lock_price(map);
        at_least(now, &sum(need, &price)) && {
            *now = difference(now, &price);
            self.leaf(Word::Newlock, 0, kind, now)
        }
    }

    fn binding(&mut self, kind: usize, now: &mut Map, need: &Map, size: usize) -> bool {
        let kept = sum(need, &self.price(kind));
        let bound = self.drawn_type(now, &kept);
        let bound_size = 1 + self.random.below((size / 2).clamp(1, 40));
        let Some(variable) = self.unbound.pop() else { return false };
        let step = self.open(Word::Let, variable);
        self.expression(bound, now, &kept, bound_size);
        self.scope.push((variable, bound));
        let used = self.draft.steps.len() - step;
        self.expression(kind, now, need, size.saturating_sub(used));
        self.scope.pop();
        self.close(step, kind, now)
    }

    fn branch(&mut self, kind: usize, now: &mut Map, need: &Map, size: usize) -> bool {
        let step = self.open(Word::If, 0);
        let before = *now;
        self.expression(kind, now, need, size / 2);
        let after_first = std::mem::replace(now, before);
        self.expression(kind, now, need, size / 2);
        *now = lower(&after_first, now);
        self.lose_something(now, need);
        self.close(step, kind, now)
    }

    fn repeat(&mut self, kind: usize, now: &mut Map, need: &Map, size: usize) -> bool {
        let step = self.open(Word::While, 0);
        self.lose_something(now, need);
        let kept = *now;
        let part = self.drawn_type(&kept, &kept);
        self.expression(part, &mut kept.clone(), &kept, size - 1);
        self.close(step, kind, &kept)
    }

    /// Now and then a branch or a loop ends with less than it could have.
    fn lose_something(&mut self, now: &mut Map, need: &Map) {
        if self.random.percent(15) {
            let location = self.random.below(self.draft.locations);
            now[location] = self.random.between(need[location], now[location]);
        }
    }

    fn spawn(&mut self, kind: usize, now: &mut Map, need: &Map, size: usize) -> bool {
        let affordable = |builder: &Self, _, kind| matches!(kind, Type::Tid(map) if at_least(now, &sum(need, &builder.draft.maps[map])));
        let Some(identifier) = self.type_where(affordable) else { return false };
        self.spawn_on(identifier, kind, now, need, size)
    }

    /// A spawn whose identifier has this type; the map held now can spare what it gives back.
    pub(super) fn spawn_on(&mut self, identifier: usize, kind: usize, now: &mut Map, need: &Map, size: usize) -> bool {
        let work = |builder: &mut Self, held: &mut Map, given_back: &Map| {
            builder.work(held, given_back, size.saturating_sub(2));
        };
        self.spawn_with(identifier, kind, now, need, &Map::default(), work)
    }

    /// A spawn whose body starts with at least `lent` above what its identifier gives back. The map held
    /// now can spare both. `body` is built from what it starts with and what it must give back.
    pub(super) fn spawn_with(
        &mut self,
        identifier: usize,
        kind: usize,
        now: &mut Map,
        need: &Map,
        lent: &Map,
        body: impl FnOnce(&mut Self, &mut Map, &Map),
    ) -> bool {
        let Type::Tid(map) = self.draft.types[identifier] else { return false };
        let given_back = self.draft.maps[map];
        let least = sum(&given_back, lent);
        let step = self.open(Word::Spawn, 0);
        self.operand(identifier, now, &sum(need, &least), 12);
        let spare = difference(now, &sum(need, &least));
        let start = sum(&least, &spare.map(|amount| self.part_of(amount)));
        body(self, &mut start.clone(), &given_back);
        if self.slip != Some(Slip::StartsForFree) {
            *now = difference(now, &start);
        }
        self.draft.steps[step].start = Some(self.map_number(start));
        self.close(step, kind, now)
    }

    /// A word that takes what its part carries.
    fn take(&mut self, word: Word, kind: usize, now: &mut Map, need: &Map, size: usize) -> bool {
        let wants_known = self.random.percent(95);
        let known =
            |builder: &Self, number, kind| moved(word, kind).is_some() && (!wants_known || builder.in_scope(number));
        let Some(part) = self.type_where(known) else { return false };
        let Some(map) = moved(word, self.draft.types[part]) else { return false };
        self.can_make(part, now, need) && self.gain(word, kind, part, map, now, need, size)
    }

    /// A word whose part carries a map that is added to what the thread holds.
    #[allow(clippy::too_many_arguments)]
    pub(super) fn gain(
        &mut self,
        word: Word,
        kind: usize,
        part: usize,
        map: usize,
        now: &mut Map,
        need: &Map,
        size: usize,
    ) -> bool {
        let carried = self.draft.maps[map];
        if sum(now, &carried).iter().any(|&number| number > WHOLE) {
            return false;
        }
        let step = self.open(word, 0);
        self.operand(part, now, need, size);
        *now = sum(now, &carried);
        self.close(step, kind, now)
    }

    /// A word that gives its part what it carries.
    fn give(&mut self, word: Word, kind: usize, now: &mut Map, need: &Map, size: usize) -> bool {
        let known = |builder: &Self, number, kind| moved(word, kind).is_some() && builder.in_scope(number);
        let Some(part) = self.type_where(known) else { return false };
        self.give_to(part, word, kind, now, need, size)
    }

    /// An unlock or a post of a thing with this type, which is in scope.
    pub(super) fn give_to(
        &mut self,
        part: usize,
        word: Word,
        kind: usize,
        now: &mut Map,
        need: &Map,
        size: usize,
    ) -> bool {
        let Some(map) = moved(word, self.draft.types[part]) else { return false };
        let for_free = word == Word::Post && self.slip == Some(Slip::PostsForFree);
        let carried = if for_free { Map::default() } else { self.draft.maps[map] };
        at_least(now, &sum(need, &carried)) && {
            let step = self.open(word, 0);
            self.operand(part, now, &sum(need, &carried), size);
            *now = difference(now, &carried);
            self.close(step, kind, now)
        }
    }

    fn new_cell(&mut self, kind: usize, content: usize, now: &mut Map, need: &Map, size: usize) -> bool {
        self.can_make(content, now, need) && {
            let step = self.open(Word::Ref, 0);
            self.expression(content, now, need, size - 1);
            self.close(step, kind, now)
        }
    }

    fn read(&mut self, kind: usize, now: &mut Map, need: &Map, size: usize) -> bool {
        let wants_known = self.random.percent(85);
        let readable = |builder: &Self, number, cell| {
            matches!(cell, Type::Ref { location, content } if content == kind && now[location] > 0)
                && (!wants_known || builder.in_scope(number))
        };
        let Some(cell) = self.type_where(readable) else { return false };
        let Type::Ref { location, .. } = self.draft.types[cell] else { return false };
        let mut kept = *need;
        kept[location] = kept[location].max(1);
        self.can_make(cell, now, &kept) && {
            let step = self.open(Word::Read, 0);
            self.operand(cell, now, &kept, size);
            self.close(step, kind, now)
        }
    }

    fn write(&mut self, kind: usize, now: &mut Map, need: &Map, size: usize) -> bool {
        let whole = self.draft.whole;
        let by_first_map = self.slip == Some(Slip::WritesByFirstMap);
        let held = if by_first_map { self.draft.maps[0] } else { *now };
        let wants_known = self.random.percent(85);
        let writable = |builder: &Self, number, cell| {
            matches!(cell, Type::Ref { location, .. } if held[location] >= whole)
                && (!wants_known || builder.in_scope(number))
        };
        let Some(cell) = self.type_where(writable) else { return false };
        let Type::Ref { location, content } = self.draft.types[cell] else { return false };
        let mut kept = *need;
        if !by_first_map {
            kept[location] = kept[location].max(whole);
        }
        let kept_for_value = sum(&kept, &self.price(content));
        self.can_make(cell, now, &kept_for_value) && {
            let step = self.open(Word::Write, 0);
            self.operand(cell, now, &kept_for_value, size);
            self.expression(content, now, &kept, size / 2);
            self.close(step, kind, now)
        }
    }

    /// A part that is most often short: a variable or a new thing.
    pub(super) fn operand(&mut self, kind: usize, now: &mut Map, need: &Map, size: usize) {
        let size = if self.random.percent(80) { 1 } else { size.min(12).saturating_sub(1) };
        self.expression(kind, now, need, size);
    }
}

/// Words that take what their part carries, and words that give it back.
pub(super) const TAKING: [Word; 5] = [Word::Join, Word::Lock, Word::Wait, Word::Rdlock, Word::Wrlock];
const GIVING: [Word; 4] = [Word::Unlock, Word::Post, Word::Rdunlock, Word::Wrunlock];

/// The map that a word takes or gives when its part has this type, if it may have it.
pub(super) fn moved(word: Word, part: Type) -> Option<usize> {
    match (word, part) {
        (Word::Join, Type::Tid(map)) => Some(map),
        (Word::Lock, Type::Lock { taken, .. }) => Some(taken),
        (Word::Unlock, Type::Lock { given, .. }) => Some(given),
        (Word::Wait | Word::Post, Type::Sem(map)) => Some(map),
        (Word::Rdlock | Word::Rdunlock, Type::Rwlock { reading, .. }) => Some(reading),
        (Word::Wrlock | Word::Wrunlock, Type::Rwlock { writing, .. }) => Some(writing),
        _ => None,
    }
}
