//! Pairs whose first false condition is a given one.
//!
//! The sabotaged step is the e1 of a `let`, whose own conditions look only at e2. So no line above
//! the step notices a change to its type or its map, and the step's own condition is the first to
//! fail.

use super::draft::{Draft, Map, Step};
use super::headings::often_written_out;
use super::honest::Builder;
use super::random::Random;
use crate::answer::{PLACES, WHOLE};
use crate::types::Type;
use crate::words::Word;

/// A draft whose first false condition is this one of this word.
pub fn breaking(random: &mut Random, word: Word, condition: u32) -> Draft {
    loop {
        if let Some(draft) = attempt(random, word, condition) {
            return often_written_out(random, draft);
        }
    }
}

/// An honest draft with the word as a `let`'s e1, and then the sabotage.
fn attempt(random: &mut Random, word: Word, condition: u32) -> Option<Draft> {
    let (locations, whole) = (1 + random.below(4), random.pick(&[1, 2, 6, 1000, 999_999, WHOLE - 1]));
    let size = random.pick(&[4, 8, 30]);
    let mut builder = Builder::new(random, locations, whole);
    if matches!(word, Word::Call | Word::Proc) {
        let count = 1 + builder.random.below(4);
        builder.procedures(count, 2 + size / 2);
    }
    let mut now = builder.draft.maps[0];
    let kind = builder.drawn_type(&now, &Map::default());
    let above = builder.random.below(4);
    let around = if word == Word::Proc { Word::Int } else { word };
    let target = builder.chain_around(around, above, kind, &mut now, size)?;
    let draft = builder.finished()?;
    if word == Word::Proc {
        return Sabotage { random, draft, step: target.step, pre: target.pre }.procedure(condition);
    }
    Sabotage { random, draft, step: target.step, pre: target.pre }.condition(condition)
}

/// Where the sabotage goes, with the map before it.
pub struct Target {
    pub step: usize,
    pub pre: Map,
}

struct Sabotage<'r> {
    random: &'r mut Random,
    draft: Draft,
    step: usize,
    pre: Map,
}

impl Sabotage<'_> {
    /// Makes one condition of the step false and leaves the ones before it true. None when the
    /// draft does not lend itself to it.
    fn condition(mut self, condition: u32) -> Option<Draft> {
        use Word::*;
        let (own, e1) = (self.step, self.step + 1);
        match (self.draft.steps[own].word, condition) {
            (Var, 1) => self.other_shown(own),
            (Let | If, 1) | (Read, 2) => self.other_type(own),
            (Ref, 1) if self.random.percent(50) => self.other_content(own),
            (If, 2) | (Write, 3) => self.other_type(self.draft.second_of(own)),
            (Call, 1) => self.other_type(own),
            (Call, 2) => self.other_type(e1),
            (Call, 3) => self.other_post(e1),
            (Call, 4) => self.other_post(own),
            (Var | Int | Let | Newtid | Ref | Newlock | Newsem, 2) => self.other_post(own),
            (Read | Newrwlock, 3) | (Write | Spawn, 4) => self.other_post(own),
            (Newrwlock, 2) => self.too_many_places(),
            (If, 3) => self.post_over(self.post(e1)),
            (If, 4) => self.post_over_second(),
            (While, 2) => self.post_over(self.pre),
            (While, 3) => self.post_under(e1, self.post(own)),
            (Spawn, 3) => self.body_under_identifier(),
            (Read, 1) => self.other_kind(e1),
            (Read, 4) => self.access_under(e1, e1, 1),
            (Write, 5) => self.access_under(e1, self.draft.second_of(own), self.draft.whole),
            // What is left are words of int type or new things, and then words whose part moves a map.
            (_, 1) => self.other_kind(own),
            (_, 2) => self.other_kind(e1),
            (_, 3) => self.other_post(own),
            _ => None,
        }?;
        Some(self.draft)
    }

    /// Makes one condition of a `proc` line false.
    fn procedure(mut self, condition: u32) -> Option<Draft> {
        let own = self.random.below(self.draft.procedures().len());
        let procedure = self.draft.procedures()[own];
        match condition {
            1 => self.other_type(procedure.body),
            _ => self.post_under(procedure.body, self.draft.maps[procedure.after]),
        }?;
        Some(self.draft)
    }

    fn post(&self, step: usize) -> Map {
        self.draft.maps[self.draft.steps[step].post]
    }

    fn set_post(&mut self, step: usize, map: Map) -> Option<()> {
        if map.iter().any(|&number| number > WHOLE) {
            return None;
        }
        self.draft.steps[step].post = self.draft.number_of(map);
        Some(())
    }

    /// A type that does not agree with the step's: any other one, or a near miss.
    fn other_type(&mut self, step: usize) -> Option<()> {
        let known = self.draft.steps[step].kind;
        let drawn = self.random.below(self.draft.types.len());
        let kind = if self.random.percent(50) { self.near_miss(known) } else { drawn };
        self.draft.steps[step].kind = kind;
        (!self.draft.agree(known, kind)).then_some(())
    }

    /// A type that the variable's own may not be shown with: any other one, or a near miss.
    fn other_shown(&mut self, step: usize) -> Option<()> {
        let variable = self.draft.steps[step].number;
        let binds = |step: &Step| step.word == Word::Let && step.number == variable;
        let bound = self.draft.steps[self.draft.steps.iter().position(binds)? + 1].kind;
        let drawn = self.random.below(self.draft.types.len());
        let kind = if self.random.percent(50) { self.near_miss(bound) } else { drawn };
        self.draft.steps[step].kind = kind;
        (!self.draft.shows(kind, bound)).then_some(())
    }

    /// The step's cell type with a content that does not agree.
    fn other_content(&mut self, step: usize) -> Option<()> {
        let Type::Ref { location, content } = self.draft.types[self.draft.steps[step].kind] else { return None };
        let content = self.near_miss(content);
        self.draft.steps[step].kind = self.draft.add_type(Type::Ref { location, content });
        Some(())
    }

    /// A new type that differs from a known one in a single spot, as far inside as there is one: a map
    /// at its last location alone, a cell's location, or what the last content is.
    fn near_miss(&mut self, known: usize) -> usize {
        let kind = match self.draft.types[known] {
            Type::Int => Type::Tid(0),
            Type::Lock { taken, given } => self.near_lock(taken, given),
            Type::Tid(map) => Type::Tid(self.near_map(map)),
            Type::Sem(map) => Type::Sem(self.near_map(map)),
            Type::Rwlock { reading, writing } if self.random.percent(50) => {
                Type::Rwlock { reading: self.near_map(reading), writing }
            }
            Type::Rwlock { reading, writing } => Type::Rwlock { reading, writing: self.near_map(writing) },
            Type::Ref { location, content } if self.draft.locations > 1 && self.random.percent(40) => {
                Type::Ref { location: (location + 1) % self.draft.locations, content }
            }
            Type::Ref { location, content } => Type::Ref { location, content: self.near_miss(content) },
        };
        self.draft.add_type(kind)
    }

    /// A lock that differs in one load alone, where there are two: one more or one less at the last
    /// location, as long as it takes back no less than it gives.
    fn near_lock(&mut self, taken: usize, given: usize) -> Type {
        if !self.draft.has_two_loads() {
            return Type::lock(self.near_map(taken));
        }
        let last = self.draft.locations - 1;
        let (mut least, mut most) = (self.draft.maps[taken], self.draft.maps[given]);
        let apart = least[last] < most[last];
        match self.random.below(4) {
            0 if apart => least[last] += 1,
            1 if apart => most[last] -= 1,
            2 if least[last] > 0 => least[last] -= 1,
            _ => most[last] = (most[last] + 1).min(WHOLE),
        }
        Type::Lock { taken: self.draft.add_map(least), given: self.draft.add_map(most) }
    }

    /// A new read-write lock with one reading place too many, or with so much for each reader that 32 bits
    /// do not hold what all of them get.
    fn too_many_places(&mut self) -> Option<()> {
        let Type::Rwlock { reading, writing } = self.draft.types[self.draft.steps[self.step].kind] else { return None };
        let most = self.draft.places(reading, writing);
        if most < PLACES && self.random.percent(70) {
            self.draft.steps[self.step].number = most + 1;
            return Some(());
        }
        let mut map = self.draft.maps[reading];
        map[self.random.below(self.draft.locations)] = (1 << 26) * self.random.between(1, 14);
        let reading = self.draft.add_map(map);
        self.draft.steps[self.step].number = PLACES;
        self.draft.steps[self.step].kind = self.draft.add_type(Type::Rwlock { reading, writing });
        Some(())
    }

    /// A map that differs from a known one at the last location alone, by 1.
    fn near_map(&mut self, known: usize) -> usize {
        let mut map = self.draft.maps[known];
        let last = &mut map[self.draft.locations - 1];
        *last = if *last == WHOLE { WHOLE - 1 } else { *last + 1 };
        self.draft.add_map(map)
    }

    /// A type of another kind. A new type at the end serves when there is none.
    fn other_kind(&mut self, step: usize) -> Option<()> {
        let known = self.draft.types[self.draft.steps[step].kind];
        let other = self.random.below(self.draft.types.len());
        if std::mem::discriminant(&known) != std::mem::discriminant(&self.draft.types[other]) {
            self.draft.steps[step].kind = other;
            return Some(());
        }
        self.draft.steps[step].kind = self.draft.add_type(if known == Type::Int { Type::Tid(0) } else { Type::Int });
        Some(())
    }

    /// A post that differs in one location or two.
    fn other_post(&mut self, step: usize) -> Option<()> {
        let mut map = self.post(step);
        for _ in 0..1 + self.random.below(2) {
            let location = self.random.below(self.draft.locations);
            map[location] = self.nudged(map[location]);
        }
        let differs = map != self.post(step);
        self.set_post(step, map)?;
        differs.then_some(())
    }

    fn nudged(&mut self, number: u32) -> u32 {
        match self.random.below(3) {
            0 => number + 1,
            1 => number.saturating_sub(1),
            _ => self.random.between(0, self.draft.whole),
        }
    }

    /// The step's post goes over a map in one location.
    fn post_over(&mut self, bound: Map) -> Option<()> {
        let location = self.random.below(self.draft.locations);
        let mut map = self.post(self.step);
        map[location] = bound[location] + 1;
        self.set_post(self.step, map)
    }

    /// The step's post goes over the second part's, and the first part's goes along with it.
    fn post_over_second(&mut self) -> Option<()> {
        let location = self.random.below(self.draft.locations);
        let second = self.post(self.draft.second_of(self.step));
        let (mut own, mut first) = (self.post(self.step), self.post(self.step + 1));
        own[location] = second[location] + 1;
        first[location] = first[location].max(own[location]);
        self.set_post(self.step, own)?;
        self.set_post(self.step + 1, first)
    }

    /// A part's post goes under a bound in one location where the bound is not 0.
    fn post_under(&mut self, part: usize, bound: Map) -> Option<()> {
        let location = self.random.below(self.draft.locations);
        let mut map = self.post(part);
        map[location] = bound[location].checked_sub(1)?;
        self.set_post(part, map)
    }

    fn body_under_identifier(&mut self) -> Option<()> {
        let kind = self.draft.steps[self.step + 1].kind;
        let Type::Tid(map) = self.draft.types[kind] else { return None };
        self.post_under(self.draft.second_of(self.step), self.draft.maps[map])
    }

    /// The step and its last part end with less of the cell's location than the access wants.
    fn access_under(&mut self, cell: usize, last: usize, wanted: u32) -> Option<()> {
        let Type::Ref { location, .. } = self.draft.types[self.draft.steps[cell].kind] else { return None };
        let mut map = self.post(self.step);
        map[location] = self.random.between(0, wanted - 1);
        self.set_post(self.step, map)?;
        self.set_post(last, map)
    }
}
