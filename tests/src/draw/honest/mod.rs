//! Honest pairs: a program typed by construction, with its split worked out along the way.
//!
//! The builder carries the map held `now` by the thread and the map that it will `need` at the end
//! of the expression being built. It only takes a word that leaves at least that much, so every
//! condition of Figure 5 holds of what it builds.

mod around;
pub mod concurrent;
mod idioms;
mod loads;
pub mod procedures;
mod readers;
mod steps;

use super::draft::{at_least, sum, Draft, Heading, Map};
use super::random::Random;
use crate::answer::{STEPS, VARIABLES, WHOLE};
use crate::types::Type;
use crate::words::Word;

/// A mistake of document 01's "Bugs we expect", or one like them. A builder that makes it builds what a
/// checker with that mistake would accept.
#[derive(Clone, Copy, Debug, PartialEq, Eq)]
pub enum Slip {
    /// A new lock takes nothing from the thread.
    LocksForFree,
    /// A spawned body's start is not taken from the parent.
    StartsForFree,
    /// A write is tested against map 0.
    WritesByFirstMap,
    /// A post takes nothing from the thread.
    PostsForFree,
    /// A variable may show a lock that takes back less, as section 3.1.6 prints it.
    PrintedInequality,
    /// A new read-write lock has one reading place more than its maps allow.
    PlacesForFree,
    /// A procedure's body starts with all that the program starts with.
    BodiesForFree,
}

pub struct Builder<'r> {
    pub random: &'r mut Random,
    pub draft: Draft,
    /// The variables in scope, each with its type.
    pub(super) scope: Vec<(u32, usize)>,
    /// The variables that no `let` has yet, the next one last.
    pub(super) unbound: Vec<u32>,
    /// A number grew past what a map can hold: the draft is to be dropped.
    spoiled: bool,
    /// None in an honest builder.
    pub(super) slip: Option<Slip>,
}

/// How many maps the builder may use before it stops taking words that move capabilities.
pub(super) const MAPS_IN_USE: usize = 420;

/// An honest draft of about `size` steps over `locations` locations, a share being 1/`whole`.
pub fn draft(random: &mut Random, size: usize, locations: usize, whole: u32) -> Draft {
    loop {
        let mut builder = Builder::new(random, locations, whole);
        let mut now = builder.draft.maps[0];
        let kind = builder.drawn_type(&now, &Map::default());
        builder.expression(kind, &mut now, &Map::default(), size);
        if let Some(draft) = builder.finished() {
            return draft;
        }
    }
}

impl<'r> Builder<'r> {
    /// A builder with drawn types and a drawn map 0, for a `C` sheet or now and then for a `C3` sheet.
    pub fn new(random: &'r mut Random, locations: usize, whole: u32) -> Builder<'r> {
        let mut builder = Builder::bare(random, locations, whole);
        if builder.random.percent(25) {
            builder.draft.heading = Heading::C3 { start: 0 };
        }
        builder.draw_first_map();
        builder.draw_types();
        builder
    }

    /// A builder without types or maps.
    pub fn bare(random: &'r mut Random, locations: usize, whole: u32) -> Builder<'r> {
        let first = random.between(0, VARIABLES - 1);
        let unbound = (0..VARIABLES).map(|place| (first + 37 * place) % VARIABLES).collect();
        let (types, maps, steps) = (Vec::new(), Vec::new(), Vec::new());
        let draft = Draft { heading: Heading::C, whole, locations, types, maps, steps, procedures: None };
        Builder { random, draft, scope: Vec::new(), unbound, spoiled: false, slip: None }
    }

    /// The draft, if it kept within the limits.
    pub fn finished(self) -> Option<Draft> {
        let within = !self.spoiled && self.draft.steps.len() <= STEPS as usize;
        within.then_some(self.draft)
    }

    fn draw_first_map(&mut self) {
        let mut map = Map::default();
        map[..self.draft.locations].fill(self.draft.whole);
        if self.random.percent(20) {
            map[self.random.below(self.draft.locations)] = self.random.between(0, self.draft.whole);
        }
        self.draft.add_map(map);
    }

    fn draw_types(&mut self) {
        let wanted = 2 + self.random.below(8);
        let int = if self.random.percent(70) { 0 } else { self.random.below(wanted) };
        for own in 0..wanted {
            let kind = if own == int { Type::Int } else { self.new_type() };
            self.draft.types.push(kind);
        }
    }

    fn new_type(&mut self) -> Type {
        let known = self.draft.types.len();
        match self.random.below(14) {
            0..=3 if known > 0 => {
                let content = if self.random.percent(60) { 0 } else { self.random.below(known) };
                Type::Ref { location: self.random.below(self.draft.locations), content }
            }
            4..=6 => self.new_lock(),
            7..=8 => Type::Tid(self.drawn_share()),
            9..=10 => Type::Sem(self.drawn_share()),
            11..=12 => self.new_rwlock(),
            _ => Type::Int,
        }
    }

    /// A map for a lock, an identifier or a semaphore to carry: something of a few locations, or nothing.
    pub(super) fn drawn_share(&mut self) -> usize {
        let mut map = Map::default();
        for _ in 0..self.random.below(3) {
            let location = self.random.below(self.draft.locations);
            map[location] = self.part_of(self.draft.whole);
        }
        self.map_number(map)
    }

    /// All, half, some or none of an amount.
    pub(super) fn part_of(&mut self, amount: u32) -> u32 {
        match self.random.below(5) {
            0 | 1 => amount,
            2 => amount / 2,
            3 => self.random.between(0, amount),
            _ => 0,
        }
    }

    /// The number of a map. Now and then an equal map gets a second number, for maps are compared
    /// by what they hold.
    pub(super) fn map_number(&mut self, map: Map) -> usize {
        self.spoiled |= map.iter().any(|&number| number > WHOLE);
        if self.random.percent(8) && self.draft.maps.len() < MAPS_IN_USE {
            return self.draft.add_map(map);
        }
        self.draft.number_of(map)
    }

    /// A type that can be made here, most often int.
    pub fn drawn_type(&mut self, now: &Map, need: &Map) -> usize {
        for _ in 0..6 {
            let kind = self.random.below(self.draft.types.len());
            let is_int = self.draft.types[kind] == Type::Int;
            if (is_int || self.random.percent(60)) && self.can_make(kind, now, need) {
                return kind;
            }
        }
        self.int_type()
    }

    pub(super) fn int_type(&mut self) -> usize {
        self.type_where(|_, _, kind| kind == Type::Int).expect("there is an int type")
    }

    /// A type drawn among those that meet a test on its number and its line.
    pub(super) fn type_where(&mut self, meets: impl Fn(&Self, usize, Type) -> bool) -> Option<usize> {
        self.types_in_turn().find(|&number| meets(self, number, self.draft.types[number]))
    }

    /// The numbers of all types, from a drawn one on.
    fn types_in_turn(&mut self) -> impl Iterator<Item = usize> {
        let count = self.draft.types.len();
        let first = self.random.below(count);
        (0..count).map(move |place| (first + place) % count)
    }

    /// Whether some variable in scope may be shown with this type.
    pub(super) fn in_scope(&self, kind: usize) -> bool {
        self.scope.iter().any(|&(_, known)| self.shows(kind, known))
    }

    pub(super) fn shows(&self, shown: usize, bound: usize) -> bool {
        if shown == bound {
            return true;
        }
        let loads = (self.draft.types[shown], self.draft.types[bound]);
        match loads {
            (Type::Lock { taken, given }, Type::Lock { taken: known_taken, given: known_given })
                if self.slip == Some(Slip::PrintedInequality) =>
            {
                let maps = &self.draft.maps;
                at_least(&maps[known_taken], &maps[taken]) && at_least(&maps[known_given], &maps[given])
            }
            _ => self.draft.shows(shown, bound),
        }
    }

    /// What a plain expression of this type takes from the map: a new lock takes what it carries.
    pub(super) fn price(&self, kind: usize) -> Map {
        match self.draft.types[kind] {
            _ if self.in_scope(kind) => Map::default(),
            Type::Lock { given, .. } => self.lock_price(given),
            Type::Rwlock { writing, .. } => self.draft.maps[writing],
            Type::Ref { content, .. } => self.price(content),
            Type::Int | Type::Tid(_) | Type::Sem(_) => Map::default(),
        }
    }

    /// What a new lock that carries this map takes.
    pub(super) fn lock_price(&self, map: usize) -> Map {
        if self.slip == Some(Slip::LocksForFree) {
            Map::default()
        } else {
            self.draft.maps[map]
        }
    }

    pub(super) fn can_make(&self, kind: usize, now: &Map, need: &Map) -> bool {
        at_least(now, &sum(need, &self.price(kind)))
    }

    /// An expression of this type, which can be made here, of about `size` steps.
    pub fn expression(&mut self, kind: usize, now: &mut Map, need: &Map, size: usize) {
        let is_int = self.draft.types[kind] == Type::Int;
        if is_int && size >= 8 && self.random.percent(15) && self.idiom(kind, now, need, size) {
            return;
        }
        let has_procedures = !self.draft.procedures().is_empty();
        if has_procedures && size >= 2 && self.random.percent(25) && self.call(kind, now, need, size) {
            return;
        }
        let tries = if size >= 3 { 4 } else { 0 };
        for _ in 0..tries {
            let word = self.drawn_word(kind, size);
            if self.step(word, kind, now, need, size) {
                return;
            }
        }
        self.plain(kind, now, need);
    }

    fn drawn_word(&mut self, kind: usize, size: usize) -> Word {
        use Word::*;
        match self.draft.types[kind] {
            Type::Int if size > 12 => {
                self.random.pick(&[Let, Let, Let, Let, Let, Let, Let, Let, Let, Let, If, While, Spawn, Spawn])
            }
            _ if size > 12 => self.random.pick(&[Let, Let, Let, If]),
            Type::Int => self.random.pick(&[
                Let, Let, Let, If, While, Spawn, Spawn, Join, Read, Read, Write, Write, Write, Lock, Lock, Unlock,
                Unlock, Post, Post, Wait, Wait, Rdlock, Rdlock, Rdunlock, Rdunlock, Wrlock, Wrunlock, Int, Var,
            ]),
            Type::Ref { .. } => self.random.pick(&[Let, Let, If, Ref, Ref, Read, Var]),
            Type::Lock { .. } => self.random.pick(&[Let, If, Newlock, Newlock, Read, Var]),
            Type::Tid(_) => self.random.pick(&[Let, If, Newtid, Newtid, Read, Var]),
            Type::Sem(_) => self.random.pick(&[Let, If, Newsem, Newsem, Read, Var]),
            Type::Rwlock { .. } => self.random.pick(&[Let, If, Newrwlock, Newrwlock, Read, Var]),
        }
    }

    /// The shortest way to a value of this type.
    fn plain(&mut self, kind: usize, now: &mut Map, need: &Map) {
        if self.random.percent(94) && self.step(Word::Var, kind, now, need, 1) {
            return;
        }
        let maker = self.draft.types[kind].maker();
        if !self.step(maker, kind, now, need, 1) {
            self.step(Word::Var, kind, now, need, 1);
        }
    }
}
