//! Drafts whose conditions on types hold, and whose maps nobody worked out: some can be filled in, some not.

use crate::answer::{LOCATIONS, PLACES, STEPS};
use crate::draw::draft::{Draft, Heading, Map, Procedure, Step};
use crate::draw::random::Random;
use crate::types::Type;
use crate::words::Word;

/// A draft of drawn size.
pub fn draft(random: &mut Random) -> Draft {
    let size = match random.below(10) {
        0..=5 => 2 + random.below(14),
        6..=8 => 10 + random.below(60),
        _ => 200,
    };
    let locations = if random.percent(80) { 1 + random.below(3) } else { 1 + random.below(LOCATIONS as usize) };
    let whole = random.pick(&[1, 2, 4, 1_000, 1_000_000]);
    let loads = [0, 0, 0, 0, 1, whole / 2, whole];
    sized(random, size, locations, whole, &loads)
}

/// A draft of about `size` steps, with these numbers in the maps that types carry and bodies start with.
pub fn sized(random: &mut Random, size: usize, locations: usize, whole: u32, loads: &[u32]) -> Draft {
    loop {
        let mut typed = Typed::new(random, locations, whole, loads);
        if typed.random.percent(35) {
            typed.procedures(size);
        }
        let kind = if typed.random.percent(80) { 0 } else { typed.random.below(typed.draft.types.len()) };
        typed.expression(kind, size);
        if typed.draft.steps.len() <= STEPS as usize {
            return typed.draft;
        }
    }
}

struct Typed<'r> {
    random: &'r mut Random,
    draft: Draft,
    /// The variables in scope, each with its type.
    scope: Vec<(u32, usize)>,
    /// How many variables are bound.
    bound: u32,
}

/// The kinds of the types, in their order; every draft has all of them.
const KINDS: [fn(usize) -> Type; 9] = [
    |_| Type::Int,
    |location| Type::Ref { location, content: 0 },
    Type::Tid,
    Type::Tid,
    Type::lock,
    Type::lock,
    Type::Sem,
    |location| Type::Ref { location, content: 4 },
    |map| Type::Rwlock { reading: map, writing: map },
];

impl<'r> Typed<'r> {
    fn new(random: &'r mut Random, locations: usize, whole: u32, loads: &[u32]) -> Typed<'r> {
        let mut start = Map::default();
        start[..locations].fill_with(|| if random.percent(80) { whole } else { random.between(0, whole) });
        let mut maps = vec![start];
        for _ in 0..4 {
            let mut map = Map::default();
            map[..locations].fill_with(|| random.pick(loads));
            maps.push(map);
        }
        random.shuffle(&mut maps);
        let first = maps.iter().position(|map| *map == start).expect("the start is one of them");
        let mut types = Vec::new();
        for kind in KINDS {
            let below = if matches!(kind(0), Type::Ref { .. }) { locations } else { maps.len() };
            types.push(kind(random.below(below)));
        }
        let (heading, steps) = (Heading::C2 { start: first }, Vec::new());
        let draft = Draft { heading, whole, locations, types, maps, steps, procedures: None };
        let mut typed = Typed { random, draft, scope: Vec::new(), bound: 0 };
        typed.part_read_write_locks();
        if typed.random.percent(50) {
            typed.draft.heading = Heading::C3 { start: first };
            typed.loosen_locks();
        }
        typed
    }

    /// Gives read-write locks a reading share of their own.
    fn part_read_write_locks(&mut self) {
        let share = self.random.below(self.draft.maps.len());
        for kind in &mut self.draft.types {
            if let Type::Rwlock { reading, .. } = kind {
                *reading = share;
            }
        }
    }

    /// Gives each lock two loads. Most often the one that is taken back is at least the other, and the locks
    /// are looser one than the other.
    fn loosen_locks(&mut self) {
        let mut known = self.random.below(self.draft.maps.len());
        for kind in 0..self.draft.types.len() {
            let Type::Lock { taken, .. } = self.draft.types[kind] else { continue };
            let mut map = self.draft.maps[known];
            if self.random.percent(98) {
                map = std::array::from_fn(|location| map[location].max(self.draft.maps[taken][location]));
            }
            known = self.draft.number_of(map);
            self.draft.types[kind] = Type::Lock { taken, given: known };
        }
    }

    fn push(&mut self, word: Word, number: u32, kind: usize) {
        let is_start = word == Word::Call || word == Word::Spawn && self.random.percent(60);
        let start = is_start.then(|| self.random.below(self.draft.maps.len()));
        self.draft.steps.push(Step { word, number, kind, post: 0, start });
    }

    /// One procedure or two, with any maps; what they start and end with is most often nothing.
    fn procedures(&mut self, size: usize) {
        let nothing = self.draft.number_of(Map::default());
        let count = 1 + self.random.below(2);
        let mut planned = Vec::new();
        for _ in 0..count {
            let (types, maps) = (self.draft.types.len(), self.draft.maps.len());
            let [before, after] = [(); 2].map(|()| self.random.pick(&[nothing, nothing, self.draft.start()]));
            let before = if self.random.percent(20) { self.random.below(maps) } else { before };
            let result = if self.random.percent(60) { 0 } else { self.random.below(types) };
            let argument = self.random.below(types);
            planned.push(Procedure { variable: self.bound, body: 0, before, argument, after, result });
            self.bound += 1;
        }
        self.draft.procedures = Some(planned.clone());
        for (own, Procedure { variable, argument, result, .. }) in planned.into_iter().enumerate() {
            let body = self.draft.steps.len();
            self.draft.procedures.iter_mut().flatten().nth(own).expect("it was planned").body = body;
            self.scope = vec![(variable, argument)];
            let size = self.random.below(size.min(12));
            self.expression(result, size);
            self.scope.clear();
        }
    }

    /// A call of a procedure that gives this type, if there is one.
    fn call(&mut self, kind: usize, size: usize) -> bool {
        let of = self.draft.procedures();
        let meant: Vec<usize> = (0..of.len()).filter(|&own| self.draft.agree(of[own].result, kind)).collect();
        !meant.is_empty() && {
            let own = self.random.pick(&meant);
            let argument = self.draft.procedures()[own].argument;
            self.push(Word::Call, own as u32, kind);
            self.expression(argument, size.min(3) - 1);
            true
        }
    }

    /// A type drawn among those that meet a test.
    fn kind_where(&mut self, meets: impl Fn(Type) -> bool) -> usize {
        let kinds: Vec<usize> = (0..self.draft.types.len()).filter(|&kind| meets(self.draft.types[kind])).collect();
        self.random.pick(&kinds)
    }

    /// An expression of this type, of about `size` steps.
    fn expression(&mut self, kind: usize, size: usize) {
        use Word::*;
        let has_procedures = !self.draft.procedures().is_empty();
        if has_procedures && size > 1 && self.random.percent(25) && self.call(kind, size) {
            return;
        }
        let words: &[Word] = match (size, self.draft.types[kind]) {
            (0..=1, _) => &[],
            (_, Type::Int) => &[
                Let, Let, Let, Let, Let, Let, If, While, Spawn, Spawn, Join, Read, Write, Lock, Unlock, Rdlock,
                Rdunlock, Wrlock, Wrunlock, Post, Wait,
            ],
            _ => &[Let, Let, If],
        };
        match words {
            [] => self.value(kind),
            _ => {
                let word = self.random.pick(words);
                self.step(word, kind, size - 1);
            }
        }
    }

    fn step(&mut self, word: Word, kind: usize, size: usize) {
        let any = self.random.below(self.draft.types.len());
        let first = self.random.below(size + 1);
        match word {
            Word::Let => self.binding(kind, any, size),
            Word::If => self.parts(word, kind, &[(kind, first), (kind, size - first)]),
            Word::While => self.parts(word, kind, &[(any, size)]),
            Word::Spawn => {
                let tid = self.kind_where(|kind| matches!(kind, Type::Tid(_)));
                self.parts(word, kind, &[(tid, 1), (any, size)]);
            }
            Word::Read | Word::Write => {
                let cell = self.kind_where(|kind| matches!(kind, Type::Ref { content: 0, .. }));
                let value = if word == Word::Read { &[][..] } else { &[(0, size - first)] };
                self.parts(word, kind, &[&[(cell, first)], value].concat());
            }
            _ => {
                let wanted = self.kind_where(|kind| match word {
                    Word::Join => matches!(kind, Type::Tid(_)),
                    Word::Post | Word::Wait => matches!(kind, Type::Sem(_)),
                    Word::Rdlock | Word::Rdunlock | Word::Wrlock | Word::Wrunlock => {
                        matches!(kind, Type::Rwlock { .. })
                    }
                    _ => matches!(kind, Type::Lock { .. }),
                });
                self.parts(word, kind, &[(wanted, size)]);
            }
        }
    }

    fn parts(&mut self, word: Word, kind: usize, parts: &[(usize, usize)]) {
        self.push(word, 0, kind);
        for &(kind, size) in parts {
            self.expression(kind, size);
        }
    }

    fn binding(&mut self, kind: usize, bound: usize, size: usize) {
        if self.bound == 256 {
            return self.value(kind);
        }
        let variable = self.bound;
        self.bound += 1;
        self.push(Word::Let, variable, kind);
        let first = self.random.below(size.min(8) + 1);
        self.expression(bound, first);
        self.scope.push((variable, bound));
        self.expression(kind, size - first);
        self.scope.pop();
    }

    /// A variable of this type, or a new thing.
    fn value(&mut self, kind: usize) {
        let shown = |known: &&(u32, usize)| self.draft.shows(kind, known.1);
        let known: Vec<u32> = self.scope.iter().filter(shown).map(|known| known.0).collect();
        if !known.is_empty() && self.random.percent(70) {
            let variable = self.random.pick(&known);
            return self.push(Word::Var, variable, kind);
        }
        let maker = self.draft.types[kind].maker();
        match self.draft.types[kind] {
            Type::Rwlock { reading, writing } => {
                let most = self.draft.places(reading, writing).clamp(1, PLACES - 1);
                let places = self.random.pick(&[1, most, most, most + 1]);
                self.push(maker, places, kind);
            }
            Type::Ref { content, .. } => {
                self.push(maker, 0, kind);
                self.value(content);
            }
            _ => self.push(maker, 0, kind),
        }
    }
}
