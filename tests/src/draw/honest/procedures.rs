//! Procedures of an honest pair. Their lines are drawn before any body is built, so that a body may call
//! its own procedure or any other.

use super::steps::{moved, TAKING};
use super::{Builder, Slip, MAPS_IN_USE};
use crate::answer::WHOLE;
use crate::draw::draft::{difference, sum, Draft, Map, Procedure};
use crate::draw::random::Random;
use crate::types::Type;
use crate::words::Word;

/// An honest draft with procedures, of about `size` steps in each body and in the root.
pub fn draft(random: &mut Random, count: usize, size: usize, locations: usize, whole: u32) -> Draft {
    loop {
        let mut builder = Builder::new(random, locations, whole);
        builder.procedures(count, size);
        let mut now = builder.draft.maps[0];
        let kind = builder.drawn_type(&now, &Map::default());
        let size = 1 + builder.random.below(2 * size);
        builder.expression(kind, &mut now, &Map::default(), size);
        if let Some(draft) = builder.finished() {
            return draft;
        }
    }
}

/// What is missing of a map, location by location.
fn missing(wanted: &Map, held: &Map) -> Map {
    std::array::from_fn(|location| wanted[location].saturating_sub(held[location]))
}

impl Builder<'_> {
    /// Draws the lines of so many procedures and builds their bodies.
    pub fn procedures(&mut self, count: usize, size: usize) {
        self.draft.procedures = Some(Vec::new());
        let mut planned = Vec::new();
        for _ in 0..count {
            planned.push(self.plan());
        }
        self.draft.procedures = Some(planned.iter().map(|(procedure, _)| *procedure).collect());
        for (own, (procedure, taking)) in planned.into_iter().enumerate() {
            let body = self.draft.steps.len();
            self.draft.procedures.iter_mut().flatten().nth(own).expect("it was planned").body = body;
            let size = 1 + self.random.below(size);
            self.body(procedure, taking, size);
        }
    }

    /// A procedure's line, and the word that its body begins with if it is to end with more than it starts.
    fn plan(&mut self) -> (Procedure, Option<Word>) {
        let variable = self.unbound.pop().expect("there are more variables than lets");
        if self.slip == Some(Slip::BodiesForFree) {
            return (self.for_free(variable), None);
        }
        let looser = self.looser_lock();
        let argument = looser.map_or_else(|| self.random.below(self.draft.types.len()), |(bound, _)| bound);
        let before = self.drawn_before();
        let start = self.draft.maps[before];
        self.scope.push((variable, argument));
        let taking = self.random.percent(40).then(|| self.taking(argument, &start)).flatten();
        let (result, most) = match taking {
            Some((_, carried)) => (self.int_type(), sum(&start, &self.draft.maps[carried])),
            None => {
                let drawn = self.drawn_type(&start, &Map::default());
                let result = looser.map_or(drawn, |(_, shown)| shown);
                (result, difference(&start, &self.price(result)))
            }
        };
        self.scope.pop();
        let after = if self.random.percent(40) { most } else { most.map(|amount| self.part_of(amount)) };
        let after = self.map_number(after);
        (Procedure { variable, body: 0, before, argument, after, result }, taking.map(|(word, _)| word))
    }

    /// Now and then, where locks have two loads: a lock type for an x, and one that it may be shown with.
    fn looser_lock(&mut self) -> Option<(usize, usize)> {
        if !self.draft.has_two_loads() || !self.random.percent(40) {
            return None;
        }
        let draft = &self.draft;
        let shown = |bound| (0..draft.types.len()).map(move |shown| (bound, shown));
        let looser = |&(bound, shown): &(usize, usize)| draft.shows(shown, bound) && !draft.agree(shown, bound);
        let locks: Vec<(usize, usize)> = (0..draft.types.len()).flat_map(shown).filter(looser).collect();
        (!locks.is_empty()).then(|| self.random.pick(&locks))
    }

    /// A procedure over a cell that takes nothing and gives nothing.
    fn for_free(&mut self, variable: u32) -> Procedure {
        let nothing = self.map_number(Map::default());
        let cell = |_: &Self, _, kind| matches!(kind, Type::Ref { location: 0, .. });
        let (argument, result) = (self.type_where(cell).expect("there is a cell type"), self.int_type());
        Procedure { variable, body: 0, before: nothing, argument, after: nothing, result }
    }

    /// What a body starts with: all, a share, some of each location or a map that is there.
    fn drawn_before(&mut self) -> usize {
        match self.random.below(5) {
            0 => 0,
            1 => self.drawn_share(),
            2 => self.random.below(self.draft.maps.len()),
            _ => {
                let all = self.draft.maps[0];
                let some = all.map(|amount| self.part_of(amount));
                self.map_number(some)
            }
        }
    }

    /// A word that takes what the argument carries, and the map that it brings, if there is room for it.
    fn taking(&mut self, argument: usize, start: &Map) -> Option<(Word, usize)> {
        let kind = self.draft.types[argument];
        let words: Vec<(Word, usize)> = TAKING.iter().filter_map(|&word| Some((word, moved(word, kind)?))).collect();
        let fits = |map: usize| sum(start, &self.draft.maps[map]).iter().all(|&number| number <= WHOLE);
        let fitting: Vec<(Word, usize)> = words.into_iter().filter(|&(_, map)| fits(map)).collect();
        (!fitting.is_empty()).then(|| self.random.pick(&fitting))
    }

    /// A body: an expression, or `let _ = take x in e`, which hands over what was taken.
    fn body(&mut self, procedure: Procedure, taking: Option<Word>, size: usize) {
        let Procedure { variable, before, argument, after, result, .. } = procedure;
        let (mut now, need) = (self.draft.maps[before], self.draft.maps[after]);
        self.scope = vec![(variable, argument)];
        if self.slip == Some(Slip::BodiesForFree) {
            now = self.draft.maps[0];
            self.spoiled |= !self.step(Word::Write, result, &mut now, &need, 1);
            return self.scope.clear();
        }
        match taking.and_then(|word| Some((word, moved(word, self.draft.types[argument])?))) {
            None => self.expression(result, &mut now, &need, size),
            Some((word, map)) => {
                let (step, int) = (self.open_let(), self.int_type());
                let first = missing(&need, &self.draft.maps[map]);
                self.spoiled |= !self.gain(word, int, argument, map, &mut now, &first, 1);
                self.expression(result, &mut now, &need, size);
                self.close(step, result, &now);
            }
        }
        self.scope.clear();
    }

    /// A call of a procedure that gives this type: what it does not start with is kept back.
    pub(super) fn call(&mut self, kind: usize, now: &mut Map, need: &Map, size: usize) -> bool {
        let known = self.draft.procedures().to_vec();
        let map = |number: usize| self.draft.maps[number];
        let wanted = |of: &Procedure| sum(&map(of.before), &missing(need, &map(of.after)));
        let room = |of: &Procedure| sum(now, &map(of.after)).iter().all(|&number| number <= WHOLE);
        let meant = |own: &usize| {
            let of = &known[*own];
            self.draft.agree(of.result, kind) && room(of) && self.can_make(of.argument, now, &wanted(of))
        };
        let meant: Vec<usize> = (0..known.len()).filter(meant).collect();
        if meant.is_empty() || self.draft.maps.len() > MAPS_IN_USE {
            return false;
        }
        let own = self.random.pick(&meant);
        let Procedure { before, argument, after, .. } = known[own];
        let (before, after) = (self.draft.maps[before], self.draft.maps[after]);
        let wanted = sum(&before, &missing(need, &after));
        let step = self.open(Word::Call, own as u32);
        self.operand(argument, now, &wanted, size);
        let kept = difference(now, &before);
        *now = sum(&after, &kept).map(|number| number.min(WHOLE + 1));
        self.draft.steps[step].start = Some(self.map_number(kept));
        self.close(step, kind, now)
    }
}
