//! Honest steps around a step with a given word.

use super::Builder;
use crate::draw::directed::Target;
use crate::draw::draft::Map;
use crate::words::Word;

impl Builder<'_> {
    /// A chain of `let`s of which the one at depth `above` has a step with this word as its e1.
    /// None when the word cannot be had there.
    pub fn chain_around(
        &mut self,
        word: Word,
        above: usize,
        kind: usize,
        now: &mut Map,
        size: usize,
    ) -> Option<Target> {
        let kept = self.price(kind);
        let variable = self.unbound.pop()?;
        let step = self.open(Word::Let, variable);
        let mut target = None;
        let mut bound = self.drawn_type(now, &kept);
        if above == 0 {
            target = Some(Target { step: self.draft.steps.len(), pre: *now });
            bound = self.bound_by(word, now, &kept, size)?;
        } else {
            self.expression(bound, now, &kept, 1 + size / 4);
        }
        self.scope.push((variable, bound));
        match above {
            0 => self.expression(kind, now, &Map::default(), size),
            _ => target = self.chain_around(word, above - 1, kind, now, size),
        }
        self.scope.pop();
        self.close(step, kind, now);
        target
    }

    /// Builds a step with this word, of the first drawn type that it can have; gives that type.
    fn bound_by(&mut self, word: Word, now: &mut Map, need: &Map, size: usize) -> Option<usize> {
        self.types_in_turn().find(|&kind| self.can_make(kind, now, need) && self.step(word, kind, now, need, size))
    }
}
