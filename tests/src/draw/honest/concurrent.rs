//! Small honest drafts in which threads share cells: guarded by a lock or a read-write lock, read in
//! shares, or handed over at a join or by a semaphore.

use super::{Builder, Slip};
use crate::draw::draft::{Draft, Heading, Map};
use crate::draw::random::Random;
use crate::types::Type;

/// Two locations: the locks carry the whole of the first, or half of it for a reader, identifiers bring
/// back half of the second, all of it, or nothing, and semaphores carry half of the second or all of it.
/// On a `C3` sheet the lock is also shown as one that gives less or takes back more.
pub fn draft(random: &mut Random) -> Draft {
    draft_with(random, None)
}

/// Such a draft with procedures, which threads call.
pub fn with_procedures(random: &mut Random) -> Draft {
    built(random, None, true)
}

/// Such a draft from a builder that makes a mistake.
pub fn draft_with(random: &mut Random, slip: Option<Slip>) -> Draft {
    built(random, slip, slip == Some(Slip::BodiesForFree))
}

fn built(random: &mut Random, slip: Option<Slip>, with_procedures: bool) -> Draft {
    loop {
        let whole = random.pick(&[2, 4, 6]);
        let size = 16 + random.below(24);
        let mut builder = Builder::bare(random, 2, whole);
        builder.slip = slip;
        builder.divide();
        if with_procedures {
            let count = 1 + builder.random.below(4);
            builder.procedures(count, 10);
        }
        let mut now = builder.draft.maps[0];
        let things = builder.drawn_things();
        builder.over(things, &mut now, size);
        if let Some(draft) = builder.finished() {
            return draft;
        }
    }
}

impl Builder<'_> {
    /// The maps and the types of such a draft.
    fn divide(&mut self) {
        let whole = self.draft.whole;
        self.add_map(whole, whole);
        let guarded = self.add_map(whole, 0);
        let half = self.add_map(0, whole / 2);
        let all = self.add_map(0, whole);
        let none = self.add_map(0, 0);
        let read = self.add_map(whole / 2, 0);
        self.draft.types = vec![
            Type::Int,
            Type::Ref { location: 0, content: 0 },
            Type::Ref { location: 1, content: 0 },
            Type::lock(guarded),
            Type::Tid(half),
            Type::Tid(all),
            Type::Tid(none),
            Type::Ref { location: 1, content: 3 },
            Type::Sem(half),
            Type::Sem(all),
            Type::Rwlock { reading: read, writing: guarded },
        ];
        let as_printed = self.slip == Some(Slip::PrintedInequality);
        if as_printed || self.random.percent(30) {
            let more = self.add_map(whole, whole / 2);
            self.draft.heading = Heading::C3 { start: 0 };
            let locks =
                if as_printed { &[(none, none)][..] } else { &[(guarded, more), (none, guarded), (none, none)] };
            self.draft.types.extend(locks.iter().map(|&(taken, given)| Type::Lock { taken, given }));
        }
    }

    /// A map of so much of each of the two locations.
    fn add_map(&mut self, first: u32, second: u32) -> usize {
        let mut map = Map::default();
        (map[0], map[1]) = (first, second);
        self.draft.add_map(map)
    }

    /// The types of the things that the threads share.
    fn drawn_things(&mut self) -> &'static [usize] {
        match self.slip {
            Some(Slip::PrintedInequality) => &[1, 3],
            Some(Slip::PlacesForFree) => &[1, 10],
            _ => self.random.pick(&[
                &[1, 2, 3],
                &[1, 2, 3, 7],
                &[1, 2, 3, 9],
                &[1, 2, 8, 9],
                &[1, 2, 10],
                &[1, 2, 9, 10],
            ]),
        }
    }

    /// Binds a new thing of each of these types, and then forks.
    fn over(&mut self, things: &[usize], now: &mut Map, size: usize) {
        let Some((&first, rest)) = things.split_first() else {
            let signals = self.random.percent(60) && self.fork_and_signal(0, now, &Map::default(), size);
            if !signals && !self.fork_and_join(0, now, &Map::default(), size) {
                self.expression(0, now, &Map::default(), size);
            }
            return;
        };
        let step = self.open_let();
        let maker = self.draft.types[first].maker();
        self.step(maker, first, now, &Map::default(), 1);
        self.scope.push((self.draft.steps[step].number, first));
        self.over(rest, now, size);
        self.scope.pop();
        self.close(step, 0, now);
    }
}
