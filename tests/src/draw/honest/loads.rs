//! Locks with two loads, for `C3` sheets: what a lock gives to who takes it, and what it takes back.

use super::Builder;
use crate::draw::draft::Map;
use crate::types::Type;

impl Builder<'_> {
    /// A lock's type. On a `C3` sheet its loads may differ, and it may be looser than the last lock's.
    pub(super) fn new_lock(&mut self) -> Type {
        let share = self.drawn_share();
        if !self.draft.has_two_loads() {
            return Type::lock(share);
        }
        let known = self.draft.types.iter().rev().find(|kind| matches!(kind, Type::Lock { .. }));
        let (taken, given) = match known {
            Some(&Type::Lock { taken, given }) if self.random.percent(60) => (taken, given),
            _ => (share, share),
        };
        self.loosened(self.draft.maps[taken], self.draft.maps[given])
    }

    /// A lock that gives no more and takes back no less.
    fn loosened(&mut self, mut taken: Map, mut given: Map) -> Type {
        for location in 0..self.draft.locations {
            if self.random.percent(25) {
                taken[location] = self.part_of(taken[location]);
            }
            if self.random.percent(25) {
                given[location] += self.part_of(self.draft.whole.saturating_sub(given[location]));
            }
        }
        Type::Lock { taken: self.map_number(taken), given: self.map_number(given) }
    }
}
