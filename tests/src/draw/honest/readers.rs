//! Read-write locks of an honest pair.

use super::{Builder, Slip};
use crate::answer::PLACES;
use crate::draw::draft::{at_least, difference, sum, Map};
use crate::types::Type;
use crate::words::Word;

impl Builder<'_> {
    /// A read-write lock's type: who writes gets a share, who reads an even part of it.
    pub(super) fn new_rwlock(&mut self) -> Type {
        let writing = self.drawn_share();
        let readers = self.random.pick(&[1, 2, 2, 3, PLACES]);
        let reading = self.draft.maps[writing].map(|amount| amount / readers);
        Type::Rwlock { reading: self.map_number(reading), writing }
    }

    /// `newrwlock` with as many reading places as its maps allow, or fewer.
    pub(super) fn newrwlock(&mut self, kind: usize, reading: usize, writing: usize, now: &mut Map, need: &Map) -> bool {
        let price = self.draft.maps[writing];
        let most = self.draft.places(reading, writing);
        most > 0 && at_least(now, &sum(need, &price)) && {
            let fitting = if self.random.percent(60) { most } else { self.random.between(1, most) };
            let drawn = if self.slip == Some(Slip::PlacesForFree) { (most + 1).min(PLACES) } else { fitting };
            *now = difference(now, &price);
            self.leaf(Word::Newrwlock, drawn, kind, now)
        }
    }
}
