//! The types of the split sheet and their agreement, requests (i) and (ix).

use super::maps::Maps;
use evidence::answer::Returned;

#[derive(Clone, Copy, PartialEq, Eq)]
pub enum Kind {
    Int,
    Ref,
    Lock,
    Tid,
    Sem,
    Rwlock,
}

const KINDS: [Kind; 6] = [Kind::Int, Kind::Ref, Kind::Lock, Kind::Tid, Kind::Sem, Kind::Rwlock];

/// A type line: location and content of a ref, in and out of a lock, reading and writing share of a read-write
/// lock, the one map of an identifier or a semaphore.
#[derive(Clone, Copy)]
pub struct Type {
    pub kind: Kind,
    pub first: usize,
    pub second: usize,
}

/// The types by their numbers.
pub struct Types<'a>(pub &'a mut [[u32; 3]]);

impl Types<'_> {
    pub fn at(&self, number: usize) -> Type {
        let [kind, first, second] = self.0[number];
        Type { kind: KINDS[kind as usize], first: first as usize, second: second as usize }
    }

    pub fn put(&mut self, number: usize, kind: Kind, first: u32, second: u32) {
        self.0[number] = [kind as u32, first, second];
    }

    /// Whether two types agree: their kinds agree and their maps hold equal numbers; refs have the same location,
    /// and contents that agree.
    pub fn agree(&self, maps: &Maps, left: usize, right: usize) -> bool {
        if left == right {
            return true;
        }
        let (left, right) = (self.at(left), self.at(right));
        let equal = |left, right| maps.equal(left, right).is_none();
        left.kind == right.kind
            && match left.kind {
                Kind::Int => true,
                Kind::Ref => left.first == right.first && self.agree(maps, left.second, right.second),
                Kind::Tid | Kind::Sem => equal(left.first, right.first),
                Kind::Lock | Kind::Rwlock => equal(left.first, right.first) && equal(left.second, right.second),
            }
    }

    /// Whether a variable bound to one type may be shown with another: one that agrees, or a lock whose in is
    /// nowhere above and whose out is nowhere below.
    pub fn shows(&self, maps: &Maps, shown: usize, bound: usize) -> bool {
        if shown == bound {
            return true;
        }
        match (self.at(shown), self.at(bound)) {
            (Type { kind: Kind::Lock, first: taken, second: given }, Type { kind: Kind::Lock, first, second }) => {
                maps.at_least(first, taken).is_none() && maps.at_least(given, second).is_none()
            }
            _ => self.agree(maps, shown, bound),
        }
    }

    /// Refuses the first lock line whose out is below its in somewhere.
    pub fn check_loads(&self, maps: &Maps, count: u32) -> Result<(), Returned> {
        for number in 0..count {
            let Type { kind, first, second } = self.at(number as usize);
            if kind == Kind::Lock && maps.at_least(second, first).is_some() {
                return Err(Returned::at_line(44, number + 2));
            }
        }
        Ok(())
    }
}
