//! One comparison: a checker called on a pair, its answer and what it leaves behind.

use crate::answer::{Returned, WORK_SPACE};
use crate::draw::Drawn;

/// A checker as the product offers it: two sheets and a lent work space.
pub type Checker = fn(&[u8], &[u8], &mut [u32]) -> Returned;

/// A work space with a mark behind it, filled with garbage before each call.
pub struct WorkSpace {
    numbers: Vec<u32>,
    garbage: Vec<u32>,
}

/// How many numbers stand behind the longest work space lent, to show a write past its end.
const MARK: usize = 64;
/// The longest work space that is lent.
const LONGEST: usize = WORK_SPACE + 64;

impl Default for WorkSpace {
    fn default() -> WorkSpace {
        let garbage: Vec<u32> = (0..LONGEST + MARK).map(|place| 0xA5A5_0001 ^ (place as u32) << 8).collect();
        WorkSpace { numbers: garbage.clone(), garbage }
    }
}

impl WorkSpace {
    /// Calls a checker with `room` numbers of garbage. The second part says what is wrong with the
    /// work space afterwards, if anything.
    pub fn check(
        &mut self,
        checker: Checker,
        program: &[u8],
        split: &[u8],
        room: usize,
    ) -> (Returned, Option<&'static str>) {
        self.lent(room, |work| checker(program, split, work))
    }

    /// The same for any call that is lent a work space.
    pub fn lent(&mut self, room: usize, call: impl FnOnce(&mut [u32]) -> Returned) -> (Returned, Option<&'static str>) {
        self.numbers.copy_from_slice(&self.garbage);
        let returned = call(&mut self.numbers[..room]);
        let cleared = if room < WORK_SPACE { 0 } else { WORK_SPACE };
        if self.numbers[..cleared].iter().any(|&number| number != 0) {
            return (returned, Some("the work space is not cleared"));
        }
        if self.numbers[cleared..] != self.garbage[cleared..] {
            return (returned, Some("the work space is changed where it must stay"));
        }
        (returned, None)
    }
}

/// What a checker does otherwise than the second checker and document 01 say, or the second checker
/// otherwise than the generator, if anything.
pub fn difference(checker: Checker, drawn: &Drawn, expected: Returned, work: &mut WorkSpace) -> Option<String> {
    if !drawn.promise.kept(&drawn.program, expected) {
        return Some(format!("second checker {expected}, drawn as {:?}", drawn.promise));
    }
    let (program, split) = (drawn.program.clone(), drawn.split.clone());
    let (returned, fault) = work.check(checker, &program, &split, drawn.room);
    if returned != expected {
        return Some(format!("product {returned}, second checker {expected}, room {}", drawn.room));
    }
    if program != drawn.program || split != drawn.split {
        return Some("a text was changed".to_string());
    }
    fault.map(str::to_string)
}

/// The checkers that document 01 says must not get through: drawn pairs tell each of them apart.
#[cfg(test)]
mod tests {
    use super::*;
    #[cfg(product)]
    use crate::product;
    use crate::{draw, second};

    const PAIRS: u64 = 500;

    /// How many of the first drawn pairs tell a checker from the second one.
    fn told_apart(checker: Checker) -> usize {
        let mut work = WorkSpace::default();
        let differs = |number: &u64| {
            let drawn = draw::pair(1, *number);
            let expected = second::check(&drawn.program, &drawn.split, drawn.room);
            difference(checker, &drawn, expected, &mut work).is_some()
        };
        (0..PAIRS).filter(differs).count()
    }

    /// The work space as it must be left, around an answer of the test's own.
    fn clearing(work: &mut [u32], returned: Returned) -> Returned {
        if work.len() < WORK_SPACE {
            return Returned::at_line(1, 0);
        }
        work[..WORK_SPACE].fill(0);
        returned
    }

    #[cfg(product)]
    #[test]
    fn the_product_gets_through() {
        assert_eq!(product::CHECK.map(told_apart), Some(0));
    }

    #[test]
    fn one_that_looks_only_at_the_root() {
        let checker: Checker = |program, split, work| {
            let returned = second::check(program, split, work.len());
            clearing(work, if returned.number > 30 && returned.line > 2 { Returned::ACCEPT } else { returned })
        };
        assert!(told_apart(checker) > 50);
    }

    #[test]
    fn one_that_makes_up_a_line_or_a_condition() {
        let line: Checker = |program, split, work| {
            let returned = second::check(program, split, work.len());
            clearing(work, Returned { line: returned.line.min(2), ..returned })
        };
        let condition: Checker = |program, split, work| {
            let returned = second::check(program, split, work.len());
            clearing(work, Returned { condition: returned.condition.min(1), ..returned })
        };
        assert!(told_apart(line) > 50 && told_apart(condition) > 50);
    }

    #[test]
    fn one_that_stops_before_it_has_read() {
        assert!(told_apart(|_, _, work| clearing(work, Returned::at_line(13, 1))) > 400);
        assert!(told_apart(|_, _, work| clearing(work, Returned::at_line(23, 1))) > 400);
    }

    #[test]
    fn one_that_always_accepts() {
        assert!(told_apart(|_, _, work| clearing(work, Returned::ACCEPT)) > 100);
    }

    #[test]
    fn one_that_turns_every_pair_down() {
        let checker: Checker = |program, split, work| {
            let returned = second::check(program, split, work.len());
            clearing(work, if returned.number == 0 { Returned::at_line(11, 1) } else { returned })
        };
        assert!(told_apart(checker) > 100);
    }

    #[test]
    fn one_that_writes_nothing() {
        assert!(told_apart(|program, split, work| second::check(program, split, work.len())) > 400);
    }
}
