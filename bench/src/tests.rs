//! The plain checker and the tuned one beside the second: answers, texts and the work space.

use crate::{plain, tuned};
use evidence::answer::WORK_SPACE;
use evidence::checking::{difference, Checker, WorkSpace};
use evidence::draw;
use evidence::series::SEED;
use evidence::tally::{Tally, CHECKING};
use evidence::{known, second};

const PAIRS: u64 = 50_000;
const CHECKERS: [(&str, Checker); 2] = [("plain", plain::check), ("tuned", tuned::check)];

#[test]
fn known_pairs_get_their_answers() {
    let mut work = WorkSpace::default();
    for known in known::all() {
        let (program, split) = known.sheets();
        for (who, check) in CHECKERS {
            let (returned, fault) = work.check(check, &program, &split, WORK_SPACE);
            let found = (returned.to_string(), fault);
            assert_eq!(found, (known.answer.to_string(), None), "{who}: {} with {}", known.program, known.split);
        }
    }
}

/// A series that meets every refusal and every condition.
#[test]
fn drawn_pairs_get_the_answers_of_the_second_checker() {
    let (mut work, mut tally) = (WorkSpace::default(), Tally::new(CHECKING));
    for number in 0..PAIRS {
        let drawn = draw::pair(SEED, number);
        let expected = second::check(&drawn.program, &drawn.split, drawn.room);
        for (who, check) in CHECKERS {
            let difference = difference(check, &drawn, expected, &mut work);
            assert_eq!(difference, None, "{who}: pair {number} of seed {SEED} ({})", drawn.origin);
        }
        tally.count(&drawn, expected);
    }
    assert_eq!(tally.missed(), Vec::<String>::new(), "{tally}");
}

#[test]
fn a_work_space_is_looked_at_before_all_else() {
    let mut work = WorkSpace::default();
    for (who, check) in CHECKERS {
        for room in [0, 1, WORK_SPACE - 1] {
            let (returned, fault) = work.check(check, &[0; 16_385], b"", room);
            assert_eq!((returned.to_string().as_str(), fault), ("REFUSE,1,0,0,0", None), "{who}");
        }
    }
}
