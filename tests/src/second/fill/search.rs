//! The second filler held against a search over all maps of 0 to 4 parts of one location.

use super::inequalities::Inequalities;
use crate::draw::draft::Draft;
use crate::draw::random::Random;
use crate::draw::unfilled::emptied::{emptied, Kept};
use crate::draw::unfilled::typed;
use crate::second::conditions::{check, each_line};
use crate::second::program::{self, Program};
use crate::second::split::{self, Posts, Split};

/// The greatest number that the search tries.
const MOST: usize = 4;

/// Whether the second checker accepts a sheet with these numbers as its maps afterwards.
fn accepts(program: &Program, split: &mut Split, choice: &[usize]) -> bool {
    let first = split.maps + 1;
    split.marks.iter_mut().zip(choice).for_each(|(mark, &number)| mark.post = first + number);
    check(program, split).is_ok()
}

/// The greatest number of each step in all choices that the second checker accepts; it must accept these
/// together. None when it accepts no choice.
fn searched(program: &Program, unfilled: &Split) -> Option<Vec<usize>> {
    let mut split = unfilled.clone();
    split.numbers.extend(0..=MOST as u32);
    let mut choice = vec![0; program.steps.len()];
    let mut greatest: Option<Vec<usize>> = None;
    loop {
        if accepts(program, &mut split, &choice) {
            let known = greatest.get_or_insert_with(|| choice.clone());
            known.iter_mut().zip(&choice).for_each(|(known, &number)| *known = number.max(*known));
        }
        let Some(next) = choice.iter().position(|&number| number < MOST) else { break };
        choice[..next].fill(0);
        choice[next] += 1;
    }
    assert!(greatest.iter().all(|greatest| accepts(program, &mut split, greatest)));
    greatest
}

/// What the filler finds, however large.
fn found(program: &Program, split: &Split) -> Option<Vec<i128>> {
    let mut inequalities = Inequalities::new(split);
    each_line(program, split, &mut inequalities).expect("the types agree");
    Some(inequalities.greatest()?.iter().map(|post| post[0]).collect())
}

/// A typed draft of at most six steps, with small numbers.
fn small(random: &mut Random) -> Draft {
    loop {
        let (size, whole) = (3 + random.below(4), 1 + random.below(2) as u32);
        let draft = typed::sized(random, size, 1, whole, &[0, 1, 1, 2, 3]);
        if draft.steps.len() <= 6 {
            return draft;
        }
    }
}

/// Where the search finds maps, the filler does; where both do and the filler's stay within what the search
/// tries, they are equal; otherwise the search may only find smaller ones.
#[test]
fn small_sheets_have_the_maps_that_a_search_finds() {
    let (mut equal, mut neither, mut beyond) = (0, 0, 0);
    for number in 0..1_000 {
        let draft = small(&mut Random::new(8, number));
        let sheet = emptied(&draft.split(), Kept::All).expect("a draft has every line");
        let program = program::read(&draft.program()).expect("a draft is well formed");
        let split = split::read(&sheet, &program, Posts::Left).expect("a draft is well formed");
        match (found(&program, &split), searched(&program, &split)) {
            (None, None) => neither += 1,
            (Some(found), Some(searched)) if found.iter().all(|&number| number <= MOST as i128) => {
                let searched: Vec<i128> = searched.iter().map(|&number| number as i128).collect();
                assert_eq!(found, searched, "draft {number}");
                equal += 1;
            }
            (Some(found), searched) => {
                assert!(found.iter().any(|&number| number > MOST as i128), "draft {number}");
                let low = |searched: Vec<usize>| searched.iter().zip(&found).all(|(&less, &more)| less as i128 <= more);
                assert!(searched.is_none_or(low), "draft {number}");
                beyond += 1;
            }
            (None, Some(_)) => panic!("draft {number}: the search finds maps, the filler none"),
        }
    }
    assert!(equal > 300 && neither > 200 && beyond > 0, "{equal} {neither} {beyond}");
}
