//! The pairs that are timed.

use crate::grown::{self, Counts};
use evidence::answer::{GIVEN_MAPS, LOCATIONS, PROCEDURES, SPLIT_BYTES, STEPS, TYPES, WHOLE, WORK_SPACE};
use evidence::draw::draft::{Draft, Heading, Map, Step};
use evidence::draw::honest::{self, procedures};
use evidence::draw::random::Random;
use evidence::draw::unfilled::emptied::{emptied, maps, Kept};
use evidence::draw::{full, unfilled};
use evidence::types::Type;
use evidence::words::Word;
use evidence::{known, second};

pub struct Pair {
    pub program: Vec<u8>,
    pub split: Vec<u8>,
}

impl Pair {
    fn of(draft: &Draft) -> Pair {
        Pair { program: draft.program(), split: draft.split() }
    }

    pub fn bytes(&self) -> usize {
        self.program.len() + self.split.len()
    }

    /// The same pair with its after-maps to be filled in. All its maps stay if that many may be given, else those
    /// that are in use.
    pub fn to_fill(&self) -> Pair {
        let kept = if maps(&self.split) <= GIVEN_MAPS as usize { Kept::All } else { Kept::Used };
        let split = emptied(&self.split, kept).expect("an accepted split has every line");
        Pair { program: self.program.clone(), split }
    }
}

/// Figure 2 (b) with document 01's split.
pub fn small() -> Pair {
    let (program, split) = known::all().next().expect("there are known pairs").sheets();
    Pair { program, split }
}

/// A pair at every limit at once, accepted.
pub fn fullest() -> Pair {
    Pair::of(&full::fullest(&mut Random::new(1, 0)))
}

/// As long a pair, refused at its last condition.
pub fn refused_last() -> Pair {
    Pair::of(&full::refused_last(&mut Random::new(1, 1)))
}

/// A sheet with 256 steps, 256 maps and 16 locations that is as long as it may be when it is filled.
pub fn fullest_to_fill() -> Pair {
    let pair = unfilled::limits::fullest(&mut Random::new(1, 2)).pair;
    Pair { program: pair.program, split: pair.split }
}

/// A pair with as many steps and procedures as there may be and at least as many calls as procedures, which can
/// be filled in.
pub fn with_procedures() -> Pair {
    let random = &mut Random::new(1, 3);
    loop {
        let draft = procedures::draft(random, PROCEDURES as usize, 60, LOCATIONS as usize, 1_000_000);
        let calls = draft.steps.iter().filter(|step| step.word == Word::Call).count();
        if draft.steps.len() == STEPS as usize && calls >= PROCEDURES as usize {
            let pair = Pair::of(&draft);
            if is_filled(&pair.to_fill()) {
                return pair;
            }
        }
    }
}

fn is_filled(pair: &Pair) -> bool {
    second::fill(&pair.program, &pair.split, WORK_SPACE, &mut [0; SPLIT_BYTES]).number == 0
}

/// An honest pair with exactly so many steps, maps and locations. Unused maps have numbers of nine digits, so
/// that more of them is more to read.
pub fn honest(steps: usize, maps: usize, locations: usize) -> Pair {
    let random = &mut Random::new(7, 0);
    loop {
        let mut draft = honest::draft(random, 12, 1, 100_000_000);
        if draft.steps.len() < 16 && full::with_steps(random, &mut draft, steps) && draft.maps.len() <= maps {
            full::with_locations(&mut draft, locations);
            while draft.maps.len() < maps {
                let mut map = Map::default();
                map[..locations].fill_with(|| random.between(100_000_000, 999_999_999));
                draft.maps.push(map);
            }
            return Pair::of(&draft);
        }
    }
}

/// A pair in which each count costs much.
pub fn grown(counts: Counts) -> Pair {
    Pair::of(&grown::draft(counts))
}

/// The deepest type, compared with itself: each type but the first is a ref to the one before it; a thing of
/// the last type is made, and the steps left choose between it and itself. An `if` compares its type with both
/// of its parts, a `var` with its let's value.
pub fn deepest() -> Pair {
    let last = TYPES as usize - 1;
    let mut types = vec![Type::Tid(0)];
    types.extend((0..last).map(|content| Type::Ref { location: 0, content }));
    let plain = |word, kind| Step { word, number: 0, kind, post: 0, start: None };
    let mut steps = vec![plain(Word::Let, last)];
    steps.extend((1..=last).rev().map(|kind| plain(Word::Ref, kind)));
    steps.push(plain(Word::Newtid, 0));
    while steps.len() + 1 < STEPS as usize {
        steps.extend([plain(Word::If, last), plain(Word::Var, last)]);
    }
    steps.push(plain(Word::Var, last));
    Pair::of(&Draft {
        heading: Heading::C,
        whole: WHOLE,
        locations: LOCATIONS as usize,
        types,
        maps: vec![[WHOLE; LOCATIONS as usize]],
        steps,
        procedures: None,
    })
}
