//! Drawn sheets for filling (request (viii)): their step lines leave the map afterwards empty.

pub mod emptied;
mod large;
pub mod limits;
mod rows;
pub mod typed;

use super::draft::Draft;
use super::promise::Promise;
use super::random::Random;
use super::{mutants, Drawn};
use crate::answer::{Returned, GIVEN_MAPS, PROGRAM_BYTES, SPLIT_BYTES, WORK_SPACE};
use crate::known::{self, Known};
use emptied::{emptied, Kept};

/// A pair whose split is to be filled in, the buffer lent for it, and the split that it was made of, if
/// that one is accepted.
pub struct Unfilled {
    pub pair: Drawn,
    pub buffer: usize,
    pub given: Option<Vec<u8>>,
}

impl Unfilled {
    /// A pair as it stands, with a buffer for any text.
    fn of(pair: Drawn) -> Unfilled {
        Unfilled { pair, buffer: SPLIT_BYTES, given: None }
    }

    /// A draft with its maps taken out, of whose answer nothing is known.
    fn of_draft(draft: &Draft, origin: &'static str) -> Unfilled {
        let split = emptied(&draft.split(), Kept::All).expect("a draft has every line");
        Unfilled::of(Drawn { split, ..Drawn::of(draft, origin) })
    }

    /// Whether an answer is as known. A sheet made of an accepted one has maps, if perhaps too great ones.
    pub fn kept(&self, returned: Returned) -> bool {
        if self.given.is_some() && self.pair.promise == Promise::Open && self.buffer >= SPLIT_BYTES {
            return matches!(returned.number, 0 | 42);
        }
        self.pair.promise.kept(&self.pair.program, returned)
    }
}

/// The accepted known pairs with their maps taken out. All of them are filled.
pub fn of_known() -> impl Iterator<Item = Unfilled> {
    let accepted = known::all().filter(|known| known.answer == "ACCEPT");
    accepted.flat_map(|known| [Kept::All, Kept::Used].map(|kept| of_accepted(known, kept)))
}

fn of_accepted(known: &Known, kept: Kept) -> Unfilled {
    let (program, given) = known.sheets();
    let split = emptied(&given, kept).expect("an accepted split has every line");
    let pair = Drawn { program, split, room: WORK_SPACE, origin: "known", promise: Promise::Open };
    Unfilled { given: Some(given), ..Unfilled::of(pair) }
}

/// The sheet with this number in the series of this seed. Equal arguments give equal sheets.
pub fn sheet(seed: u64, number: u64) -> Unfilled {
    let random = &mut Random::new(seed ^ 0xF111, number);
    let mut drawn = match random.below(100) {
        0..=54 => of_pair(random, super::pair(seed, number)),
        55..=74 => Unfilled::of_draft(&typed::draft(random), "typed"),
        75..=79 => Unfilled::of_draft(&large::draft(random), "large"),
        80..=84 => rows::changed(random),
        85..=96 => changed_text(random),
        _ => limits::at_limit(random),
    };
    if drawn.pair.promise == Promise::Open && random.percent(5) {
        drawn.buffer = random.pick(&[0, 1, 100, 1_000, 10_000, SPLIT_BYTES - 1, SPLIT_BYTES + 40]);
    }
    drawn
}

/// A drawn pair with its maps taken out; as it stands where it has not the form of a pair.
fn of_pair(random: &mut Random, pair: Drawn) -> Unfilled {
    let kept = if random.percent(30) { Kept::All } else { Kept::Used };
    let Some(split) = emptied(&pair.split, kept) else {
        return Unfilled::of(Drawn { promise: Promise::Open, ..pair });
    };
    let too_many = emptied::maps(&split) > GIVEN_MAPS as usize;
    let promise = match pair.promise {
        Promise::Accepted if too_many => Promise::Exactly(Returned::at_line(43, 0)),
        Promise::Breaks(word, condition) if condition <= word.type_conditions() && !too_many => pair.promise,
        Promise::Exactly(Returned { number: 10..=15 | 45, .. }) => pair.promise,
        _ => Promise::Open,
    };
    let given = (pair.promise == Promise::Accepted).then(|| pair.split.clone());
    Unfilled { given, ..Unfilled::of(Drawn { split, promise, ..pair }) }
}

/// A sheet with one or two changes in its text, and lengths past their limits now and then.
fn changed_text(random: &mut Random) -> Unfilled {
    let draft = typed::draft(random);
    let mut drawn = Unfilled::of_draft(&draft, "changed text");
    let Drawn { program, split, room, .. } = &mut drawn.pair;
    for _ in 0..1 + random.below(2) {
        let text = if random.percent(40) { &mut *program } else { &mut *split };
        mutants::change_text(random, text);
    }
    match random.below(20) {
        0 => program.resize(PROGRAM_BYTES + 1, b'0'),
        1 => split.resize(SPLIT_BYTES + 1, b'0'),
        2 => *room = random.pick(&[0, 1, WORK_SPACE - 1, WORK_SPACE + 1, WORK_SPACE + 40]),
        _ => {}
    }
    drawn
}
