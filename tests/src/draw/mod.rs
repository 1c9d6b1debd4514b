//! Drawn pairs of sheets: honest ones, mutants of them, pairs at the limits, and noise.

mod afresh;
mod chains;
mod directed;
pub mod draft;
mod freed;
pub mod full;
mod headings;
pub mod honest;
mod limits;
pub mod mutants;
mod noise;
mod numerals;
mod procedures;
pub mod promise;
pub mod random;
pub mod traces;
pub mod unfilled;

use crate::answer::{LOCATIONS, PROGRAM_BYTES, SPLIT_BYTES, WHOLE, WORK_SPACE};
use crate::series::Files;
use crate::words::{Word, WORDS};
use draft::Draft;
use honest::concurrent;
use promise::Promise;
use random::Random;

/// A pair of sheets, the length of the work space it is checked with, how it was drawn, and what is
/// known of its answer.
pub struct Drawn {
    pub program: Vec<u8>,
    pub split: Vec<u8>,
    pub room: usize,
    pub origin: &'static str,
    pub promise: Promise,
}

impl Drawn {
    pub fn of(draft: &Draft, origin: &'static str) -> Drawn {
        let (program, split) = (draft.program(), draft.split());
        Drawn { program, split, room: WORK_SPACE, origin, promise: Promise::Open }
    }

    pub fn accepted(draft: &Draft, origin: &'static str) -> Drawn {
        Drawn { promise: Promise::Accepted, ..Drawn::of(draft, origin) }
    }

    pub fn files(&self) -> Files<'_> {
        [("program.txt", &self.program), ("split.txt", &self.split)]
    }
}

/// The pair with this number in the series of this seed. Equal arguments give equal pairs.
pub fn pair(seed: u64, number: u64) -> Drawn {
    let random = &mut Random::new(seed, number);
    if random.percent(25) {
        return procedures::pair(random);
    }
    match random.below(1000) {
        0..=239 => Drawn::accepted(&honest_draft(random), "honest"),
        240..=244 => over_whole(random),
        245..=247 => without_start(random),
        248 => low_out(random),
        249 => freelock(random),
        250..=339 => Drawn::accepted(&written_afresh(random), "afresh"),
        340..=349 => chains::chain(random),
        350..=399 => Drawn::accepted(&concurrent_draft(random), "concurrent"),
        400..=404 => Drawn::accepted(&near_full(random), "full"),
        405..=554 => directed(random, number),
        555..=729 => changed_draft(random),
        730..=869 => changed_text(random),
        870..=889 => faults_at_once(random),
        890..=924 => limits::at_limit(random),
        925..=939 => long_numeral(random),
        _ => noise::noise(random),
    }
}

/// An honest draft under some heading.
fn honest_draft(random: &mut Random) -> Draft {
    let draft = sized_draft(random);
    headings::often_written_out(random, draft)
}

fn concurrent_draft(random: &mut Random) -> Draft {
    let draft = concurrent::draft(random);
    headings::often_written_out(random, draft)
}

/// An honest draft, most often small.
fn sized_draft(random: &mut Random) -> Draft {
    let size = match random.below(20) {
        0..=8 => 1 + random.below(12),
        9..=16 => 8 + random.below(50),
        17..=18 => 60 + random.below(80),
        _ => 235,
    };
    let locations = if random.percent(80) { 1 + random.below(4) } else { 1 + random.below(LOCATIONS as usize) };
    let whole = random.pick(&[1, 2, 2, 3, 4, 6, 12, 100, 65_536, 1_000_000, WHOLE - 1, WHOLE]);
    honest::draft(random, size, locations, whole)
}

/// An honest draft with its types and maps written afresh.
fn written_afresh(random: &mut Random) -> Draft {
    let draft = if random.percent(70) { sized_draft(random) } else { concurrent::draft(random) };
    let draft = afresh::afresh(random, &draft);
    headings::often_written_out(random, draft)
}

/// An honest draft, save that it starts with more than a whole.
fn over_whole(random: &mut Random) -> Drawn {
    let draft = honest_draft(random);
    headings::over_whole(random, draft)
}

/// An honest draft, save that a word is `freelock`.
fn freelock(random: &mut Random) -> Drawn {
    let draft = honest_draft(random);
    freed::freelock(random, &draft)
}

/// An honest `C3` draft, save that a lock line takes back less than it gives.
fn low_out(random: &mut Random) -> Drawn {
    loop {
        let draft = honest_draft(random);
        if draft.has_two_loads() {
            return headings::low_out(random, draft);
        }
    }
}

/// An honest draft, save that one of its spawns lacks its start.
fn without_start(random: &mut Random) -> Drawn {
    loop {
        let draft = if random.percent(50) { honest_draft(random) } else { concurrent_draft(random) };
        if let Some(drawn) = headings::without_start(random, draft) {
            return drawn;
        }
    }
}

/// A full pair with a split at or under the limit.
fn near_full(random: &mut Random) -> Draft {
    let bytes = SPLIT_BYTES - random.pick(&[0, 1, 2, 100, 1000]);
    full::full(random, bytes)
}

/// The conditions are taken in turn, so that none is left out of a long series.
fn directed(random: &mut Random, number: u64) -> Drawn {
    let conditions: Vec<(Word, u32)> =
        WORDS.iter().flat_map(|&word| (1..=word.conditions()).map(move |condition| (word, condition))).collect();
    let (word, condition) = conditions[number as usize % conditions.len()];
    let draft = directed::breaking(random, word, condition);
    Drawn { promise: Promise::Breaks(word, condition), ..Drawn::of(&draft, "directed") }
}

fn changed_draft(random: &mut Random) -> Drawn {
    let mut draft = if random.percent(70) { honest_draft(random) } else { written_afresh(random) };
    for _ in 0..1 + random.below(2) {
        mutants::change_draft(random, &mut draft);
    }
    Drawn::of(&draft, "changed draft")
}

fn changed_text(random: &mut Random) -> Drawn {
    let mut drawn = Drawn::of(&honest_draft(random), "changed text");
    let text = if random.percent(50) { &mut drawn.program } else { &mut drawn.split };
    for _ in 0..1 + random.below(2) {
        mutants::change_text(random, text);
    }
    drawn
}

/// An honest pair, most often with threads, and a long numeral in it.
fn long_numeral(random: &mut Random) -> Drawn {
    let draft = if random.percent(50) { honest_draft(random) } else { concurrent_draft(random) };
    numerals::long_numeral(random, &draft)
}

/// Both sheets changed, and lengths past their limits now and then: the order of the refusals shows.
fn faults_at_once(random: &mut Random) -> Drawn {
    let mut drawn = Drawn { origin: "faults at once", ..Drawn::of(&honest_draft(random), "") };
    if random.percent(70) {
        mutants::change_text(random, &mut drawn.program);
    }
    if random.percent(70) {
        mutants::change_text(random, &mut drawn.split);
    }
    if random.percent(20) {
        drawn.program.resize(PROGRAM_BYTES + 1, b'0');
    }
    if random.percent(30) {
        drawn.split.resize(SPLIT_BYTES + 1, b'0');
    }
    if random.percent(10) {
        drawn.room = WORK_SPACE - 1;
    }
    drawn
}

#[cfg(test)]
mod tests {
    use super::random::Random;
    use super::{directed, full, honest, Draft, Promise};
    use crate::answer::WORK_SPACE;
    use crate::second;
    use crate::words::WORDS;

    #[test]
    fn honest_pairs_are_accepted() {
        for seed in 0..2000 {
            let random = &mut Random::new(1, seed);
            let draft = honest::draft(random, 1 + seed as usize % 120, 1 + seed as usize % 16, 6);
            let returned = second::check(&draft.program(), &draft.split(), WORK_SPACE);
            assert_eq!(returned.to_string(), "ACCEPT", "seed {seed}");
        }
    }

    #[test]
    fn full_pairs_end_as_told() {
        for seed in 0..5 {
            let (longest, refused) =
                (full::fullest(&mut Random::new(3, seed)), full::refused_last(&mut Random::new(4, seed)));
            let answer = |draft: &Draft| second::check(&draft.program(), &draft.split(), WORK_SPACE).to_string();
            assert_eq!((longest.split().len(), answer(&longest).as_str()), (65_536, "ACCEPT"));
            assert_eq!((refused.split().len(), answer(&refused).as_str()), (65_536, "REFUSE,32,257,2,15"));
        }
    }

    #[test]
    fn directed_pairs_break_their_condition_first() {
        for word in WORDS {
            for condition in 1..=word.conditions() {
                for seed in 0..50 {
                    let draft = directed::breaking(&mut Random::new(2, seed), word, condition);
                    let returned = second::check(&draft.program(), &draft.split(), WORK_SPACE);
                    let kept = Promise::Breaks(word, condition).kept(&draft.program(), returned);
                    assert!(kept, "{word:?} {condition}, seed {seed}: {returned}");
                }
            }
        }
    }
}
