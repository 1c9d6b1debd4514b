//! The same draft under another heading, and drafts at fault in what their heading asks for.

use super::draft::{Draft, Heading, Map, Step};
use super::promise::Promise;
use super::random::Random;
use super::Drawn;
use crate::answer::{Returned, MAPS, TYPES, WHOLE};
use crate::types::Type;
use crate::words::Word;

/// Now and then a `C` draft with its start written out; a `C3` draft always. What was accepted stays
/// accepted.
pub fn often_written_out(random: &mut Random, mut draft: Draft) -> Draft {
    let start = draft.start();
    draft.heading = match draft.heading {
        Heading::C => random.pick(&[Heading::C, Heading::C, Heading::C2 { start }, Heading::C3 { start }]),
        other => other,
    };
    match draft.heading {
        Heading::C => draft,
        _ => written_out(random, draft),
    }
}

/// The same `C2` or `C3` sheet with its maps in another order.
fn written_out(random: &mut Random, mut draft: Draft) -> Draft {
    if draft.maps.len() < MAPS as usize && random.percent(20) {
        over_the_start(random, &mut draft);
    }
    let mut order: Vec<usize> = (0..draft.maps.len()).collect();
    random.shuffle(&mut order);
    draft.renumber_maps(&order);
    leave_starts_out(random, &mut draft);
    draft
}

/// An unused map with more than a whole somewhere, which is no fault unless the program starts with it.
fn over_the_start(random: &mut Random, draft: &mut Draft) {
    let mut map = Map::default();
    map[random.below(draft.locations)] = WHOLE;
    draft.add_map(map);
}

/// An empty start means nothing of any location. What a call keeps back is never left out.
fn leave_starts_out(random: &mut Random, draft: &mut Draft) {
    let maps = &draft.maps;
    let holds_nothing =
        |step: &&mut Step| step.word == Word::Spawn && step.start.is_some_and(|start| maps[start] == Map::default());
    for step in draft.steps.iter_mut().filter(holds_nothing) {
        step.start = step.start.filter(|_| random.percent(50));
    }
}

/// A draft in which a spawn lacks its start. None when the draft has no spawn.
pub fn without_start(random: &mut Random, mut draft: Draft) -> Option<Drawn> {
    let spawns: Vec<usize> = (0..draft.steps.len()).filter(|&step| draft.steps[step].word == Word::Spawn).collect();
    if spawns.is_empty() {
        return None;
    }
    let spawn = random.pick(&spawns);
    draft.steps[spawn].start = None;
    let refused = Promise::Exactly(Returned::at_line(40, draft.row_of(spawn) as u32));
    let promise = if matches!(draft.heading, Heading::C) { refused } else { Promise::Open };
    Some(Drawn { promise, ..Drawn::of(&draft, "without start") })
}

/// A draft whose start has more than a whole of one location or more. Where the start is named it is a
/// map of its own, so that no lock's load changes.
pub fn over_whole(random: &mut Random, mut draft: Draft) -> Drawn {
    let mut map = draft.maps[draft.start()];
    let lowest = random.below(draft.locations);
    for (location, number) in map[..draft.locations].iter_mut().enumerate().skip(lowest) {
        if location == lowest || random.percent(30) {
            *number = (draft.whole + 1 + random.below(3) as u32).min(WHOLE);
        }
    }
    match &mut draft.heading {
        Heading::C => draft.maps[0] = map,
        Heading::C2 { start } | Heading::C3 { start } => {
            *start = draft.maps.len();
            draft.maps.push(map);
        }
    }
    let known = draft.whole < WHOLE && draft.maps.len() <= MAPS as usize;
    let line = draft.line_of(draft.root()) as u32;
    let answer = Returned { number: 30, line, condition: 0, location: lowest as u32 };
    let promise = if known { Promise::Exactly(answer) } else { Promise::Open };
    Drawn { promise, ..Drawn::of(&draft, "over whole") }
}

/// A `C3` draft with one or two lock lines more, which take back less than they give at one location.
pub fn low_out(random: &mut Random, mut draft: Draft) -> Drawn {
    let line = 2 + draft.types.len();
    for _ in 0..1 + random.below(2) {
        let mut given = draft.maps[random.below(draft.maps.len())];
        let mut taken = given;
        let location = random.below(draft.locations);
        taken[location] = taken[location].max(1);
        given[location] = taken[location] - 1;
        for other in (0..draft.locations).filter(|&other| other != location) {
            taken[other] = random.between(0, taken[other]);
        }
        let (taken, given) = (draft.add_map(taken), draft.add_map(given));
        draft.add_type(Type::Lock { taken, given });
    }
    let refused = Promise::Exactly(Returned::at_line(44, line as u32));
    let promise = if draft.types.len() <= TYPES as usize { refused } else { Promise::Open };
    Drawn { promise, ..Drawn::of(&draft, "low out") }
}
