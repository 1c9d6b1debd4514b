//! Long types: chains of refs that are written twice and agree down to the last, or differ in one spot.

use super::draft::{Draft, Heading, Map, Step};
use super::headings::often_written_out;
use super::promise::Promise;
use super::random::Random;
use super::Drawn;
use crate::answer::TYPES;
use crate::types::Type;
use crate::words::Word;

/// Map 0 holds the whole of each location, these hold nothing, and the last one a little at the end.
const NOTHING: usize = 1;
const NOTHING_AGAIN: usize = 2;
const NEARLY_NOTHING: usize = 3;

/// `let x = ref .. ref v in x`, the use of x with the type written a second time.
pub fn chain(random: &mut Random) -> Drawn {
    let shares_content = random.percent(30);
    let longest = if shares_content { TYPES as usize - 2 } else { TYPES as usize / 2 - 1 };
    let length = 1 + random.below(longest);
    let locations = 1 + random.below(3);
    let mut draft = empty(locations);
    let bottom = random.pick(&[
        Type::Int,
        Type::lock(NOTHING),
        Type::Tid(NOTHING),
        Type::Sem(NOTHING),
        readers(NOTHING, NOTHING),
    ]);
    let places: Vec<usize> = (0..length).map(|_| random.below(locations)).collect();
    let levels = write_chain(&mut draft, bottom, &places);
    let mut differs = false;
    let shown = if shares_content {
        draft.add_type(Type::Ref { location: places[length - 1], content: levels[length - 1] })
    } else {
        let (mut bottom, mut places) = (again(bottom), places);
        differs = random.percent(50) && differ(random, &mut bottom, &mut places, locations);
        *write_chain(&mut draft, bottom, &places).last().expect("a chain has a bottom")
    };
    write_steps(&mut draft, &levels, shown);
    let draft = often_written_out(random, draft);
    let promise = if differs { Promise::Breaks(Word::Var, 1) } else { Promise::Accepted };
    Drawn { promise, ..Drawn::of(&draft, "chain") }
}

fn empty(locations: usize) -> Draft {
    let mut whole = Map::default();
    whole[..locations].fill(1);
    let mut nearly = Map::default();
    nearly[locations - 1] = 1;
    let maps = vec![whole, Map::default(), Map::default(), nearly];
    Draft { heading: Heading::C, whole: 1, locations, types: Vec::new(), maps, steps: Vec::new(), procedures: None }
}

/// The lines of a chain from its bottom up.
fn write_chain(draft: &mut Draft, bottom: Type, places: &[usize]) -> Vec<usize> {
    let mut levels = vec![draft.add_type(bottom)];
    for (level, &location) in places.iter().enumerate() {
        levels.push(draft.add_type(Type::Ref { location, content: levels[level] }));
    }
    levels
}

const fn readers(reading: usize, writing: usize) -> Type {
    Type::Rwlock { reading, writing }
}

/// A type that agrees, with its map under another number.
fn again(kind: Type) -> Type {
    match kind {
        Type::Lock { .. } => Type::lock(NOTHING_AGAIN),
        Type::Tid(_) => Type::Tid(NOTHING_AGAIN),
        Type::Sem(_) => Type::Sem(NOTHING_AGAIN),
        Type::Rwlock { .. } => readers(NOTHING_AGAIN, NOTHING),
        other => other,
    }
}

/// Changes one spot of a chain: its bottom's kind or map, or one ref's location. False when it cannot.
fn differ(random: &mut Random, bottom: &mut Type, places: &mut [usize], locations: usize) -> bool {
    if random.percent(50) {
        *bottom = match *bottom {
            Type::Int => random.pick(&[Type::lock(NOTHING), Type::Tid(NOTHING)]),
            Type::Lock { .. } => random.pick(&[Type::Int, Type::lock(NEARLY_NOTHING), Type::Tid(NOTHING)]),
            Type::Tid(_) => random.pick(&[Type::Int, Type::Tid(NEARLY_NOTHING), Type::Sem(NOTHING)]),
            Type::Sem(_) => random.pick(&[Type::Int, Type::Sem(NEARLY_NOTHING), Type::lock(NOTHING)]),
            _ => random.pick(&[readers(NEARLY_NOTHING, NOTHING), readers(NOTHING, NEARLY_NOTHING), Type::Sem(NOTHING)]),
        };
        return true;
    }
    let place = if random.percent(50) { 0 } else { random.below(places.len()) };
    places[place] = (places[place] + 1) % locations;
    locations > 1
}

/// The program with the first chain's types, and the type shown at the use.
fn write_steps(draft: &mut Draft, levels: &[usize], shown: usize) {
    let step = |word, kind| {
        let number = u32::from(word == Word::Newrwlock);
        Step { word, number, kind, post: 0, start: None }
    };
    draft.steps.push(step(Word::Let, shown));
    for &level in levels[1..].iter().rev() {
        draft.steps.push(step(Word::Ref, level));
    }
    draft.steps.push(step(draft.types[levels[0]].maker(), levels[0]));
    draft.steps.push(step(Word::Var, shown));
}
