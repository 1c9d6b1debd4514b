//! Drafts brought to an exact size: so many steps, types, maps, locations or bytes of split.

use super::draft::{push_numeral, Draft, Map, Step};
use super::headings::often_written_out;
use super::honest;
use super::random::Random;
use crate::answer::{LOCATIONS, MAPS, SPLIT_BYTES, STEPS, TYPES, WHOLE};
use crate::types::Type;
use crate::words::Word;

/// An honest draft at every limit at once, its split `bytes` long.
pub fn full(random: &mut Random, bytes: usize) -> Draft {
    loop {
        let draft = honest::draft(random, 235, LOCATIONS as usize, WHOLE);
        let mut draft = often_written_out(random, draft);
        if with_steps(random, &mut draft, STEPS as usize) && filled(random, &mut draft, bytes) {
            return draft;
        }
    }
}

/// The longest honest pair.
pub fn fullest(random: &mut Random) -> Draft {
    full(random, SPLIT_BYTES)
}

/// As long a pair, refused for the last location of the last condition of the last step: a constant
/// in a loop that ends with more than it starts with.
pub fn refused_last(random: &mut Random) -> Draft {
    loop {
        let mut draft = honest::draft(random, 232, LOCATIONS as usize, WHOLE);
        if with_steps(random, &mut draft, STEPS as usize - 3) {
            end_with_faulty_loop(&mut draft);
            if filled(random, &mut draft, SPLIT_BYTES) {
                return draft;
            }
        }
    }
}

/// Puts the program into the e1 of a `let` whose e2 is the loop.
fn end_with_faulty_loop(draft: &mut Draft) {
    let int = draft.types.iter().position(|kind| *kind == Type::Int).expect("there is an int type");
    let variable = unbound_variables(draft)[0];
    let mut map = draft.maps[draft.steps[0].post];
    let last = draft.locations - 1;
    map[last] = 0;
    let kept = draft.add_map(map);
    map[last] = 1;
    let more = draft.add_map(map);
    let plain = |word, number, post| Step { word, number, kind: int, post, start: None };
    draft.steps.insert(0, plain(Word::Let, variable, kept));
    draft.steps.push(plain(Word::While, 0, kept));
    draft.steps.push(plain(Word::Int, 0, more));
}

/// Adds unused types and maps up to their limits, and digits up to `bytes`.
fn filled(random: &mut Random, draft: &mut Draft, bytes: usize) -> bool {
    with_types(random, draft, TYPES as usize);
    let used = draft.maps.len();
    with_maps(draft, MAPS as usize);
    used <= MAPS as usize && lengthen(random, draft, used, bytes)
}

/// Wraps the program in `let`s of constants and of loops until it has `count` steps. False when
/// one step is missing, which no `let` can add.
pub fn with_steps(random: &mut Random, draft: &mut Draft, count: usize) -> bool {
    let Some(int) = draft.types.iter().position(|kind| *kind == Type::Int) else { return false };
    let mut unbound = unbound_variables(draft);
    while draft.steps.len() + 1 < count {
        let missing = count - draft.steps.len();
        let with_loop = missing == 3 || (missing > 4 && random.percent(30));
        let Some(variable) = unbound.pop() else { return false };
        wrap(draft, variable, int, with_loop);
    }
    draft.steps.len() == count
}

fn unbound_variables(draft: &Draft) -> Vec<u32> {
    let binds = |variable: u32| draft.steps.iter().any(|step| step.word == Word::Let && step.number == variable);
    (0..256).filter(|&variable| !binds(variable)).collect()
}

/// Puts `let variable = 0 in` in front, or `let variable = while * do 0 in`.
fn wrap(draft: &mut Draft, variable: u32, int: usize, with_loop: bool) {
    let (root, post) = (draft.steps[0], draft.start());
    let plain = |word| Step { word, number: 0, kind: int, post, start: None };
    let mut front = vec![Step { word: Word::Let, number: variable, ..root }];
    front[0].start = None;
    if with_loop {
        front.push(plain(Word::While));
    }
    front.push(plain(Word::Int));
    draft.steps.splice(0..0, front);
}

/// Adds types that no step has, up to `count`.
pub fn with_types(random: &mut Random, draft: &mut Draft, count: usize) {
    while draft.types.len() < count {
        let content = random.below(draft.types.len());
        let kind = match random.below(6) {
            0 => Type::Int,
            1 => Type::lock(random.below(draft.maps.len())),
            2 => Type::Tid(random.below(draft.maps.len())),
            3 => Type::Sem(random.below(draft.maps.len())),
            4 => {
                let (reading, writing) = (random.below(draft.maps.len()), random.below(draft.maps.len()));
                Type::Rwlock { reading, writing }
            }
            _ => Type::Ref { location: random.below(draft.locations), content },
        };
        draft.types.push(kind);
    }
}

/// Adds maps of zeros that no step has, up to `count`.
pub fn with_maps(draft: &mut Draft, count: usize) {
    while draft.maps.len() < count {
        draft.maps.push(Map::default());
    }
}

/// Adds locations that no cell has, up to `count`; every map has nothing of them.
pub fn with_locations(draft: &mut Draft, count: usize) {
    draft.locations = draft.locations.max(count);
}

/// Gives the numbers of the maps from `unused` on more digits until the split has `bytes` bytes.
pub fn lengthen(random: &mut Random, draft: &mut Draft, unused: usize, bytes: usize) -> bool {
    let Some(mut missing) = bytes.checked_sub(draft.split().len()) else { return false };
    let locations = draft.locations;
    let mut places = (draft.maps.len() - unused) * locations;
    for number in draft.maps[unused..].iter_mut().flat_map(|map| &mut map[..locations]) {
        // The places behind this one can take 9 more digits each, so what is over falls due here.
        places -= 1;
        let due = missing.saturating_sub(9 * places);
        let more = missing.min(due.max(random.below(10)));
        if more > 9 {
            return false;
        }
        *number = with_digits(random, more + 1);
        missing -= more;
    }
    missing == 0
}

/// A number of so many digits, at most 1,000,000,000.
fn with_digits(random: &mut Random, digits: usize) -> u32 {
    match 10_u32.pow(digits as u32 - 1) {
        1 => random.between(0, 9),
        WHOLE => WHOLE,
        low => random.between(low, low * 10 - 1),
    }
}

/// A program sheet of exactly `bytes` bytes: the draft's, and spare bytes behind it.
pub fn program_with_bytes(draft: &Draft, bytes: usize) -> Vec<u8> {
    let mut text = draft.program();
    while text.len() < bytes {
        push_numeral(&mut text, 1_u32);
    }
    text
}
