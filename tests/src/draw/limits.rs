//! Pairs at the limits of document 01 and one past them.

use super::draft::{Draft, Heading, Map, Step};
use super::full::{full, program_with_bytes, with_locations, with_maps, with_steps, with_types};
use super::headings::often_written_out;
use super::honest;
use super::promise::Promise;
use super::random::Random;
use super::Drawn;
use crate::answer::{Returned, LOCATIONS, MAPS, PLACES, PROGRAM_BYTES, SPLIT_BYTES, STEPS, TYPES, WHOLE, WORK_SPACE};
use crate::types::Type;
use crate::words::Word;

/// A pair at one of the limits, or one past it.
pub fn at_limit(random: &mut Random) -> Drawn {
    let past = random.below(2);
    let draft = honest::draft(random, 10, 2, 4);
    let mut draft = often_written_out(random, draft);
    let mut room = WORK_SPACE;
    match random.below(15) {
        0 => drop(with_steps(random, &mut draft, STEPS as usize + past)),
        1 => with_types(random, &mut draft, TYPES as usize + past),
        2 => with_maps(&mut draft, MAPS as usize + past),
        3 => return past_in_head(random, &mut draft, LOCATIONS as usize, past),
        4 => draft.whole = WHOLE + past as u32,
        5 => last_number_of_maps(random, &mut draft, past),
        6 => last_of_its_kind(random, &mut draft, past),
        7 => constant(random, &mut draft, [65_535, 65_536][past]),
        8 => variable(random, &mut draft, [255, 256][past]),
        9 => room = [WORK_SPACE, WORK_SPACE - 1][past],
        10 => room = random.pick(&[0, 1, WORK_SPACE - 1, WORK_SPACE + 1, WORK_SPACE + 40]),
        11 => return program_of(draft, PROGRAM_BYTES + past),
        12 => draft = smallest(random),
        13 => return reading_places(random),
        _ => return split_of(random, past),
    }
    Drawn { room, ..Drawn::of(&draft, "limit") }
}

/// As many locations as there may be, or a head that says one more, with lines to match.
fn past_in_head(random: &mut Random, draft: &mut Draft, limit: usize, past: usize) -> Drawn {
    with_locations(draft, limit);
    let mut drawn = Drawn::of(draft, "limit");
    if past == 1 {
        let head = drawn.split.iter().position(|&byte| byte == b'\n').unwrap_or(0);
        let mut line = Vec::new();
        draft.push_head(&mut line, limit + 1);
        drawn.split.splice(..=head, line);
        drawn.room += random.below(3);
    }
    drawn
}

/// A program of one step.
fn smallest(random: &mut Random) -> Draft {
    loop {
        let draft = honest::draft(random, 1, 1, 1);
        if draft.steps.len() == 1 {
            return draft;
        }
    }
}

/// A new read-write lock with the fewest or the most reading places, or one past them.
fn reading_places(random: &mut Random) -> Drawn {
    let number = random.pick(&[0, 1, PLACES, PLACES + 1]);
    let step = Step { word: Word::Newrwlock, number, kind: 0, post: 0, start: None };
    let (types, maps) = (vec![Type::Rwlock { reading: 0, writing: 0 }], vec![Map::default()]);
    let draft = Draft { heading: Heading::C, whole: 1, locations: 1, types, maps, steps: vec![step], procedures: None };
    let refused = Promise::Exactly(Returned::at_line(12, 2));
    let promise = if (1..=PLACES).contains(&number) { Promise::Accepted } else { refused };
    Drawn { promise, ..Drawn::of(&draft, "limit") }
}

/// A number of a map at its limit or one past.
fn last_number_of_maps(random: &mut Random, draft: &mut Draft, past: usize) {
    with_maps(draft, draft.maps.len() + 1);
    let (last, location) = (draft.maps.len() - 1, random.below(draft.locations));
    draft.maps[last][location] = WHOLE + past as u32;
}

/// A step's type or map, a body's or the program's start, or what a lock takes back, is the last of its
/// kind or one past.
fn last_of_its_kind(random: &mut Random, draft: &mut Draft, past: usize) {
    let step = random.below(draft.steps.len());
    let (last_type, last_map) = (draft.types.len() - 1 + past, draft.maps.len() - 1 + past);
    match random.below(5) {
        0 => draft.steps[step].kind = last_type,
        1 => draft.steps[step].post = last_map,
        2 => draft.heading = Heading::C2 { start: last_map },
        3 => {
            draft.heading = Heading::C3 { start: draft.start() };
            draft.add_type(Type::Lock { taken: draft.start(), given: last_map });
        }
        _ => draft.steps[step].start = Some(last_map),
    }
}

fn constant(random: &mut Random, draft: &mut Draft, number: u32) {
    set_number(random, draft, &[Word::Int], number);
}

fn variable(random: &mut Random, draft: &mut Draft, number: u32) {
    set_number(random, draft, &[Word::Var, Word::Let], number);
}

/// Gives this number to a drawn step with one of these words, if there is one.
fn set_number(random: &mut Random, draft: &mut Draft, words: &[Word], number: u32) {
    let steps = 0..draft.steps.len();
    let meant: Vec<usize> = steps.filter(|&step| words.contains(&draft.steps[step].word)).collect();
    if !meant.is_empty() {
        draft.steps[random.pick(&meant)].number = number;
    }
}

fn program_of(draft: Draft, bytes: usize) -> Drawn {
    Drawn { program: program_with_bytes(&draft, bytes), ..Drawn::of(&draft, "limit") }
}

/// A full pair, its split as long as it may be or one byte longer.
fn split_of(random: &mut Random, past: usize) -> Drawn {
    Drawn::of(&full(random, SPLIT_BYTES + past), "limit")
}
