//! Accepted pairs of given counts, in which each count costs much: types are deep, maps have long numbers, and
//! most types and maps are compared under two numbers.

use evidence::answer::WHOLE;
use evidence::draw::draft::{Draft, Heading, Map, Procedure, Step};
use evidence::types::Type;
use evidence::words::Word;

/// How many of each thing a pair has.
#[derive(Clone, Copy)]
pub struct Counts {
    /// At least twice the procedures and four more.
    pub steps: usize,
    pub maps: usize,
    pub locations: usize,
    /// An even number from 4.
    pub types: usize,
    /// At least one.
    pub procedures: usize,
}

/// The counts beside one that grows.
pub const USUAL: Counts = Counts { steps: 64, maps: 64, locations: 4, types: 16, procedures: 4 };

impl Counts {
    /// The usual counts with another number of one thing, if there is a thing of this name.
    pub fn with(what: &str, count: usize) -> Option<Counts> {
        let mut counts = USUAL;
        let place = match what {
            "steps" => &mut counts.steps,
            "maps" => &mut counts.maps,
            "locations" => &mut counts.locations,
            "types" => &mut counts.types,
            "procedures" => &mut counts.procedures,
            _ => return None,
        };
        *place = count;
        Some(counts)
    }
}

/// The variable that the root binds; the procedures have those from `FIRST_X` on.
const BOUND: u32 = 200;
const FIRST_X: u32 = 100;
/// Type 0, and what the maps hold.
const INT: usize = 0;
const HELD: u32 = WHOLE - 1;

pub fn draft(counts: Counts) -> Draft {
    let mut maps = vec![map(HELD, counts.locations); counts.maps - 1];
    maps.push(Map::default());
    let mut types = vec![Type::Int];
    // Two chains of refs, one of odd and one of even numbers.
    types.extend((1..counts.types).map(|own| Type::Ref { location: 0, content: own.saturating_sub(2) }));
    let mut draft = Draft {
        heading: Heading::C2 { start: 0 },
        whole: WHOLE,
        locations: counts.locations,
        types,
        maps,
        steps: Vec::with_capacity(counts.steps),
        procedures: Some(Vec::new()),
    };
    for own in 0..counts.procedures {
        add_procedure(&mut draft, own);
    }
    add_root(&mut draft, counts);
    draft
}

fn map(held: u32, locations: usize) -> Map {
    std::array::from_fn(|location| if location < locations { held } else { 0 })
}

/// The ends of the two chains agree; steps and procedures show them in turn.
fn deep(draft: &Draft, turn: usize) -> usize {
    draft.types.len() - 2 - turn % 2
}

/// The maps but the last hold the same; steps show the first of them in turn.
fn held(draft: &Draft, turn: usize) -> usize {
    turn % (draft.maps.len() - 1).min(32)
}

/// The last map, which holds nothing.
fn nothing(draft: &Draft) -> usize {
    draft.maps.len() - 1
}

/// A procedure that calls itself for ever, so that it may give a thing that nobody made. It starts and ends with
/// nothing.
fn add_procedure(draft: &mut Draft, own: usize) {
    let (body, nothing, result) = (draft.steps.len(), nothing(draft), deep(draft, own));
    let variable = FIRST_X + own as u32;
    let procedure = Procedure { variable, body, before: nothing, argument: INT, after: nothing, result };
    draft.procedures.iter_mut().for_each(|procedures| procedures.push(procedure));
    let kind = deep(draft, own + 1);
    draft.steps.push(Step { word: Word::Call, number: own as u32, kind, post: nothing, start: Some(nothing) });
    draft.steps.push(Step { word: Word::Var, number: variable, kind: INT, post: nothing, start: None });
}

/// What a procedure gives is bound, and the steps left choose between it and what the procedures give: one `var`
/// and two calls in turn, which is a round of eight steps.
fn add_root(draft: &mut Draft, counts: Counts) {
    add(draft, Word::Let, BOUND);
    add_call(draft, counts);
    for choice in 0.. {
        match counts.steps - draft.steps.len() {
            1 => return add(draft, Word::Var, BOUND),
            2 => return add_call(draft, counts),
            3 => add_choice(draft, counts, true),
            _ => add_choice(draft, counts, choice % 3 == 0),
        }
    }
}

/// Adds an `if` with its first part.
fn add_choice(draft: &mut Draft, counts: Counts, with_var: bool) {
    add(draft, Word::If, 0);
    if with_var {
        add(draft, Word::Var, BOUND);
    } else {
        add_call(draft, counts);
    }
}

/// Adds a step of a deep type.
fn add(draft: &mut Draft, word: Word, number: u32) {
    let turn = draft.steps.len();
    let (kind, post) = (deep(draft, turn), held(draft, turn));
    draft.steps.push(Step { word, number, kind, post, start: None });
}

/// Adds a call with a constant. It keeps back all.
fn add_call(draft: &mut Draft, counts: Counts) {
    let turn = draft.steps.len();
    add(draft, Word::Call, (turn % counts.procedures) as u32);
    draft.steps[turn].start = Some(held(draft, turn + 2));
    add(draft, Word::Int, 0);
    draft.steps[turn + 1].kind = INT;
}

#[cfg(test)]
mod tests {
    use super::*;
    use evidence::answer::{Returned, LOCATIONS, MAPS, PROCEDURES, STEPS, TYPES, WORK_SPACE};
    use evidence::second;

    #[test]
    fn pairs_have_their_counts_and_are_accepted() {
        let most = [("steps", STEPS), ("maps", MAPS), ("locations", LOCATIONS), ("types", TYPES)];
        for (what, most) in most.into_iter().chain([("procedures", PROCEDURES)]) {
            for count in [most / 4, most / 2, most] {
                let counts = Counts::with(what, count as usize).expect("a count has a name");
                let draft = draft(counts);
                let found = [draft.steps.len(), draft.maps.len(), draft.locations, draft.types.len()];
                assert_eq!(found, [counts.steps, counts.maps, counts.locations, counts.types]);
                assert_eq!(draft.procedures().len(), counts.procedures);
                let returned = second::check(&draft.program(), &draft.split(), WORK_SPACE);
                assert_eq!(returned, Returned::ACCEPT, "{count} {what}");
            }
        }
    }
}
