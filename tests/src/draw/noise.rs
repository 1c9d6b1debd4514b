//! Noise: bytes, scraps of the formats, and drawn trees with drawn splits.

use super::draft::{Draft, Heading, Map, Step};
use super::promise::Promise;
use super::random::Random;
use super::Drawn;
use crate::answer::WORK_SPACE;
use crate::types::Type;
use crate::words::{Word, WORDS};

/// A pair that nobody worked out.
pub fn noise(random: &mut Random) -> Drawn {
    let honest_program = b"P,1\nint,0\n".to_vec();
    let (program, split) = match random.below(8) {
        0 => (bytes(random), bytes(random)),
        1 => (honest_program, bytes(random)),
        2 => (scraps(random, b"P,"), scraps(random, b"C,")),
        3 => {
            let heading = random.pick(&[b"C,".as_slice(), b"C2,", b"C3,"]);
            (honest_program, scraps(random, heading))
        }
        _ => return Drawn::of(&drawn_tree(random), "noise"),
    };
    Drawn { program, split, room: WORK_SPACE, origin: "noise", promise: Promise::Open }
}

fn bytes(random: &mut Random) -> Vec<u8> {
    let length = random.pick(&[0, 1, 4, 40, 400]);
    (0..length).map(|_| random.byte()).collect()
}

/// Words, numerals, commas and line ends in no order.
fn scraps(random: &mut Random, opening: &[u8]) -> Vec<u8> {
    let known: [&[u8]; 13] = [
        b",",
        b",",
        b"\n",
        b"\n",
        b"0",
        b"1",
        b"2",
        b"int",
        b"ref,0,0\n",
        b"0,0,\n",
        b"int,0\n",
        b"int,0,0\n",
        b"freelock,0\n",
    ];
    let mut text = opening.to_vec();
    for _ in 0..random.below(30) {
        let scrap = random.pick(&known);
        text.extend_from_slice(scrap);
    }
    text
}

/// A tree of drawn words with drawn types and maps, all of them in range.
fn drawn_tree(random: &mut Random) -> Draft {
    let locations = 1 + random.below(3);
    let start = random.below(3);
    let heading = random.pick(&[Heading::C, Heading::C2 { start }, Heading::C3 { start }]);
    let (types, maps, steps) = (vec![Type::Int], Vec::new(), Vec::new());
    let mut draft = Draft { heading, whole: 2, locations, types, maps, steps, procedures: None };
    for _ in 0..3 {
        let mut map = Map::default();
        map[..locations].fill_with(|| random.between(0, 2));
        draft.maps.push(map);
    }
    for own in 1..4 {
        let map = random.below(3);
        let cell = Type::Ref { location: random.below(locations), content: random.below(own) };
        let readers = Type::Rwlock { reading: map, writing: random.below(3) };
        draft.types.push(random.pick(&[Type::Int, cell, Type::lock(map), Type::Tid(map), Type::Sem(map), readers]));
    }
    let mut open = 1;
    while open > 0 && draft.steps.len() < 256 {
        let step = drawn_step(random, open);
        open = open - 1 + step.word.parts();
        draft.steps.push(step);
    }
    if random.percent(10) {
        draft.steps.pop();
    }
    draft
}

fn drawn_step(random: &mut Random, open: usize) -> Step {
    let word = if open > 4 { random.pick(&[Word::Int, Word::Var]) } else { random.pick(&WORDS) };
    let number = match word {
        Word::Var | Word::Let => random.between(0, 5),
        Word::Int => random.between(0, 9),
        Word::Newrwlock => random.between(1, 3),
        _ => 0,
    };
    let start = (word == Word::Spawn && random.percent(80)).then(|| random.below(3));
    Step { word, number, kind: random.below(4), post: random.below(3), start }
}
