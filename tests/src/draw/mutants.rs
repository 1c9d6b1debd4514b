//! Mutants: one thing changed in an honest pair, in the draft or in a sheet's text.

use super::draft::{push_numeral, Draft, Heading, Step};
use super::random::Random;
use crate::answer::{PLACES, WHOLE};
use crate::types::Type;
use crate::words::{Word, WORDS};

/// Changes one word, type, map, number or share of a draft.
pub fn change_draft(random: &mut Random, draft: &mut Draft) {
    if !draft.procedures().is_empty() && random.percent(20) {
        return change_procedure(random, draft);
    }
    let step = random.below(draft.steps.len());
    match random.below(11) {
        0 | 1 => draft.steps[step].kind = random.below(draft.types.len()),
        2 | 3 => draft.steps[step].post = random.below(draft.maps.len()),
        4 => draft.steps[step].start = random.percent(70).then(|| random.below(draft.maps.len())),
        5 => change_word(random, &mut draft.steps[step]),
        6 => change_variable(random, draft),
        7 => change_type(random, draft),
        8 => change_number(random, draft),
        9 => change_heading(random, draft),
        _ => draft.whole = random.pick(&[1, 2, draft.whole + 1, draft.whole.max(2) - 1, WHOLE]),
    }
}

/// Another map or type in a procedure's line, another x, or another procedure that is called.
fn change_procedure(random: &mut Random, draft: &mut Draft) {
    let (types, maps, calls) = (draft.types.len(), draft.maps.len(), draft.procedures().len());
    let called: Vec<usize> = (0..draft.steps.len()).filter(|&step| draft.steps[step].word == Word::Call).collect();
    let Some(procedures) = &mut draft.procedures else { return };
    let procedure = &mut procedures[random.below(calls)];
    match random.below(6) {
        0 => procedure.before = random.below(maps),
        1 => procedure.argument = random.below(types),
        2 => procedure.after = random.below(maps),
        3 => procedure.result = random.below(types),
        4 => procedure.variable = random.between(0, 255),
        _ if called.is_empty() => {}
        _ => draft.steps[random.pick(&called)].number = random.below(calls + 1) as u32,
    }
}

/// Another word, with a number that it may have.
fn change_word(random: &mut Random, step: &mut Step) {
    let known = step.word;
    step.word = word_like(random, known);
    if step.word == Word::Newrwlock || known == Word::Newrwlock {
        step.number = u32::from(step.word == Word::Newrwlock) * random.between(1, PLACES);
    }
}

/// Most often a word with as many parts, so that the tree stays.
fn word_like(random: &mut Random, word: Word) -> Word {
    loop {
        let other = random.pick(&WORDS);
        if other.parts() == word.parts() || random.percent(5) {
            return other;
        }
    }
}

/// Gives a `let` or a `var` the variable of another `let`, or gives any step any number.
fn change_variable(random: &mut Random, draft: &mut Draft) {
    let steps_with = |words: &[Word]| -> Vec<usize> {
        (0..draft.steps.len()).filter(|&step| words.contains(&draft.steps[step].word)).collect()
    };
    let (lets, both) = (steps_with(&[Word::Let]), steps_with(&[Word::Let, Word::Var]));
    if lets.is_empty() || random.percent(20) {
        let step = random.below(draft.steps.len());
        draft.steps[step].number = random.between(0, 300);
        return;
    }
    draft.steps[random.pick(&both)].number = draft.steps[random.pick(&lets)].number;
}

/// Another start, or another heading.
fn change_heading(random: &mut Random, draft: &mut Draft) {
    draft.heading = match draft.heading {
        Heading::C2 { .. } | Heading::C3 { .. } if random.percent(30) => Heading::C,
        _ if random.percent(50) => Heading::C2 { start: random.below(draft.maps.len()) },
        _ => Heading::C3 { start: random.below(draft.maps.len()) },
    };
}

fn change_type(random: &mut Random, draft: &mut Draft) {
    let own = random.below(draft.types.len());
    let map = random.below(draft.maps.len());
    let location = random.below(draft.locations);
    draft.types[own] = match random.below(6) {
        0 if draft.has_two_loads() => Type::Lock { taken: map, given: random.below(draft.maps.len()) },
        0 => Type::lock(map),
        1 => Type::Tid(map),
        2 => Type::Sem(map),
        4 => Type::Rwlock { reading: map, writing: random.below(draft.maps.len()) },
        3 => Type::Ref { location, content: random.below(own.max(1)) },
        _ => Type::Int,
    };
}

fn change_number(random: &mut Random, draft: &mut Draft) {
    let map = random.below(draft.maps.len());
    let location = random.below(draft.locations);
    let whole = draft.whole;
    let number = &mut draft.maps[map][location];
    *number = random.pick(&[*number + 1, number.saturating_sub(1), 0, whole, whole + 1, whole / 2]);
}

/// Changes a sheet's text in one place: a byte, a numeral or a line.
pub fn change_text(random: &mut Random, text: &mut Vec<u8>) {
    match random.below(11) {
        0 => change_byte(random, text),
        1 => drop_byte(random, text),
        2 => insert_byte(random, text),
        3..=6 => change_numeral(random, text),
        7 => drop_line(random, text),
        8 => double_line(random, text),
        9 => swap_lines(random, text),
        _ => text.truncate(random.below(text.len() + 1)),
    }
}

/// Bytes that matter to the formats, to be met more often than others.
const TELLING: &[u8] = b"\n\n,,001239 \r-+PCintrefvlk\0\xff";

fn drawn_byte(random: &mut Random) -> u8 {
    if random.percent(80) {
        random.pick(TELLING)
    } else {
        random.byte()
    }
}

fn change_byte(random: &mut Random, text: &mut [u8]) {
    if !text.is_empty() {
        let place = random.below(text.len());
        text[place] = drawn_byte(random);
    }
}

fn drop_byte(random: &mut Random, text: &mut Vec<u8>) {
    if !text.is_empty() {
        // The last byte, which closes the text, is worth a chance of its own.
        let place = if random.percent(20) { text.len() - 1 } else { random.below(text.len()) };
        text.remove(place);
    }
}

fn insert_byte(random: &mut Random, text: &mut Vec<u8>) {
    let place = random.below(text.len() + 1);
    text.insert(place, drawn_byte(random));
}

/// The places of the runs of digits.
fn numerals(text: &[u8]) -> Vec<std::ops::Range<usize>> {
    let mut runs: Vec<std::ops::Range<usize>> = Vec::new();
    for (place, byte) in text.iter().enumerate() {
        match runs.last_mut() {
            _ if !byte.is_ascii_digit() => {}
            Some(run) if run.end == place => run.end += 1,
            _ => runs.push(place..place + 1),
        }
    }
    runs
}

/// Numbers at the ends of the ranges of the documents and of machine words, and one past them.
const EDGES: &[u64] = &[
    0,
    1,
    2,
    15,
    16,
    17,
    63,
    64,
    65,
    255,
    256,
    257,
    511,
    512,
    513,
    65_535,
    65_536,
    1_000_000,
    10_000_000,
    999_999_999,
    1_000_000_000,
    1_000_000_001,
    (1 << 31) - 1,
    1 << 31,
    (1 << 32) - 1,
    1 << 32,
    (1 << 32) + 1,
    9_999_999_999,
    10_000_000_000,
    99_999_999_999,
    u64::MAX,
];

fn change_numeral(random: &mut Random, text: &mut Vec<u8>) {
    let runs = numerals(text);
    if runs.is_empty() {
        return;
    }
    let run = runs[random.below(runs.len())].clone();
    let known = text[run.clone()].iter().take(12).fold(0, |value, digit| value * 10 + u64::from(digit - b'0'));
    let mut numeral = Vec::new();
    match random.below(8) {
        0 => numeral.extend_from_slice(b"0"),
        1 => {}
        2 | 3 => push_numeral(&mut numeral, random.pick(EDGES)),
        4 => push_numeral(&mut numeral, known + 1),
        5 => push_numeral(&mut numeral, known.saturating_sub(1)),
        6 => push_numeral(&mut numeral, random.below(21) as u64),
        _ => {
            numeral.push(b'0');
            push_numeral(&mut numeral, known);
        }
    }
    text.splice(run, numeral);
}

/// The place of a drawn line, closing byte included.
fn drawn_line(random: &mut Random, text: &[u8]) -> std::ops::Range<usize> {
    let lines: Vec<&[u8]> = text.split_inclusive(|&byte| byte == b'\n').collect();
    if lines.is_empty() {
        return 0..0;
    }
    let number = random.below(lines.len());
    let start = lines[..number].iter().map(|line| line.len()).sum();
    start..start + lines[number].len()
}

fn drop_line(random: &mut Random, text: &mut Vec<u8>) {
    let line = drawn_line(random, text);
    text.drain(line);
}

fn double_line(random: &mut Random, text: &mut Vec<u8>) {
    let line = drawn_line(random, text);
    let copy = text[line.clone()].to_vec();
    text.splice(line.start..line.start, copy);
}

fn swap_lines(random: &mut Random, text: &mut Vec<u8>) {
    let (one, other) = (drawn_line(random, text), drawn_line(random, text));
    if one.end <= other.start {
        let parts =
            [&text[..one.start], &text[other.clone()], &text[one.end..other.start], &text[one], &text[other.end..]];
        *text = parts.concat();
    }
}
