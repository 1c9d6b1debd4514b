//! Long numerals: one field of an honest pair replaced by a number past 999,999,998.
//!
//! Only D and the numbers of maps go that far, up to 1,000,000,000. So elsewhere the answer is known:
//! out of range up to ten digits, the wrong form past them.

use super::draft::{Draft, Heading};
use super::promise::Promise;
use super::random::Random;
use super::Drawn;
use crate::answer::{Returned, WHOLE};
use crate::types::Type;
use crate::words::Word;

/// The least number of eleven digits.
const ELEVEN_DIGITS: u128 = 10_000_000_000;
const TWO_TO_32: u128 = 1 << 32;
const TWO_TO_64: u128 = 1 << 64;

/// A field, counted from 0 on a line counted from 1, and whether it may be as great as a whole.
struct Place {
    of_program: bool,
    line: usize,
    field: usize,
    wide: bool,
}

/// An honest pair with one long numeral in a drawn kind of place.
pub fn long_numeral(random: &mut Random, draft: &Draft) -> Drawn {
    let place = if random.percent(30) { place_in_program(random, draft) } else { place_in_split(random, draft) };
    let mut drawn = Drawn::of(draft, "long numeral");
    let text = if place.of_program { &mut drawn.program } else { &mut drawn.split };
    let number = drawn_number(random, field_of(text, &place));
    replace(text, &place, number);
    drawn.promise = promise(&place, number);
    drawn
}

/// Numbers around the limits of the format and of machine words. A reader that drops high bits takes
/// the last four for the number that was there.
fn drawn_number(random: &mut Random, known: u128) -> u128 {
    let whole = u128::from(WHOLE);
    random.pick(&[
        whole - 1,
        whole,
        whole + 1,
        (1 << 31) - 1,
        1 << 31,
        (1 << 31) + 1,
        TWO_TO_32 - 1,
        ELEVEN_DIGITS - 1,
        ELEVEN_DIGITS,
        10 * ELEVEN_DIGITS - 1,
        TWO_TO_32 + known,
        2 * TWO_TO_32 + known,
        256 * TWO_TO_32 + known,
        TWO_TO_64 + known,
    ])
}

fn promise(place: &Place, number: u128) -> Promise {
    let base = if place.of_program { 10 } else { 20 };
    let refused = |number| Promise::Exactly(Returned::at_line(number, place.line as u32));
    match number {
        ELEVEN_DIGITS.. => refused(base + 1),
        _ if place.wide && number <= u128::from(WHOLE) => Promise::Open,
        _ => refused(base + 2),
    }
}

/// The head, or a step; each word that the program has is as likely as another.
fn place_in_program(random: &mut Random, draft: &Draft) -> Place {
    let mut words: Vec<Word> = draft.steps.iter().map(|step| step.word).collect();
    words.sort();
    words.dedup();
    let word = random.below(words.len() + 1);
    let steps = 0..draft.steps.len();
    let line = match words.get(word) {
        None => 1,
        Some(word) => 2 + drawn_where(random, steps, |step| draft.steps[step].word == *word),
    };
    Place { of_program: true, line, field: 1, wide: false }
}

/// A field of the head, of a type line, of a map line or of a row.
fn place_in_split(random: &mut Random, draft: &Draft) -> Place {
    let (types, maps) = (draft.types.len(), draft.maps.len());
    let (line, field, wide) = match random.below(7) {
        0 => (1, 1, true),
        1 => (1, 2 + random.below(3 + usize::from(!matches!(draft.heading, Heading::C))), false),
        2 => (2 + drawn_type(random, draft), 1 + random.below(2), false),
        3 => (2 + types + random.below(maps), random.below(draft.locations), true),
        4 => (draft.row_of(random.below(draft.steps.len())), random.below(2), false),
        5 => (draft.row_of(random.below(draft.steps.len())), 2, false),
        _ => (draft.row_of(drawn_spawn(random, draft)), 2, false),
    };
    Place { of_program: false, line, field, wide }
}

/// A type; each kind that there is is as likely as another.
fn drawn_type(random: &mut Random, draft: &Draft) -> usize {
    let cell = Type::Ref { location: 0, content: 0 };
    let readers = Type::Rwlock { reading: 0, writing: 0 };
    let wanted = random.pick(&[Type::Int, cell, Type::lock(0), Type::Tid(0), Type::Sem(0), readers]);
    let alike = |kind: usize| std::mem::discriminant(&draft.types[kind]) == std::mem::discriminant(&wanted);
    drawn_where(random, 0..draft.types.len(), alike)
}

fn drawn_spawn(random: &mut Random, draft: &Draft) -> usize {
    drawn_where(random, 0..draft.steps.len(), |step| draft.steps[step].word == Word::Spawn)
}

/// One of a range that meets a test, or any when none does.
fn drawn_where(random: &mut Random, range: std::ops::Range<usize>, meets: impl Fn(usize) -> bool) -> usize {
    let meant: Vec<usize> = range.clone().filter(|&place| meets(place)).collect();
    match meant.is_empty() {
        true => random.below(range.len()),
        false => random.pick(&meant),
    }
}

/// The bytes of a field in a text.
fn bytes_of(text: &[u8], place: &Place) -> std::ops::Range<usize> {
    let ends = |byte: u8| move |&(_, found): &(usize, &u8)| *found == byte;
    let after = |from: usize, byte: u8, count: usize| match count {
        0 => from,
        _ => from + 1 + text[from..].iter().enumerate().filter(ends(byte)).nth(count - 1).map_or(0, |found| found.0),
    };
    let start = after(after(0, b'\n', place.line - 1), b',', place.field);
    let length = text[start..].iter().position(|byte| !byte.is_ascii_digit()).unwrap_or(0);
    start..start + length
}

/// The number in a field, 0 if the field is empty.
fn field_of(text: &[u8], place: &Place) -> u128 {
    text[bytes_of(text, place)].iter().fold(0, |value, digit| value * 10 + u128::from(digit - b'0'))
}

fn replace(text: &mut Vec<u8>, place: &Place, number: u128) {
    let bytes = bytes_of(text, place);
    text.splice(bytes, number.to_string().into_bytes());
}
