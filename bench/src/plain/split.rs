//! The split sheet: types, maps, procedures and the three numbers of each step (refusals 21 to 23, 40 and 50).

use super::maps::Map;
use super::program::Program;
use super::space::Space;
use super::text::{Fields, Text};
use super::types::Kind;
use evidence::answer::{Returned, LOCATIONS, MAPS, TYPES, WHOLE};
use evidence::words::Word;

pub struct Head {
    /// D, the denominator.
    pub whole: u32,
    locations: u32,
    pub types: u32,
    maps: u32,
    /// The map that the program starts with.
    pub start: u32,
    heading: Heading,
}

/// How line 1 opens.
#[derive(Clone, Copy, PartialEq, Eq)]
enum Heading {
    C,
    C2,
    C3,
}

/// Reads the whole sheet into its tables, beside its program.
pub fn read<'a, F: Fields<'a>>(split: &'a [u8], program: &Program, space: &mut Space) -> Result<Head, Returned> {
    let mut text = Text::<F>::new(split, 20);
    let head = read_head(&mut text)?;
    for own in 0..head.types {
        let (kind, first, second) = read_type(&mut text, &head, own)?;
        space.types.put(own as usize, kind, first, second);
    }
    for map in &mut space.maps.0[..head.maps as usize] {
        read_map(&mut text, &head, map)?;
    }
    space.maps.0[head.maps as usize] = Map::default();
    for signature in &mut space.signatures.0[..program.procedures] {
        *signature = read_signature(&mut text, &head)?;
    }
    for line in 0..program.lines {
        let word = space.lines.at(line).word;
        if word != Word::Proc {
            let [kind, post, start] = read_mark(&mut text, &head, word)?;
            space.marks.put(line, kind, post, start);
        }
    }
    text.end()?;
    Ok(head)
}

/// Reads `C,D,L,T,M`, which starts with map 0, `C2,D,L,T,M,r`, or `C3` with the fields of `C2`.
fn read_head<'a, F: Fields<'a>>(text: &mut Text<F>) -> Result<Head, Returned> {
    let head = text.line(|line| {
        line.byte(b'C')?;
        let heading = match (line.byte(b'2'), line.byte(b'3')) {
            (None, None) => Heading::C,
            (Some(()), None) => Heading::C2,
            (None, Some(())) => Heading::C3,
            (Some(()), Some(())) => return None,
        };
        line.byte(b',')?;
        let [whole, locations, types] = [line.field(b',')?, line.field(b',')?, line.field(b',')?];
        let (maps, start) = match heading {
            Heading::C => (line.field(b'\n')?, 0),
            Heading::C2 | Heading::C3 => (line.field(b',')?, line.field(b'\n')?),
        };
        Some(Head { whole, locations, types, maps, start, heading })
    })?;
    text.in_range((1..=WHOLE).contains(&head.whole) && (1..=LOCATIONS).contains(&head.locations))?;
    text.in_range((1..=TYPES).contains(&head.types) && (1..=MAPS).contains(&head.maps))?;
    text.in_range(head.start < head.maps)?;
    Ok(head)
}

/// Reads the line of type number `own`. A lock with one map gives what it takes.
fn read_type<'a, F: Fields<'a>>(text: &mut Text<F>, head: &Head, own: u32) -> Result<(Kind, u32, u32), Returned> {
    let (kind, first, second) = text.line(|line| Some((line.kind()?, line.field(b',')?, line.field(b'\n')?)))?;
    let one_load = kind == Kind::Lock && head.heading != Heading::C3;
    let (firsts, seconds) = match kind {
        Kind::Int => (1, 1),
        Kind::Ref => (head.locations, own),
        Kind::Tid | Kind::Sem => (head.maps, 1),
        Kind::Lock if one_load => (head.maps, 1),
        Kind::Lock | Kind::Rwlock => (head.maps, head.maps),
    };
    text.in_range(first < firsts && second < seconds)?;
    Ok((kind, first, if one_load { first } else { second }))
}

/// Reads one map line into its row. Its form is judged as a whole before its numbers are.
fn read_map<'a, F: Fields<'a>>(text: &mut Text<F>, head: &Head, map: &mut Map) -> Result<(), Returned> {
    let last = head.locations as usize - 1;
    *map = Map::default();
    text.line(|line| {
        for number in &mut map[..last] {
            *number = line.field(b',')?;
        }
        map[last] = line.field(b'\n')?;
        Some(())
    })?;
    text.in_range(map.iter().all(|&number| number <= WHOLE))
}

/// Reads a procedure's line `before,argument,after,result`.
fn read_signature<'a, F: Fields<'a>>(text: &mut Text<F>, head: &Head) -> Result<[u32; 4], Returned> {
    let signature =
        text.line(|line| Some([line.field(b',')?, line.field(b',')?, line.field(b',')?, line.field(b'\n')?]))?;
    let [before, argument, after, result] = signature;
    text.in_range(before < head.maps && after < head.maps && argument < head.types && result < head.types)?;
    Ok(signature)
}

/// Reads a step's line `t,m,s`. An empty start is the map of nothing behind the others.
fn read_mark<'a, F: Fields<'a>>(text: &mut Text<F>, head: &Head, word: Word) -> Result<[u32; 3], Returned> {
    let (kind, post, start) =
        text.line(|line| Some((line.field(b',')?, line.field(b',')?, line.field_or_empty(b'\n')?)))?;
    text.in_range(kind < head.types && post < head.maps)?;
    let (is_spawn, is_call) = (word == Word::Spawn, word == Word::Call);
    match start {
        Some(start) => text.in_range((is_spawn || is_call) && start < head.maps)?,
        None => {
            text.wanted(40, !is_spawn || head.heading != Heading::C)?;
            text.wanted(50, !is_call)?;
        }
    }
    Ok([kind, post, start.unwrap_or(head.maps)])
}
