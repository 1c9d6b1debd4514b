//! The split sheet: types, maps, procedures and the three numbers of each step (refusals 21 to 23, 40, 44
//! and 50).

use super::program::Program;
use super::text::Text;
use crate::answer::{Returned, LOCATIONS, MAPS, TYPES, WHOLE};
use crate::types::Type;
use crate::words::Word;

/// Whether the step lines name the maps afterwards, or leave them to be filled in (request (viii)).
#[derive(Clone, Copy, PartialEq, Eq)]
pub enum Posts {
    Named,
    Left,
}

/// A step's line: its type, its map afterwards, and the map that a spawned body starts with or that a call
/// keeps back. A map that is left to be filled in has a number past those of the sheet.
#[derive(Clone, Copy)]
pub struct Mark {
    pub kind: usize,
    pub post: usize,
    pub start: usize,
}

/// A procedure's line: the map that its body starts with, the type of its x, the least map that its body
/// ends with, and the type of its body.
#[derive(Clone, Copy)]
pub struct Signature {
    pub before: usize,
    pub argument: usize,
    pub after: usize,
    pub result: usize,
}

#[derive(Clone)]
pub struct Split {
    pub whole: u32,
    /// The map that the program starts with.
    pub start: usize,
    pub locations: usize,
    pub types: Vec<Type>,
    pub marks: Vec<Mark>,
    pub signatures: Vec<Signature>,
    /// How many maps the sheet gives.
    pub maps: usize,
    /// The maps one after the other, each of `locations` numbers; behind them one that holds nothing.
    pub numbers: Vec<u32>,
}

impl Split {
    /// The numbers of a map, one for each location.
    pub fn map(&self, map: usize) -> &[u32] {
        &self.numbers[map * self.locations..][..self.locations]
    }

    /// Whether two types agree: their kinds agree and their maps hold equal numbers; refs have the same
    /// location, and contents that agree.
    pub fn agree(&self, left: usize, right: usize) -> bool {
        match (self.types[left], self.types[right]) {
            (Type::Int, Type::Int) => true,
            (Type::Ref { location: p, content: left }, Type::Ref { location: q, content: right }) => {
                p == q && self.agree(left, right)
            }
            (Type::Lock { .. }, Type::Lock { .. }) => self.looser(left, right) && self.looser(right, left),
            (Type::Tid(left), Type::Tid(right)) => self.map(left) == self.map(right),
            (Type::Sem(left), Type::Sem(right)) => self.map(left) == self.map(right),
            (Type::Rwlock { reading: r, writing: w }, Type::Rwlock { reading, writing }) => {
                self.map(r) == self.map(reading) && self.map(w) == self.map(writing)
            }
            _ => false,
        }
    }

    /// Whether a lock type's in is nowhere above, and its out nowhere below, those of another lock type.
    pub fn looser(&self, shown: usize, known: usize) -> bool {
        let at_least =
            |greater, less| self.map(greater).iter().zip(self.map(less)).all(|(greater, less)| greater >= less);
        match (self.types[shown], self.types[known]) {
            (Type::Lock { taken, given }, Type::Lock { taken: known_in, given: known_out }) => {
                at_least(known_in, taken) && at_least(given, known_out)
            }
            _ => false,
        }
    }

    /// Refuses the first lock line whose out is below its in somewhere.
    pub fn check_loads(&self) -> Result<(), Returned> {
        for (own, kind) in self.types.iter().enumerate() {
            let Type::Lock { taken, given } = *kind else { continue };
            if self.map(given).iter().zip(self.map(taken)).any(|(given, taken)| given < taken) {
                return Err(Returned::at_line(44, own as u32 + 2));
            }
        }
        Ok(())
    }
}

struct Head {
    whole: u32,
    locations: u32,
    types: u32,
    maps: u32,
    /// What the program starts with, on a sheet that names it.
    start: Option<u32>,
    /// Whether lock lines have two maps.
    two_loads: bool,
}

/// Reads the whole sheet beside its program.
pub fn read(split: &[u8], program: &Program, posts: Posts) -> Result<Split, Returned> {
    let mut text = Text::new(split, 20);
    let head = read_head(&mut text, posts)?;
    let types = read_types(&mut text, &head)?;
    let numbers = read_maps(&mut text, &head)?;
    let signatures = read_signatures(&mut text, &head, program)?;
    let marks = read_marks(&mut text, &head, program, posts)?;
    text.end()?;
    let (start, locations, maps) = (head.start.unwrap_or(0) as usize, head.locations as usize, head.maps as usize);
    Ok(Split { whole: head.whole, start, locations, types, marks, signatures, maps, numbers })
}

/// Reads `C,D,L,T,M`, which starts with map 0 and which no filling takes, `C2,D,L,T,M,r`, or `C3` with the
/// fields of `C2`.
fn read_head(text: &mut Text, posts: Posts) -> Result<Head, Returned> {
    let head = text.line(|line| {
        line.byte(b'C')?;
        let two_loads = line.byte(b'3').is_some();
        let names_start = two_loads || line.byte(b'2').is_some();
        if posts == Posts::Left && !names_start {
            return None;
        }
        Some(Head {
            whole: line.next_numeral()?,
            locations: line.next_numeral()?,
            types: line.next_numeral()?,
            maps: line.next_numeral()?,
            start: if names_start { Some(line.next_numeral()?) } else { None },
            two_loads,
        })
    })?;
    text.in_range((1..=WHOLE).contains(&head.whole))?;
    text.in_range((1..=LOCATIONS).contains(&head.locations))?;
    text.in_range((1..=TYPES).contains(&head.types))?;
    text.in_range((1..=MAPS).contains(&head.maps))?;
    text.in_range(head.start.unwrap_or(0) < head.maps)?;
    Ok(head)
}

fn read_types(text: &mut Text, head: &Head) -> Result<Vec<Type>, Returned> {
    let mut types = Vec::with_capacity(head.types as usize);
    for own in 0..head.types {
        types.push(read_type(text, head, own)?);
    }
    Ok(types)
}

/// Reads the line of type number `own`. An unknown word has the wrong form, as in the program.
fn read_type(text: &mut Text, head: &Head, own: u32) -> Result<Type, Returned> {
    let (word, first, second) = text.line(|line| {
        let word = line.letters();
        let known: [&[u8]; 6] = [b"int", b"ref", b"lock", b"tid", b"sem", b"rwlock"];
        let fields = (word, line.next_numeral()?, line.next_numeral()?);
        known.contains(&word).then_some(fields)
    })?;
    let (firsts, seconds) = match word {
        b"int" => (1, 1),
        b"ref" => (head.locations, own),
        b"lock" if head.two_loads => (head.maps, head.maps),
        b"rwlock" => (head.maps, head.maps),
        _ => (head.maps, 1),
    };
    text.in_range(first < firsts && second < seconds)?;
    let (first, second) = (first as usize, second as usize);
    Ok(match word {
        b"int" => Type::Int,
        b"ref" => Type::Ref { location: first, content: second },
        b"lock" => Type::Lock { taken: first, given: if head.two_loads { second } else { first } },
        b"tid" => Type::Tid(first),
        b"sem" => Type::Sem(first),
        _ => Type::Rwlock { reading: first, writing: second },
    })
}

fn read_maps(text: &mut Text, head: &Head) -> Result<Vec<u32>, Returned> {
    let count = ((head.maps + 1) * head.locations) as usize;
    let mut numbers = Vec::with_capacity(count);
    for _ in 0..head.maps {
        read_map(text, head, &mut numbers)?;
    }
    numbers.resize(count, 0);
    Ok(numbers)
}

/// Reads one map line. Its form is judged as a whole before its numbers are.
fn read_map(text: &mut Text, head: &Head, numbers: &mut Vec<u32>) -> Result<(), Returned> {
    let mut greatest = 0;
    text.line(|line| {
        for location in 0..head.locations {
            if location > 0 {
                line.byte(b',')?;
            }
            let number = line.numeral()?;
            greatest = greatest.max(number);
            numbers.push(number);
        }
        Some(())
    })?;
    text.in_range(greatest <= WHOLE)
}

/// Reads a line `before,argument,after,result` for each procedure.
fn read_signatures(text: &mut Text, head: &Head, program: &Program) -> Result<Vec<Signature>, Returned> {
    let mut signatures = Vec::with_capacity(program.procedures.len());
    for _ in &program.procedures {
        let fields =
            |line: &mut Text| Some([line.numeral()?, line.next_numeral()?, line.next_numeral()?, line.next_numeral()?]);
        let [before, argument, after, result] = text.line(fields)?;
        text.in_range(before < head.maps && after < head.maps && argument < head.types && result < head.types)?;
        let [before, argument, after, result] = [before, argument, after, result].map(|number| number as usize);
        signatures.push(Signature { before, argument, after, result });
    }
    Ok(signatures)
}

fn read_marks(text: &mut Text, head: &Head, program: &Program, posts: Posts) -> Result<Vec<Mark>, Returned> {
    let mut marks = Vec::with_capacity(program.steps.len());
    for (own, step) in program.steps.iter().enumerate() {
        let fields =
            |line: &mut Text| Some((line.numeral()?, next_post(line, posts)?, line.next_numeral_or_empty(b'\n')?));
        let (kind, post, start) = text.line(fields)?;
        text.in_range(kind < head.types && post.is_none_or(|post| posts == Posts::Named && post < head.maps))?;
        let (is_spawn, is_call) = (step.word == Word::Spawn, step.word == Word::Call);
        text.in_range(start.is_none_or(|start| (is_spawn || is_call) && start < head.maps))?;
        text.wanted(40, start.is_some() || !is_spawn || head.start.is_some())?;
        text.wanted(50, start.is_some() || !is_call)?;
        // An empty start is the map of nothing behind the others, and behind that come the posts left out.
        let (start, post) = (start.unwrap_or(head.maps), post.unwrap_or(head.maps + 1 + own as u32));
        marks.push(Mark { kind: kind as usize, post: post as usize, start: start as usize });
    }
    Ok(marks)
}

/// Takes the field of the map afterwards. A numeral has its form also where it is to be left out.
fn next_post(line: &mut Text, posts: Posts) -> Option<Option<u32>> {
    match posts {
        Posts::Named => line.next_numeral().map(Some),
        Posts::Left => line.next_numeral_or_empty(b','),
    }
}
