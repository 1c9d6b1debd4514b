//! A pair of sheets before it is written out as text.

use crate::answer::{LOCATIONS, PLACES};
use crate::types::Type;
use crate::words::Word;
use std::collections::BTreeSet;

/// A capability mapping, document 01's "map"; numbers past the last location are 0.
pub type Map = [u32; LOCATIONS as usize];

/// A line of the program with its line of the split.
#[derive(Clone, Copy)]
pub struct Step {
    pub word: Word,
    pub number: u32,
    pub kind: usize,
    pub post: usize,
    pub start: Option<usize>,
}

/// How line 1 of the split opens, and the number of the map that the program starts with.
#[derive(Clone, Copy)]
pub enum Heading {
    C,
    C2 { start: usize },
    C3 { start: usize },
}

/// A `proc` line with its line of the split. The body begins with the step `body`.
#[derive(Clone, Copy)]
pub struct Procedure {
    pub variable: u32,
    pub body: usize,
    pub before: usize,
    pub argument: usize,
    pub after: usize,
    pub result: usize,
}

#[derive(Clone)]
pub struct Draft {
    pub heading: Heading,
    pub whole: u32,
    pub locations: usize,
    pub types: Vec<Type>,
    pub maps: Vec<Map>,
    /// The steps of all bodies, and then those of the root.
    pub steps: Vec<Step>,
    /// The procedures of a `P2` sheet, in the order of their bodies; none on a `P` sheet.
    pub procedures: Option<Vec<Procedure>>,
}

impl Draft {
    /// The number of a map with these numbers, a new one if there is none.
    pub fn number_of(&mut self, map: Map) -> usize {
        match self.maps.iter().rposition(|known| *known == map) {
            Some(number) => number,
            None => self.add_map(map),
        }
    }

    pub fn add_map(&mut self, map: Map) -> usize {
        self.maps.push(map);
        self.maps.len() - 1
    }

    pub fn add_type(&mut self, kind: Type) -> usize {
        self.types.push(kind);
        self.types.len() - 1
    }

    /// Whether two types agree: the same kind, equal numbers in their maps, the same location and
    /// contents that agree.
    pub fn agree(&self, left: usize, right: usize) -> bool {
        match (self.types[left], self.types[right]) {
            (Type::Int, Type::Int) => true,
            (Type::Ref { location: one, content: left }, Type::Ref { location: other, content: right }) => {
                one == other && self.agree(left, right)
            }
            (Type::Lock { taken: left, given: left_out }, Type::Lock { taken: right, given: right_out }) => {
                self.maps[left] == self.maps[right] && self.maps[left_out] == self.maps[right_out]
            }
            (Type::Rwlock { reading: left, writing: left_w }, Type::Rwlock { reading: right, writing: right_w }) => {
                self.maps[left] == self.maps[right] && self.maps[left_w] == self.maps[right_w]
            }
            (Type::Tid(left), Type::Tid(right)) | (Type::Sem(left), Type::Sem(right)) => {
                self.maps[left] == self.maps[right]
            }
            _ => false,
        }
    }

    /// Whether a variable of one type may be shown with another: one that agrees, or a lock that gives no
    /// more and takes back no less.
    pub fn shows(&self, shown: usize, bound: usize) -> bool {
        match (self.types[shown], self.types[bound]) {
            (Type::Lock { taken, given }, Type::Lock { taken: known_taken, given: known_given }) => {
                at_least(&self.maps[known_taken], &self.maps[taken])
                    && at_least(&self.maps[given], &self.maps[known_given])
            }
            _ => self.agree(shown, bound),
        }
    }

    pub fn has_two_loads(&self) -> bool {
        matches!(self.heading, Heading::C3 { .. })
    }

    /// The most reading places whose shares are together nowhere more than the writing share.
    pub fn places(&self, reading: usize, writing: usize) -> u32 {
        let (reading, writing) = (self.maps[reading], self.maps[writing]);
        let read = (0..self.locations).filter(|&location| reading[location] > 0);
        read.map(|location| writing[location] / reading[location]).fold(PLACES, u32::min)
    }

    /// The number of the map that the program starts with.
    pub fn start(&self) -> usize {
        match self.heading {
            Heading::C => 0,
            Heading::C2 { start } | Heading::C3 { start } => start,
        }
    }

    pub fn procedures(&self) -> &[Procedure] {
        self.procedures.as_deref().unwrap_or_default()
    }

    /// The first step of the root.
    pub fn root(&self) -> usize {
        self.procedures().last().map_or(0, |last| self.end_of(last.body))
    }

    /// The program sheet's line of a step.
    pub fn line_of(&self, step: usize) -> usize {
        2 + step + self.procedures().iter().filter(|procedure| procedure.body <= step).count()
    }

    /// The split sheet's line of a step.
    pub fn row_of(&self, step: usize) -> usize {
        2 + self.types.len() + self.maps.len() + self.procedures().len() + step
    }

    /// Puts the maps in another order: `order` lists those that stay by their old numbers.
    pub fn renumber_maps(&mut self, order: &[usize]) {
        let mut new = vec![0; self.maps.len()];
        for (number, &old) in order.iter().enumerate() {
            new[old] = number;
        }
        self.maps = order.iter().map(|&old| self.maps[old]).collect();
        for kind in &mut self.types {
            match kind {
                Type::Int | Type::Ref { .. } => {}
                Type::Lock { taken, given } => (*taken, *given) = (new[*taken], new[*given]),
                Type::Rwlock { reading, writing } => (*reading, *writing) = (new[*reading], new[*writing]),
                Type::Tid(map) | Type::Sem(map) => *map = new[*map],
            }
        }
        for step in &mut self.steps {
            step.post = new[step.post];
            step.start = step.start.map(|start| new[start]);
        }
        for procedure in self.procedures.iter_mut().flatten() {
            (procedure.before, procedure.after) = (new[procedure.before], new[procedure.after]);
        }
        if let Heading::C2 { start } | Heading::C3 { start } = &mut self.heading {
            *start = new[*start];
        }
    }

    /// Drops the maps that only steps have afterwards; those steps get any map.
    pub fn drop_posts(&mut self) {
        let carried = self.types.iter().flat_map(|kind| match *kind {
            Type::Int | Type::Ref { .. } => vec![],
            Type::Lock { taken, given } => vec![taken, given],
            Type::Tid(map) | Type::Sem(map) => vec![map],
            Type::Rwlock { reading, writing } => vec![reading, writing],
        });
        let starts = self.steps.iter().filter_map(|step| step.start);
        let named = self.procedures().iter().flat_map(|procedure| [procedure.before, procedure.after]);
        let used: BTreeSet<usize> = carried.chain(starts).chain(named).chain([self.start()]).collect();
        self.renumber_maps(&used.into_iter().collect::<Vec<usize>>());
    }

    /// The step after the last part of this one.
    pub fn end_of(&self, step: usize) -> usize {
        let (mut open, mut at) = (1, step);
        while open > 0 {
            open = open - 1 + self.steps[at].word.parts();
            at += 1;
        }
        at
    }

    /// The second part of a step that has two.
    pub fn second_of(&self, step: usize) -> usize {
        self.end_of(step + 1)
    }

    pub fn program(&self) -> Vec<u8> {
        let mut text = Vec::with_capacity(12 * self.steps.len() + 8);
        let count = self.steps.len() as u32;
        match &self.procedures {
            None => push_fields(&mut text, b"P,", &[count]),
            Some(procedures) => push_fields(&mut text, b"P2,", &[count, procedures.len() as u32]),
        }
        for (place, step) in self.steps.iter().enumerate() {
            for procedure in self.procedures().iter().filter(|procedure| procedure.body == place) {
                push_fields(&mut text, b"proc,", &[procedure.variable]);
            }
            text.extend_from_slice(step.word.spelling().as_bytes());
            push_fields(&mut text, b",", &[step.number]);
        }
        text
    }

    pub fn split(&self) -> Vec<u8> {
        let mut text = Vec::with_capacity(8 * self.maps.len() * self.locations + 12 * self.steps.len() + 1024);
        self.push_head(&mut text, self.locations);
        for kind in &self.types {
            let (word, first, second): (&[u8], _, _) = match *kind {
                Type::Int => (b"int,", 0, 0),
                Type::Ref { location, content } => (b"ref,", location, content),
                Type::Lock { taken, given } if taken == given && !self.has_two_loads() => (b"lock,", taken, 0),
                Type::Lock { taken, given } => (b"lock,", taken, given),
                Type::Tid(map) => (b"tid,", map, 0),
                Type::Sem(map) => (b"sem,", map, 0),
                Type::Rwlock { reading, writing } => (b"rwlock,", reading, writing),
            };
            push_fields(&mut text, word, &[first as u32, second as u32]);
        }
        for map in &self.maps {
            push_fields(&mut text, b"", &map[..self.locations]);
        }
        for &Procedure { before, argument, after, result, .. } in self.procedures() {
            push_fields(&mut text, b"", &[before, argument, after, result].map(|number| number as u32));
        }
        for step in &self.steps {
            push_mark(&mut text, step);
        }
        text
    }

    /// Writes line 1 of the split with this number of locations.
    pub fn push_head(&self, text: &mut Vec<u8>, locations: usize) {
        let counts = [locations, self.types.len(), self.maps.len(), self.start()].map(|number| number as u32);
        let [locations, types, maps, start] = counts;
        match self.heading {
            Heading::C => push_fields(text, b"C,", &[self.whole, locations, types, maps]),
            Heading::C2 { .. } => push_fields(text, b"C2,", &[self.whole, locations, types, maps, start]),
            Heading::C3 { .. } => push_fields(text, b"C3,", &[self.whole, locations, types, maps, start]),
        }
    }
}

fn push_mark(text: &mut Vec<u8>, step: &Step) {
    push_numeral(text, step.kind as u32);
    text.push(b',');
    push_numeral(text, step.post as u32);
    text.push(b',');
    if let Some(start) = step.start {
        push_numeral(text, start as u32);
    }
    text.push(b'\n');
}

fn push_fields(text: &mut Vec<u8>, opening: &[u8], numbers: &[u32]) {
    text.extend_from_slice(opening);
    for (place, &number) in numbers.iter().enumerate() {
        if place > 0 {
            text.push(b',');
        }
        push_numeral(text, number);
    }
    text.push(b'\n');
}

/// Writes a number in decimal.
pub fn push_numeral(text: &mut Vec<u8>, number: impl Into<u64>) {
    let mut digits = [0; 20];
    let (mut at, mut left) = (digits.len(), number.into());
    while at == digits.len() || left > 0 {
        at -= 1;
        digits[at] = b'0' + (left % 10) as u8;
        left /= 10;
    }
    text.extend_from_slice(&digits[at..]);
}

pub fn sum(left: &Map, right: &Map) -> Map {
    std::array::from_fn(|location| left[location] + right[location])
}

/// left - right, where right is nowhere greater.
pub fn difference(left: &Map, right: &Map) -> Map {
    std::array::from_fn(|location| left[location] - right[location])
}

pub fn lower(left: &Map, right: &Map) -> Map {
    std::array::from_fn(|location| left[location].min(right[location]))
}

pub fn at_least(greater: &Map, less: &Map) -> bool {
    (0..greater.len()).all(|location| greater[location] >= less[location])
}
