//! A draft written afresh, as solvers do: each use of a type or of a map has a line of its own, under
//! a new number. Types agree by structure, so an honest draft stays one.

use super::draft::{Draft, Procedure, Step};
use super::random::Random;
use crate::answer::{MAPS, TYPES};
use crate::types::Type;

/// The same draft, which starts with map 0, with a new line for each use while there is room for new lines; past that, a use
/// shares a line that says the same.
pub fn afresh(random: &mut Random, known: &Draft) -> Draft {
    let mut draft = Draft { types: Vec::new(), maps: vec![known.maps[0]], ..known.clone() };
    let mut order: Vec<usize> = (0..known.steps.len()).collect();
    random.shuffle(&mut order);
    let mut shared_maps = vec![None; known.maps.len()];
    shared_maps[0] = Some(0);
    let mut writer = Writer { known, shared_types: vec![None; known.types.len()], shared_maps, draft: &mut draft };
    for step in order {
        let old = known.steps[step];
        let (kind, post) = (writer.new_type(old.kind), writer.new_map(old.post));
        let start = old.start.map(|start| writer.new_map(start));
        writer.draft.steps[step] = Step { kind, post, start, ..old };
    }
    let procedures = known.procedures.as_ref().map(|known| {
        known
            .iter()
            .map(|old| Procedure {
                before: writer.new_map(old.before),
                argument: writer.new_type(old.argument),
                after: writer.new_map(old.after),
                result: writer.new_type(old.result),
                ..*old
            })
            .collect()
    });
    draft.procedures = procedures;
    draft
}

struct Writer<'a> {
    known: &'a Draft,
    draft: &'a mut Draft,
    /// The line that stands for an old one when there is no room for a line of its own.
    shared_types: Vec<Option<usize>>,
    shared_maps: Vec<Option<usize>>,
}

impl Writer<'_> {
    /// A new line for a type, its content and its map, while every old type could still get one.
    fn new_type(&mut self, old: usize) -> usize {
        let kept_free = unwritten(&self.shared_types);
        if self.draft.types.len() + self.depth(old) + kept_free > TYPES as usize {
            return self.shared_type(old);
        }
        self.add_type(old, Writer::new_type)
    }

    fn shared_type(&mut self, old: usize) -> usize {
        if let Some(number) = self.shared_types[old] {
            return number;
        }
        let number = self.add_type(old, Writer::shared_type);
        self.shared_types[old] = Some(number);
        number
    }

    /// A line for a type with new maps, whose content is written as told.
    fn add_type(&mut self, old: usize, written: fn(&mut Self, usize) -> usize) -> usize {
        let kind = match self.known.types[old] {
            Type::Int => Type::Int,
            Type::Ref { location, content } => Type::Ref { location, content: written(self, content) },
            Type::Lock { taken, given } => self.new_lock(taken, given),
            Type::Tid(map) => Type::Tid(self.new_map(map)),
            Type::Sem(map) => Type::Sem(self.new_map(map)),
            Type::Rwlock { reading, writing } => {
                Type::Rwlock { reading: self.new_map(reading), writing: self.new_map(writing) }
            }
        };
        self.draft.add_type(kind)
    }

    fn new_lock(&mut self, taken: usize, given: usize) -> Type {
        let taken = self.new_map(taken);
        match self.known.has_two_loads() {
            true => Type::Lock { taken, given: self.new_map(given) },
            false => Type::lock(taken),
        }
    }

    fn new_map(&mut self, old: usize) -> usize {
        let has_room = self.draft.maps.len() + unwritten(&self.shared_maps) < MAPS as usize;
        match self.shared_maps[old] {
            Some(number) if !has_room => number,
            _ => {
                let number = self.draft.add_map(self.known.maps[old]);
                self.shared_maps[old].get_or_insert(number);
                number
            }
        }
    }

    /// How many lines a type takes with its contents.
    fn depth(&self, old: usize) -> usize {
        match self.known.types[old] {
            Type::Ref { content, .. } => 1 + self.depth(content),
            _ => 1,
        }
    }
}

fn unwritten(shared: &[Option<usize>]) -> usize {
    shared.iter().filter(|line| line.is_none()).count()
}
