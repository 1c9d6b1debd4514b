//! What the split says of each step and of each procedure.

/// A step's row: its type, its map afterwards, the map that a spawned body starts with or that a call keeps
/// back; and the map before it, which follows from the rows of other steps.
#[derive(Clone, Copy)]
pub struct Mark {
    pub kind: usize,
    pub post: usize,
    pub start: usize,
    pub pre: usize,
}

/// The rows by the lines of their steps. A `proc` line has none.
pub struct Marks<'a>(pub &'a mut [[u32; 4]]);

impl Marks<'_> {
    pub fn at(&self, line: usize) -> Mark {
        let [kind, post, start, pre] = self.0[line].map(|number| number as usize);
        Mark { kind, post, start, pre }
    }

    pub fn put(&mut self, line: usize, kind: u32, post: u32, start: u32) {
        self.0[line] = [kind, post, start, 0];
    }

    pub fn set_pre(&mut self, line: usize, map: usize) {
        self.0[line][3] = map as u32;
    }
}

/// A procedure's line: the map that its body starts with, the type of its x, the least map that its body ends
/// with, and the type of its body.
#[derive(Clone, Copy)]
pub struct Signature {
    pub before: usize,
    pub argument: usize,
    pub after: usize,
    pub result: usize,
}

/// The lines of the procedures, by their numbers.
pub struct Signatures<'a>(pub &'a mut [[u32; 4]]);

impl Signatures<'_> {
    pub fn at(&self, procedure: usize) -> Signature {
        let [before, argument, after, result] = self.0[procedure].map(|number| number as usize);
        Signature { before, argument, after, result }
    }
}
