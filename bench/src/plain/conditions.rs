//! The start (refusal 30) and the conditions of Figure 5 (refusals 31 to 33).

use super::broken::{flows, holds, Broken, Judged};
use super::lines::{Line, Lines};
use super::maps::{lowest_false, Maps};
use super::marks::{Mark, Marks, Signature, Signatures};
use super::program::Program;
use super::space::Space;
use super::split::Head;
use super::types::{Kind, Type, Types};
use evidence::answer::Returned;
use evidence::words::Word;

/// The start, then the first false condition, by line and then by number.
pub fn check(program: &Program, head: &Head, space: &mut Space) -> Result<(), Returned> {
    start_at_most_one(program, head, space)?;
    space.marks.set_pre(program.root, head.start as usize);
    for line in 0..program.lines {
        hand_on(space, line);
        let judge = Judge {
            lines: &space.lines,
            marks: &space.marks,
            types: &space.types,
            maps: &space.maps,
            signatures: &space.signatures,
            whole: head.whole,
            line,
            own: space.lines.at(line),
            mark: space.marks.at(line),
        };
        judge.conditions().map_err(|broken| broken.at(line))?;
    }
    Ok(())
}

/// The start is refused at the root's own line.
fn start_at_most_one(program: &Program, head: &Head, space: &Space) -> Result<(), Returned> {
    let start = &space.maps.0[head.start as usize];
    match lowest_false(|location| start[location] <= head.whole) {
        None => Ok(()),
        Some(location) => Err(Broken { number: 30, condition: 0, location }.at(program.root)),
    }
}

/// Sets the map before each part of a line.
fn hand_on(space: &mut Space, line: usize) {
    let Space { lines, marks, signatures, .. } = space;
    let Line { word, number, second, .. } = lines.at(line);
    let (first, Mark { pre, post, start, .. }) = (line + 1, marks.at(line));
    match word {
        Word::Let | Word::Write => {
            marks.set_pre(first, pre);
            marks.set_pre(second, marks.at(first).post);
        }
        Word::If => {
            marks.set_pre(first, pre);
            marks.set_pre(second, pre);
        }
        Word::Spawn => {
            marks.set_pre(first, pre);
            marks.set_pre(second, start);
        }
        Word::While => marks.set_pre(first, post),
        Word::Proc => marks.set_pre(first, signatures.at(number as usize).before),
        _ if word.parts() == 1 => marks.set_pre(first, pre),
        _ => {}
    }
}

/// One line with what its conditions look at.
struct Judge<'a> {
    lines: &'a Lines<'a>,
    marks: &'a Marks<'a>,
    types: &'a Types<'a>,
    maps: &'a Maps<'a>,
    signatures: &'a Signatures<'a>,
    whole: u32,
    line: usize,
    own: Line,
    mark: Mark,
}

impl Judge<'_> {
    /// The rows of document 01's table in the order of Figure 5, and the words of document 02.
    fn conditions(&self) -> Judged {
        match self.own.word {
            Word::Var => self.var(),
            Word::Int => self.int(),
            Word::Let => self.binding(),
            Word::If => self.branch(),
            Word::While => self.repeat(),
            Word::Newtid => self.new_free(Kind::Tid),
            Word::Spawn => self.spawn(),
            Word::Join => self.take(Kind::Tid, |of| of.first),
            Word::Ref => self.new_cell(),
            Word::Write => self.write(),
            Word::Read => self.read(),
            Word::Newlock => self.newlock(),
            Word::Lock => self.take(Kind::Lock, |of| of.first),
            Word::Unlock => self.give(Kind::Lock, |of| of.second),
            Word::Newsem => self.new_free(Kind::Sem),
            Word::Post => self.give(Kind::Sem, |of| of.first),
            Word::Wait => self.take(Kind::Sem, |of| of.first),
            Word::Newrwlock => self.newrwlock(),
            Word::Rdlock => self.take(Kind::Rwlock, |of| of.first),
            Word::Rdunlock => self.give(Kind::Rwlock, |of| of.first),
            Word::Wrlock => self.take(Kind::Rwlock, |of| of.second),
            Word::Wrunlock => self.give(Kind::Rwlock, |of| of.second),
            Word::Call => self.call(),
            Word::Proc => self.procedure(),
        }
    }

    fn var(&self) -> Judged {
        let binder = self.own.number as usize;
        let Line { word, number, .. } = self.lines.at(binder);
        let bound = match word {
            Word::Proc => self.signatures.at(number as usize).argument,
            _ => self.marks.at(binder + 1).kind,
        };
        holds(1, self.types.shows(self.maps, self.mark.kind, bound))?;
        self.keeps(2)
    }

    fn int(&self) -> Judged {
        self.is_int(1)?;
        self.keeps(2)
    }

    fn binding(&self) -> Judged {
        let e2 = self.e2();
        self.agree(1, self.mark.kind, e2.kind)?;
        self.equal(2, self.mark.post, e2.post)
    }

    fn branch(&self) -> Judged {
        let (e1, e2) = (self.e1(), self.e2());
        self.agree(1, self.mark.kind, e1.kind)?;
        self.agree(2, self.mark.kind, e2.kind)?;
        self.at_least(3, e1.post, self.mark.post)?;
        self.at_least(4, e2.post, self.mark.post)
    }

    fn repeat(&self) -> Judged {
        self.is_int(1)?;
        self.at_least(2, self.mark.pre, self.mark.post)?;
        self.at_least(3, self.e1().post, self.mark.post)
    }

    /// `newtid` and `newsem`: a new thing that takes nothing.
    fn new_free(&self, kind: Kind) -> Judged {
        self.of_kind(1, self.mark, kind)?;
        self.keeps(2)
    }

    fn spawn(&self) -> Judged {
        self.is_int(1)?;
        let e1 = self.e1();
        let carried = self.of_kind(2, e1, Kind::Tid)?.first;
        self.at_least(3, self.e2().post, carried)?;
        self.sum(4, self.mark.post, self.mark.start, e1.post)
    }

    fn new_cell(&self) -> Judged {
        let (cell, e1) = (self.of_kind(1, self.mark, Kind::Ref)?, self.e1());
        self.agree(1, cell.second, e1.kind)?;
        self.equal(2, self.mark.post, e1.post)
    }

    fn write(&self) -> Judged {
        self.is_int(1)?;
        let (cell, e2) = (self.of_kind(2, self.e1(), Kind::Ref)?, self.e2());
        self.agree(3, e2.kind, cell.second)?;
        self.equal(4, self.mark.post, e2.post)?;
        self.access(5, cell.first, self.whole)
    }

    fn read(&self) -> Judged {
        let e1 = self.e1();
        let cell = self.of_kind(1, e1, Kind::Ref)?;
        self.agree(2, self.mark.kind, cell.second)?;
        self.equal(3, self.mark.post, e1.post)?;
        self.access(4, cell.first, 1)
    }

    fn newlock(&self) -> Judged {
        let lock = self.of_kind(1, self.mark, Kind::Lock)?;
        self.sum(2, self.mark.post, lock.second, self.mark.pre)
    }

    fn newrwlock(&self) -> Judged {
        let lock = self.of_kind(1, self.mark, Kind::Rwlock)?;
        flows(2, self.maps.shares(self.own.number, lock.first, lock.second))?;
        self.sum(3, self.mark.post, lock.second, self.mark.pre)
    }

    /// Words that take: what the part carries is added.
    fn take(&self, kind: Kind, carried: Carried) -> Judged {
        self.is_int(1)?;
        let e1 = self.e1();
        let carried = carried(self.of_kind(2, e1, kind)?);
        self.sum(3, e1.post, carried, self.mark.post)
    }

    /// Words that give back: what the part carries is taken away.
    fn give(&self, kind: Kind, carried: Carried) -> Judged {
        self.is_int(1)?;
        let e1 = self.e1();
        let carried = carried(self.of_kind(2, e1, kind)?);
        self.sum(3, self.mark.post, carried, e1.post)
    }

    fn call(&self) -> Judged {
        let Signature { before, argument, after, result } = self.signatures.at(self.own.number as usize);
        let e1 = self.e1();
        self.agree(1, self.mark.kind, result)?;
        self.agree(2, e1.kind, argument)?;
        self.sum(3, before, self.mark.start, e1.post)?;
        self.sum(4, after, self.mark.start, self.mark.post)
    }

    fn procedure(&self) -> Judged {
        let (Signature { after, result, .. }, body) = (self.signatures.at(self.own.number as usize), self.e1());
        self.agree(1, body.kind, result)?;
        self.at_least(2, body.post, after)
    }

    fn e1(&self) -> Mark {
        self.marks.at(self.line + 1)
    }

    fn e2(&self) -> Mark {
        self.marks.at(self.own.second)
    }

    fn is_int(&self, condition: u32) -> Judged {
        self.of_kind(condition, self.mark, Kind::Int).map(|_| ())
    }

    /// The type of a step that must be of this kind.
    fn of_kind(&self, condition: u32, mark: Mark, kind: Kind) -> Result<Type, Broken> {
        let own = self.types.at(mark.kind);
        holds(condition, own.kind == kind)?;
        Ok(own)
    }

    fn agree(&self, condition: u32, left: usize, right: usize) -> Judged {
        holds(condition, self.types.agree(self.maps, left, right))
    }

    /// The map afterwards is the one before.
    fn keeps(&self, condition: u32) -> Judged {
        self.equal(condition, self.mark.post, self.mark.pre)
    }

    fn equal(&self, condition: u32, left: usize, right: usize) -> Judged {
        flows(condition, self.maps.equal(left, right))
    }

    fn at_least(&self, condition: u32, greater: usize, less: usize) -> Judged {
        flows(condition, self.maps.at_least(greater, less))
    }

    fn sum(&self, condition: u32, left: usize, right: usize, total: usize) -> Judged {
        flows(condition, self.maps.sum(left, right, total))
    }

    /// The map afterwards has at least this much of the location.
    fn access(&self, condition: u32, location: usize, wanted: u32) -> Judged {
        if self.maps.0[self.mark.post][location] >= wanted {
            Ok(())
        } else {
            Err(Broken { number: 33, condition, location })
        }
    }
}

/// Which map of a type a word moves.
type Carried = fn(Type) -> usize;
