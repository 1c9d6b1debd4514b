//! The start (refusal 30) and the conditions of Figure 5 (refusals 31 to 33).

use super::flows::{Flows, Given};
use super::program::{Binder, Program, Step};
use super::split::{Signature, Split};
use crate::answer::{Returned, STEPS};
use crate::types::Type;
use crate::words::Word;

/// The start, then the first false condition, by step line and then by number.
pub fn check(program: &Program, split: &Split) -> Result<(), Returned> {
    start_at_most_one(program, split)?;
    each_line(program, split, &mut Given(split))
}

/// The start is refused at the root's own line.
pub fn start_at_most_one(program: &Program, split: &Split) -> Result<(), Returned> {
    let line = program.steps[program.root].line;
    match split.map(split.start).iter().position(|&number| number > split.whole) {
        None => Ok(()),
        Some(location) => Err(Returned { number: 30, line, condition: 0, location: location as u32 }),
    }
}

/// Goes through the `proc` lines and the steps in line order and through the conditions of each. Those on
/// types are judged here, those on maps by `flows`.
pub fn each_line(program: &Program, split: &Split, flows: &mut impl Flows) -> Result<(), Returned> {
    let steps = &program.steps;
    // The map before each step. A step's parts come after it, so each entry is set in time.
    let mut pres = [split.start; STEPS as usize];
    for step in 0..steps.len() {
        if let Some(own) = program.begun_by(step) {
            let signature = split.signatures[own];
            pres[step] = signature.before;
            procedure(signature, step, split, flows).map_err(|broken| broken.at(program.procedures[own].line))?;
        }
        hand_on(steps, split, &mut pres, step);
        let mut judge = Judge { steps, split, step, pre: pres[step], flows };
        judge.conditions().map_err(|broken| broken.at(steps[step].line))?;
    }
    Ok(())
}

/// The conditions of a `proc` line, on the body that it stands before.
fn procedure(signature: Signature, body: usize, split: &Split, flows: &mut impl Flows) -> Judged {
    holds(1, split.agree(split.marks[body].kind, signature.result))?;
    flows.at_least(2, split.marks[body].post, signature.after)
}

/// Sets the map before each part of a step.
fn hand_on(steps: &[Step], split: &Split, pres: &mut [usize; STEPS as usize], step: usize) {
    let Step { word, second, .. } = steps[step];
    let (first, pre) = (step + 1, pres[step]);
    match word {
        Word::Let | Word::Write => {
            pres[first] = pre;
            pres[second] = split.marks[first].post;
        }
        Word::If => {
            pres[first] = pre;
            pres[second] = pre;
        }
        Word::Spawn => {
            pres[first] = pre;
            pres[second] = split.marks[step].start;
        }
        Word::While => pres[first] = split.marks[step].post,
        _ if word.parts() == 1 => pres[first] = pre,
        _ => {}
    }
}

/// A false condition of some step.
pub struct Broken {
    number: u32,
    condition: u32,
    location: usize,
}

impl Broken {
    fn at(self, line: u32) -> Returned {
        let Broken { number, condition, location } = self;
        Returned { number, line, condition, location: location as u32 }
    }
}

pub type Judged = Result<(), Broken>;

/// The map of a type, if it is of the kind that a word wants.
type Carried = fn(Type) -> Option<usize>;

/// One step with the map before it.
struct Judge<'a, F> {
    steps: &'a [Step],
    split: &'a Split,
    step: usize,
    pre: usize,
    flows: &'a mut F,
}

impl<F: Flows> Judge<'_, F> {
    /// The rows of document 01's table, and the words of document 02.
    fn conditions(&mut self) -> Judged {
        match self.steps[self.step].word {
            Word::Var => self.var(),
            Word::Int => self.int(),
            Word::Let => self.binding(),
            Word::If => self.branch(),
            Word::While => self.repeat(),
            Word::Newtid => self.new_free(Type::tid),
            Word::Spawn => self.spawn(),
            Word::Join => self.take(Type::tid),
            Word::Ref => self.new_cell(),
            Word::Read => self.read(),
            Word::Write => self.write(),
            Word::Newlock => self.newlock(),
            Word::Lock => self.take(Type::lock_in),
            Word::Unlock => self.give(Type::lock_out),
            Word::Newsem => self.new_free(Type::sem),
            Word::Post => self.give(Type::sem),
            Word::Wait => self.take(Type::sem),
            Word::Newrwlock => self.newrwlock(),
            Word::Rdlock => self.take(Type::reading),
            Word::Rdunlock => self.give(Type::reading),
            Word::Wrlock => self.take(Type::writing),
            Word::Wrunlock => self.give(Type::writing),
            Word::Call => self.call(),
            Word::Proc => unreachable!("a proc line is no step"),
        }
    }

    fn var(&mut self) -> Judged {
        let known = match self.steps[self.step].binder {
            Binder::Let(binder) => self.kind(binder + 1),
            Binder::Procedure(own) => self.split.signatures[own].argument,
        };
        let own = self.own();
        holds(1, self.split.agree(own, known) || self.split.looser(own, known))?;
        self.flows.equal(2, self.post(self.step), self.pre)
    }

    fn int(&mut self) -> Judged {
        self.is_int(1)?;
        self.flows.equal(2, self.post(self.step), self.pre)
    }

    fn binding(&mut self) -> Judged {
        self.agree(1, self.own(), self.kind(self.e2()))?;
        self.flows.equal(2, self.post(self.step), self.post(self.e2()))
    }

    fn branch(&mut self) -> Judged {
        self.agree(1, self.own(), self.kind(self.e1()))?;
        self.agree(2, self.own(), self.kind(self.e2()))?;
        self.flows.at_least(3, self.post(self.e1()), self.post(self.step))?;
        self.flows.at_least(4, self.post(self.e2()), self.post(self.step))
    }

    fn repeat(&mut self) -> Judged {
        self.is_int(1)?;
        self.flows.at_least(2, self.pre, self.post(self.step))?;
        self.flows.at_least(3, self.post(self.e1()), self.post(self.step))
    }

    /// `newtid` and `newsem`: a new thing that takes nothing.
    fn new_free(&mut self, carried: Carried) -> Judged {
        self.carried(1, self.step, carried)?;
        self.flows.equal(2, self.post(self.step), self.pre)
    }

    fn spawn(&mut self) -> Judged {
        self.is_int(1)?;
        let given_back = self.carried(2, self.e1(), Type::tid)?;
        self.flows.at_least(3, self.post(self.e2()), given_back)?;
        let start = self.split.marks[self.step].start;
        self.flows.sum(4, self.post(self.step), start, self.post(self.e1()))
    }

    fn new_cell(&mut self) -> Judged {
        let (_, content) = self.cell(1, self.step)?;
        self.agree(1, content, self.kind(self.e1()))?;
        self.flows.equal(2, self.post(self.step), self.post(self.e1()))
    }

    fn read(&mut self) -> Judged {
        let (location, content) = self.cell(1, self.e1())?;
        self.agree(2, self.own(), content)?;
        self.flows.equal(3, self.post(self.step), self.post(self.e1()))?;
        self.flows.access(4, self.post(self.step), location, 1)
    }

    fn write(&mut self) -> Judged {
        self.is_int(1)?;
        let (location, content) = self.cell(2, self.e1())?;
        self.agree(3, self.kind(self.e2()), content)?;
        self.flows.equal(4, self.post(self.step), self.post(self.e2()))?;
        self.flows.access(5, self.post(self.step), location, self.split.whole)
    }

    fn newlock(&mut self) -> Judged {
        let carried = self.carried(1, self.step, Type::lock_out)?;
        self.flows.sum(2, self.post(self.step), carried, self.pre)
    }

    fn newrwlock(&mut self) -> Judged {
        let reading = self.carried(1, self.step, Type::reading)?;
        let writing = self.carried(1, self.step, Type::writing)?;
        self.flows.shares(2, self.steps[self.step].number, reading, writing)?;
        self.flows.sum(3, self.post(self.step), writing, self.pre)
    }

    /// Words that take: what the part carries is added.
    fn take(&mut self, carried: Carried) -> Judged {
        self.is_int(1)?;
        let carried = self.carried(2, self.e1(), carried)?;
        self.flows.sum(3, self.post(self.e1()), carried, self.post(self.step))
    }

    /// Words that give back: what the part carries is taken away.
    fn give(&mut self, carried: Carried) -> Judged {
        self.is_int(1)?;
        let carried = self.carried(2, self.e1(), carried)?;
        self.flows.sum(3, self.post(self.step), carried, self.post(self.e1()))
    }

    fn call(&mut self) -> Judged {
        let Signature { before, argument, after, result } =
            self.split.signatures[self.steps[self.step].number as usize];
        self.agree(1, self.own(), result)?;
        self.agree(2, self.kind(self.e1()), argument)?;
        let kept = self.split.marks[self.step].start;
        self.flows.sum(3, before, kept, self.post(self.e1()))?;
        self.flows.sum(4, after, kept, self.post(self.step))
    }

    fn e1(&self) -> usize {
        self.step + 1
    }

    fn e2(&self) -> usize {
        self.steps[self.step].second
    }

    /// The type of the step itself.
    fn own(&self) -> usize {
        self.kind(self.step)
    }

    fn kind(&self, step: usize) -> usize {
        self.split.marks[step].kind
    }

    fn post(&self, step: usize) -> usize {
        self.split.marks[step].post
    }

    fn agree(&self, condition: u32, left: usize, right: usize) -> Judged {
        holds(condition, self.split.agree(left, right))
    }

    fn is_int(&self, condition: u32) -> Judged {
        holds(condition, matches!(self.split.types[self.own()], Type::Int))
    }

    /// The location and the content type of a step that must be a cell.
    fn cell(&self, condition: u32, step: usize) -> Result<(usize, usize), Broken> {
        match self.split.types[self.kind(step)] {
            Type::Ref { location, content } => Ok((location, content)),
            _ => broken(31, condition, 0),
        }
    }

    /// The map of a step whose type must carry one of this kind.
    fn carried(&self, condition: u32, step: usize, carried: Carried) -> Result<usize, Broken> {
        match carried(self.split.types[self.kind(step)]) {
            Some(map) => Ok(map),
            None => broken(31, condition, 0),
        }
    }
}

pub fn broken<T>(number: u32, condition: u32, location: usize) -> Result<T, Broken> {
    Err(Broken { number, condition, location })
}

/// A condition on types.
fn holds(condition: u32, yes: bool) -> Judged {
    if yes {
        Ok(())
    } else {
        broken(31, condition, 0)
    }
}
