//! The program sheet: its lines, its tree, its procedures and its variables (refusals 11 to 15, 45 and 49).

use super::text::Text;
use crate::answer::{Returned, CONSTANTS, PLACES, PROCEDURES, STEPS, VARIABLES};
use crate::words::Word;
use std::ops::{Range, RangeInclusive};

/// One step, with its line of the sheet. Its first part, if any, is the next step; `second` is its second
/// part, and `end` is the step after its last part. `number` is the v of its line.
#[derive(Clone, Copy)]
pub struct Step {
    pub word: Word,
    pub number: u32,
    pub line: u32,
    pub second: usize,
    pub end: usize,
    /// For `var`: what binds it.
    pub binder: Binder,
}

/// What binds a variable: a `let`, or a procedure as its x.
#[derive(Clone, Copy)]
pub enum Binder {
    Let(usize),
    Procedure(usize),
}

/// A procedure: its x, the line of its `proc`, and the first step of its body.
pub struct Procedure {
    pub variable: u32,
    pub line: u32,
    pub body: usize,
}

/// The steps of all bodies and then of the root, in line order.
pub struct Program {
    pub steps: Vec<Step>,
    pub procedures: Vec<Procedure>,
    /// The first step of the root expression.
    pub root: usize,
}

impl Program {
    /// The procedure whose body begins with this step.
    pub fn begun_by(&self, step: usize) -> Option<usize> {
        self.procedures.iter().position(|procedure| procedure.body == step)
    }
}

/// A line behind the head, with its number.
struct Line {
    word: Word,
    number: u32,
    line: u32,
}

/// Reads the whole sheet: lines first, then the order of procedures and steps, then the variables.
pub fn read(program: &[u8]) -> Result<Program, Returned> {
    let (count, lines) = read_lines(program)?;
    in_order(&lines, count)?;
    let mut program = parted(&lines);
    find_parts(&mut program.steps);
    bind_variables(&mut program)?;
    Ok(program)
}

/// Reads `P,n` or `P2,n,k` and the lines that follow. The first number returned is k.
fn read_lines(program: &[u8]) -> Result<(u32, Vec<Line>), Returned> {
    let mut text = Text::new(program, 10);
    let (steps, procedures) = text.line(|line| {
        line.byte(b'P')?;
        let has_procedures = line.byte(b'2').is_some();
        Some((line.next_numeral()?, if has_procedures { Some(line.next_numeral()?) } else { None }))
    })?;
    let count = procedures.unwrap_or(0);
    text.in_range((1..=STEPS).contains(&steps) && count <= PROCEDURES)?;
    let mut lines = Vec::with_capacity((steps + count) as usize);
    for line in 2..2 + steps + count {
        let (word, number) = text.line(|line| Some((read_word(line, procedures.is_some())?, line.next_numeral()?)))?;
        text.in_range(word.map_or(0..=0, numbers_of).contains(&number))?;
        let word = word.ok_or(text.refusal(45))?;
        lines.push(Line { word, number, line });
    }
    text.end()?;
    Ok((count, lines))
}

/// Takes a word. `freelock` has the form of one and is none, request (x); `proc` and `call` are words only
/// where there are procedures.
fn read_word(line: &mut Text, has_procedures: bool) -> Option<Option<Word>> {
    match line.letters() {
        b"freelock" => Some(None),
        spelling => {
            Word::spelled(spelling).filter(|word| has_procedures || !matches!(word, Word::Call | Word::Proc)).map(Some)
        }
    }
}

/// The numbers that are in range behind this word.
fn numbers_of(word: Word) -> RangeInclusive<u32> {
    match word {
        Word::Var | Word::Let | Word::Proc => 0..=VARIABLES - 1,
        Word::Int => 0..=CONSTANTS - 1,
        Word::Newrwlock => 1..=PLACES,
        Word::Call => 0..=PROCEDURES - 1,
        _ => 0..=0,
    }
}

/// One walk from the top: each `proc` line, then its body, and behind all of them the root. The first line
/// that does not fit is refused, or else the last line when something is unfinished or not begun.
fn in_order(lines: &[Line], procedures: u32) -> Result<(), Returned> {
    // The steps that the expression so far still wants, and the expressions that are not begun.
    let (mut open, mut procedures, mut roots) = (0, procedures, 1);
    for &Line { word, line, .. } in lines {
        let proc_due = open == 0 && procedures > 0;
        let step_due = open > 0 || roots > 0;
        let fits = if proc_due { word == Word::Proc } else { step_due && word != Word::Proc };
        if !fits {
            return Err(Returned::at_line(13, line));
        }
        match open {
            0 if proc_due => procedures -= 1,
            0 => roots -= 1,
            _ => open -= 1,
        }
        open += word.parts();
    }
    match (open, procedures, roots) {
        (0, 0, 0) => Ok(()),
        _ => Err(Returned::at_line(13, lines.len() as u32 + 1)),
    }
}

/// The steps apart from the `proc` lines, which stand in their order.
fn parted(lines: &[Line]) -> Program {
    let (mut steps, mut procedures) = (Vec::with_capacity(lines.len()), Vec::new());
    for &Line { word, number, line } in lines {
        match word {
            Word::Proc => procedures.push(Procedure { variable: number, line, body: steps.len() }),
            _ => steps.push(Step { word, number, line, second: 0, end: 0, binder: Binder::Let(0) }),
        }
    }
    Program { steps, procedures, root: 0 }
}

/// Finds each step's parts, from the last step to the first.
fn find_parts(steps: &mut [Step]) {
    for step in (0..steps.len()).rev() {
        let mut end = step + 1;
        for part in 0..steps[step].word.parts() {
            if part == 1 {
                steps[step].second = end;
            }
            end = steps[end].end;
        }
        steps[step].end = end;
    }
}

/// What binds each variable so far, and the steps where it may be used.
struct Bound(Vec<Option<(Binder, Range<usize>)>>);

impl Bound {
    fn bind(&mut self, variable: u32, line: u32, binder: Binder, scope: Range<usize>) -> Result<(), Returned> {
        let place = &mut self.0[variable as usize];
        if place.is_some() {
            return Err(Returned::at_line(15, line));
        }
        *place = Some((binder, scope));
        Ok(())
    }

    fn binder(&self, variable: u32, line: u32, step: usize) -> Result<Binder, Returned> {
        match &self.0[variable as usize] {
            Some((binder, scope)) if scope.contains(&step) => Ok(*binder),
            _ => Err(Returned::at_line(14, line)),
        }
    }
}

/// Gives each `var` what binds it and sees that each call has its procedure, in line order. The root is
/// behind the last body.
fn bind_variables(program: &mut Program) -> Result<(), Returned> {
    let mut bound = Bound(vec![None; VARIABLES as usize]);
    for step in 0..program.steps.len() {
        let Step { word, number, line, second, end, .. } = program.steps[step];
        if let Some(own) = program.begun_by(step) {
            let Procedure { variable, line, .. } = program.procedures[own];
            bound.bind(variable, line, Binder::Procedure(own), step..end)?;
            program.root = end;
        }
        match word {
            Word::Let => bound.bind(number, line, Binder::Let(step), second..end)?,
            Word::Var => program.steps[step].binder = bound.binder(number, line, step)?,
            Word::Call if number as usize >= program.procedures.len() => return Err(Returned::at_line(49, line)),
            _ => {}
        }
    }
    Ok(())
}
