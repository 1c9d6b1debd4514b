//! The program sheet: its lines and their order (refusals 11, 12, 13 and 45).

use super::lines::{refused, Lines};
use super::text::{Fields, Text};
use evidence::answer::{Returned, CONSTANTS, PLACES, PROCEDURES, STEPS, VARIABLES};
use evidence::words::Word;

/// What is known of a program beside its lines.
pub struct Program {
    /// How many lines stand behind the head.
    pub lines: usize,
    pub procedures: usize,
    /// The first line of the root expression.
    pub root: usize,
}

struct Head {
    steps: u32,
    /// None on a `P` sheet.
    procedures: Option<u32>,
}

/// Reads the whole sheet into the table of lines.
pub fn read<'a, F: Fields<'a>>(program: &'a [u8], lines: &mut Lines) -> Result<Program, Returned> {
    let mut text = Text::<F>::new(program, 10);
    let head = read_head(&mut text)?;
    let procedures = head.procedures.unwrap_or(0);
    let count = (head.steps + procedures) as usize;
    let mut order = Order { open: 0, procedures, root: None, misfit: None };
    for line in 0..count {
        let (word, number) = read_line(&mut text, &head)?;
        lines.list(line, word, number);
        order.follow(line, word);
    }
    text.end()?;
    let root = order.root(count)?;
    lines.find_parts(count);
    Ok(Program { lines: count, procedures: procedures as usize, root })
}

/// Reads `P,n` or `P2,n,k`.
fn read_head<'a, F: Fields<'a>>(text: &mut Text<F>) -> Result<Head, Returned> {
    let head = text.line(|line| {
        line.byte(b'P')?;
        let has_procedures = line.byte(b'2').is_some();
        line.byte(b',')?;
        if !has_procedures {
            return Some(Head { steps: line.field(b'\n')?, procedures: None });
        }
        Some(Head { steps: line.field(b',')?, procedures: Some(line.field(b'\n')?) })
    })?;
    text.in_range((1..=STEPS).contains(&head.steps) && head.procedures.unwrap_or(0) <= PROCEDURES)?;
    Ok(head)
}

/// Reads a line `word,v`. The word `freelock` is refused after its v is judged, request (x).
fn read_line<'a, F: Fields<'a>>(text: &mut Text<F>, head: &Head) -> Result<(Word, u32), Returned> {
    let (word, number) = text.line(|line| Some((read_word(line, head)?, line.field(b'\n')?)))?;
    let (least, most) = word.map_or((0, 0), numbers_of);
    text.in_range((least..=most).contains(&number))?;
    let word = word.ok_or(text.refusal(45))?;
    Ok((word, number))
}

/// Takes a word; none for `freelock`. A `P` sheet has no `proc` and no `call`.
fn read_word<'a>(line: &mut impl Fields<'a>, head: &Head) -> Option<Option<Word>> {
    match line.word()? {
        Some(Word::Proc | Word::Call) if head.procedures.is_none() => None,
        word => Some(word),
    }
}

/// The least and the greatest number that is in range behind this word.
fn numbers_of(word: Word) -> (u32, u32) {
    match word {
        Word::Var | Word::Let | Word::Proc => (0, VARIABLES - 1),
        Word::Int => (0, CONSTANTS - 1),
        Word::Newrwlock => (1, PLACES),
        Word::Call => (0, PROCEDURES - 1),
        _ => (0, 0),
    }
}

/// One walk from the top: each `proc` line, then its body, and behind all of them the root.
struct Order {
    /// The steps that the expression so far still wants.
    open: usize,
    /// The procedures that are not begun.
    procedures: u32,
    root: Option<usize>,
    /// The first line that does not fit.
    misfit: Option<usize>,
}

impl Order {
    fn follow(&mut self, line: usize, word: Word) {
        let proc_due = self.open == 0 && self.procedures > 0;
        let step_due = !proc_due && (self.open > 0 || self.root.is_none());
        let fits = if word == Word::Proc { proc_due } else { step_due };
        if !fits {
            self.misfit = self.misfit.or(Some(line));
        }
        match self.open {
            0 if proc_due => self.procedures -= 1,
            0 => self.root = self.root.or(Some(line)),
            _ => self.open -= 1,
        }
        self.open += word.parts();
    }

    /// The root, once so many lines are followed. What does not fit is refused there, what is unfinished or not
    /// begun at the last line.
    fn root(self, count: usize) -> Result<usize, Returned> {
        match (self.misfit, self.root) {
            (Some(line), _) => Err(refused(13, line)),
            (None, Some(root)) if self.open == 0 => Ok(root),
            _ => Err(refused(13, count - 1)),
        }
    }
}
