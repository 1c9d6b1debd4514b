//! Expressions as they are evaluated: the words of the program sheet, with values among them.

use crate::words::Word;
use std::rc::Rc;

pub type Name = u32;

/// A constant or a name. A name is used for one thing only, so it carries that thing's kind.
#[derive(Clone, Copy, Debug, PartialEq, Eq, Hash, PartialOrd, Ord)]
pub enum Value {
    Constant(u32),
    Cell(Name),
    Lock(Name),
    Identifier(Name),
    Semaphore(Name),
    RwLock(Name),
}

#[derive(Debug, PartialEq, Eq, Hash)]
pub enum Expression {
    Value(Value),
    Var(u32),
    /// Any other word. The number is the variable that a `let` binds or the reading places of a new
    /// read-write lock, and 0 elsewhere.
    Step {
        word: Word,
        number: u32,
        parts: Vec<Rc<Expression>>,
    },
    /// A call that was taken, around its body, which is no value yet. It is no step of the language.
    Open(Rc<Expression>),
}

/// A procedure: its x and its body.
#[derive(Debug, PartialEq, Eq, Hash)]
pub struct Procedure {
    pub variable: u32,
    pub body: Rc<Expression>,
}

/// A program: its root and its procedures.
#[derive(Clone, Debug)]
pub struct Program {
    pub root: Rc<Expression>,
    pub procedures: Rc<Vec<Procedure>>,
}

impl Program {
    /// What a well formed program sheet lists.
    pub fn listed(program: &[u8]) -> Option<Program> {
        let text = std::str::from_utf8(program).ok()?;
        let mut lines = text.lines().skip(1).peekable();
        let mut procedures = Vec::new();
        while let Some(variable) = lines.peek().and_then(|line| line.strip_prefix("proc,")) {
            let variable = variable.parse().ok()?;
            lines.next();
            procedures.push(Procedure { variable, body: read_step(&mut lines)? });
        }
        Some(Program { root: read_step(&mut lines)?, procedures: Rc::new(procedures) })
    }
}

/// The variable of an unrolled loop's `let`, which no program uses.
pub const USED_NOWHERE: u32 = 256;

use Expression::{Open, Step, Var};

impl Expression {
    pub fn constant(number: u32) -> Rc<Expression> {
        Rc::new(Expression::Value(Value::Constant(number)))
    }

    pub fn value(&self) -> Option<Value> {
        match self {
            Expression::Value(value) => Some(*value),
            _ => None,
        }
    }

    /// The part that is evaluated next, of those that must be values before the word reduces.
    fn open_part(&self) -> Option<usize> {
        let Step { word, parts, .. } = self else { return None };
        let strict = match word {
            Word::If | Word::While => 0,
            Word::Let | Word::Spawn => 1,
            _ => parts.len(),
        };
        parts[..strict].iter().position(|part| part.value().is_none())
    }

    /// The next word of an expression that is no value.
    pub fn next_word(&self) -> &Expression {
        match (self, self.open_part()) {
            (Step { parts, .. }, Some(part)) => parts[part].next_word(),
            (Open(body), _) => body.next_word(),
            _ => self,
        }
    }

    /// How many calls are open. All of them are around the next word.
    pub fn open_calls(&self) -> usize {
        match (self, self.open_part()) {
            (Step { parts, .. }, Some(part)) => parts[part].open_calls(),
            (Open(body), _) => 1 + body.open_calls(),
            _ => 0,
        }
    }

    /// A taken call around its body: closed at once when the body is a value.
    pub fn opened(body: Rc<Expression>) -> Rc<Expression> {
        match body.value() {
            Some(_) => body,
            None => Rc::new(Open(body)),
        }
    }

    /// The same expression with something else in place of its next word.
    pub fn with_next_word(&self, replacement: Rc<Expression>) -> Rc<Expression> {
        if let Open(body) = self {
            return Expression::opened(body.with_next_word(replacement));
        }
        let (Step { word, number, parts }, Some(part)) = (self, self.open_part()) else { return replacement };
        let mut parts = parts.clone();
        parts[part] = parts[part].with_next_word(replacement);
        Rc::new(Step { word: *word, number: *number, parts })
    }

    /// The expression with a value put for a variable.
    pub fn put(self: &Rc<Expression>, variable: u32, value: Value) -> Rc<Expression> {
        match &**self {
            Expression::Value(_) => self.clone(),
            Var(known) if *known == variable => Rc::new(Expression::Value(value)),
            Var(_) => self.clone(),
            Open(body) => Expression::opened(body.put(variable, value)),
            Step { word, number, parts } => {
                let parts = parts.iter().map(|part| part.put(variable, value)).collect();
                Rc::new(Step { word: *word, number: *number, parts })
            }
        }
    }

    /// What a loop becomes: an `if` of the part and then the same loop, or 0.
    pub fn unrolled(part: &Rc<Expression>) -> Rc<Expression> {
        let again = Rc::new(Step { word: Word::While, number: 0, parts: vec![part.clone()] });
        let once = Step { word: Word::Let, number: USED_NOWHERE, parts: vec![part.clone(), again] };
        let parts = vec![Rc::new(once), Expression::constant(0)];
        Rc::new(Step { word: Word::If, number: 0, parts })
    }
}

fn read_step<'a>(lines: &mut impl Iterator<Item = &'a str>) -> Option<Rc<Expression>> {
    let (word, number) = lines.next()?.split_once(',')?;
    let (word, number) = (Word::spelled(word.as_bytes())?, number.parse().ok()?);
    let parts = (0..word.parts()).map(|_| read_step(lines)).collect::<Option<Vec<_>>>()?;
    Some(Rc::new(match word {
        Word::Var => Var(number),
        Word::Int => Expression::Value(Value::Constant(number)),
        _ => Step { word, number, parts },
    }))
}
