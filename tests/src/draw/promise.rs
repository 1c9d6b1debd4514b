//! What the generator knows of a pair's answer, without asking any checker.

use crate::answer::Returned;
use crate::words::Word;

#[derive(Clone, Copy, Debug, PartialEq, Eq)]
pub enum Promise {
    /// Nobody worked the answer out.
    Open,
    Accepted,
    /// This answer.
    Exactly(Returned),
    /// The first false condition is this one of this word.
    Breaks(Word, u32),
}

impl Promise {
    /// Whether an answer to this program sheet keeps the promise.
    pub fn kept(self, program: &[u8], returned: Returned) -> bool {
        match self {
            Promise::Open => true,
            Promise::Accepted => returned == Returned::ACCEPT,
            Promise::Exactly(answer) => returned == answer,
            Promise::Breaks(word, condition) => broken(program, returned) == Some((word, condition)),
        }
    }
}

/// The condition that an answer names as false, with its word.
pub fn broken(program: &[u8], returned: Returned) -> Option<(Word, u32)> {
    if !(31..=33).contains(&returned.number) {
        return None;
    }
    let line = program.split(|&byte| byte == b'\n').nth(returned.line as usize - 1)?;
    let spelling = line.split(|&byte| byte == b',').next()?;
    Some((Word::spelled(spelling)?, returned.condition))
}
