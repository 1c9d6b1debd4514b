//! The second checker, the second filler and the second replayer, written from documents 01 and 02 alone.

mod conditions;
mod fill;
mod flows;
#[cfg(test)]
mod known_pairs;
mod program;
mod replay;
mod split;
mod text;

use crate::answer::{Returned, PROGRAM_BYTES, SPLIT_BYTES, WORK_SPACE};
pub use fill::fill;
pub use replay::{replay, replay_seen, Seen};
use split::Posts;

/// Judges a pair of sheets. `room` is the length of the work space in 32-bit numbers.
pub fn check(program: &[u8], split: &[u8], room: usize) -> Returned {
    match first_refusal(program, split, room) {
        Ok(()) => Returned::ACCEPT,
        Err(refusal) => refusal,
    }
}

fn first_refusal(program: &[u8], split: &[u8], room: usize) -> Result<(), Returned> {
    at_most(1, WORK_SPACE, room)?;
    at_most(10, program.len(), PROGRAM_BYTES)?;
    let program = program::read(program)?;
    at_most(20, split.len(), SPLIT_BYTES)?;
    let split = split::read(split, &program, Posts::Named)?;
    split.check_loads()?;
    conditions::check(&program, &split)
}

/// Refuses with `number` and no line when `length` is over `limit`.
fn at_most(number: u32, length: usize, limit: usize) -> Result<(), Returned> {
    if length <= limit {
        Ok(())
    } else {
        Err(Returned::at_line(number, 0))
    }
}
