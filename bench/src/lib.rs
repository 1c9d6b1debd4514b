//! What the product is compared with and on what: the plain checker, the tuned one, the second checker as the
//! benchmark has it, the pairs and the traces.

#![forbid(unsafe_code)]

pub mod grown;
pub mod pairs;
pub mod plain;
pub mod rows;
#[cfg(test)]
mod tests;
pub mod traces;
pub mod tuned;

use evidence::answer::WORK_SPACE;
use evidence::checking::Checker;
use evidence::second;

/// The second checker. It has no work space, so as much is cleared behind it as the others must clear.
pub const SECOND: Checker = |program, split, work| {
    let returned = second::check(program, split, work.len());
    if let Some(work) = work.get_mut(..WORK_SPACE) {
        work.fill(0);
    }
    returned
};
