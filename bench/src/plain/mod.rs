//! The plain checker: what an engineer writes in safe Rust for this task, with nothing proved. It is the
//! anchor of the benchmark, so it works as the product must: all that it keeps is in the lent work space,
//! it allocates nothing, and the work space is cleared behind it.
//!
//! One pass over each text fills the tables of `space`; what is left of the judging goes over these.

mod binders;
mod broken;
pub(crate) mod bytes;
mod conditions;
mod lines;
mod maps;
mod marks;
mod program;
mod space;
mod split;
pub(crate) mod text;
pub(crate) mod types;

use bytes::Bytes;
use evidence::answer::{Returned, PROGRAM_BYTES, SPLIT_BYTES, WORK_SPACE};
use space::Space;
use text::Fields;

/// Judges a pair of sheets.
pub fn check(program: &[u8], split: &[u8], work: &mut [u32]) -> Returned {
    check_by::<Bytes>(program, split, work)
}

/// The same with fields that are read in another way.
pub(crate) fn check_by<'a, F: Fields<'a>>(program: &'a [u8], split: &'a [u8], work: &mut [u32]) -> Returned {
    let Some(work) = work.get_mut(..WORK_SPACE) else { return Returned::at_line(1, 0) };
    let returned = first_refusal::<F>(program, split, &mut Space::of(work)).err().unwrap_or(Returned::ACCEPT);
    work.fill(0);
    returned
}

fn first_refusal<'a, F: Fields<'a>>(program: &'a [u8], split: &'a [u8], space: &mut Space) -> Result<(), Returned> {
    at_most(10, program.len(), PROGRAM_BYTES)?;
    let program = program::read::<F>(program, &mut space.lines)?;
    binders::bind(&program, &mut space.lines, space.variables)?;
    at_most(20, split.len(), SPLIT_BYTES)?;
    let head = split::read::<F>(split, &program, space)?;
    space.types.check_loads(&space.maps, head.types)?;
    conditions::check(&program, &head, space)
}

/// Refuses with `number` and no line when `length` is over `limit`.
fn at_most(number: u32, length: usize, limit: usize) -> Result<(), Returned> {
    if length <= limit {
        Ok(())
    } else {
        Err(Returned::at_line(number, 0))
    }
}
