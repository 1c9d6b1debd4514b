//! The second filler, written from documents 01 and 02 alone: request (viii).
//!
//! Location by location, each flow or access condition says that one unknown number is at least another
//! plus a known one. The greatest numbers that meet a list of such inequalities are shortest distances
//! in the graph that has an edge for each of them, and there are none when some cycle is negative.

mod inequalities;
#[cfg(test)]
mod search;
mod sheet;
#[cfg(test)]
mod tests;

use super::conditions::{each_line, start_at_most_one};
use super::{at_most, program, split};
use crate::answer::{Returned, GIVEN_MAPS, PROGRAM_BYTES, SPLIT_BYTES, WHOLE, WORK_SPACE};
use inequalities::Inequalities;
use split::Posts;

/// Fills in the after-maps of a sheet. `room` is the length of the work space in 32-bit numbers. What is
/// written has its length in the place of a line.
pub fn fill(program: &[u8], split: &[u8], room: usize, out: &mut [u8]) -> Returned {
    match filled(program, split, room, out.len()) {
        Ok(text) => {
            out[..text.len()].copy_from_slice(&text);
            Returned::at_line(0, text.len() as u32)
        }
        Err(refusal) => refusal,
    }
}

fn filled(program: &[u8], sheet: &[u8], room: usize, buffer: usize) -> Result<Vec<u8>, Returned> {
    at_most(1, WORK_SPACE, room)?;
    at_most(10, program.len(), PROGRAM_BYTES)?;
    let program = program::read(program)?;
    at_most(20, sheet.len(), SPLIT_BYTES)?;
    let split = split::read(sheet, &program, Posts::Left)?;
    at_most(43, split.maps, GIVEN_MAPS as usize)?;
    split.check_loads()?;
    start_at_most_one(&program, &split)?;
    let mut inequalities = Inequalities::new(&split);
    each_line(&program, &split, &mut inequalities)?;
    let posts = inequalities.greatest().ok_or(Returned::at_line(41, 0))?;
    let too_great = posts.iter().flatten().any(|&number| number > i128::from(WHOLE));
    at_most(42, usize::from(too_great), 0)?;
    let text = sheet::with_posts(sheet, &split, &posts);
    at_most(42, text.len(), SPLIT_BYTES.min(buffer))?;
    Ok(text)
}
