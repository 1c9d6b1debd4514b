//! The lent work space, cut into the tables of a check.

use super::lines::Lines;
use super::maps::Maps;
use super::marks::{Marks, Signatures};
use super::types::Types;
use evidence::answer::{MAPS, PROCEDURES, STEPS, TYPES, VARIABLES};

/// The most lines behind the head of a program sheet: steps and `proc` lines.
const LINES: u32 = STEPS + PROCEDURES;

pub struct Space<'a> {
    pub lines: Lines<'a>,
    /// What binds each variable, by the number of its line.
    pub variables: &'a mut [u32],
    pub types: Types<'a>,
    pub maps: Maps<'a>,
    pub signatures: Signatures<'a>,
    pub marks: Marks<'a>,
}

impl<'a> Space<'a> {
    /// What stands in the tables is whatever the work space was lent with.
    pub fn of(work: &'a mut [u32]) -> Space<'a> {
        let (lines, work) = rows(work, LINES);
        let (types, work) = rows(work, TYPES);
        // One more for the map that holds nothing.
        let (maps, work) = rows(work, MAPS + 1);
        let (signatures, work) = rows(work, PROCEDURES);
        let (marks, work) = rows(work, LINES);
        Space {
            lines: Lines(lines),
            variables: &mut work[..VARIABLES as usize],
            types: Types(types),
            maps: Maps(maps),
            signatures: Signatures(signatures),
            marks: Marks(marks),
        }
    }
}

/// So many rows off the front, and what is left.
fn rows<const WIDTH: usize>(work: &mut [u32], count: u32) -> (&mut [[u32; WIDTH]], &mut [u32]) {
    let (front, rest) = work.split_at_mut(WIDTH * count as usize);
    (front.as_chunks_mut().0, rest)
}
