//! The lines behind the head of the program sheet, steps and `proc` lines alike, by their numbers from 0.

use evidence::answer::Returned;
use evidence::words::{Word, WORDS};

/// A line. Its first part, if any, is the next line; `second` is its second part, and `end` is the line after
/// its last part. The part of a `proc` line is its body. `number` is the v of the line; once variables are
/// bound it is what binds the variable of a `var`, and which procedure a `proc` line begins.
#[derive(Clone, Copy)]
pub struct Line {
    pub word: Word,
    pub number: u32,
    pub second: usize,
    pub end: usize,
}

pub struct Lines<'a>(pub &'a mut [[u32; 4]]);

/// Refuses a line of the program sheet. Line 0 stands on the sheet's line 2.
pub fn refused(number: u32, line: usize) -> Returned {
    Returned::at_line(number, line as u32 + 2)
}

impl Lines<'_> {
    pub fn at(&self, line: usize) -> Line {
        let [word, number, second, end] = self.0[line];
        Line { word: WORDS[word as usize], number, second: second as usize, end: end as usize }
    }

    pub fn list(&mut self, line: usize, word: Word, number: u32) {
        self.0[line] = [word as u32, number, 0, 0];
    }

    pub fn set_number(&mut self, line: usize, number: usize) {
        self.0[line][1] = number as u32;
    }

    /// Finds the parts of so many lines, from the last to the first.
    pub fn find_parts(&mut self, count: usize) {
        for line in (0..count).rev() {
            let (second, end) = match self.at(line).word.parts() {
                0 => (0, line + 1),
                1 => (0, self.at(line + 1).end),
                _ => (self.at(line + 1).end, self.at(self.at(line + 1).end).end),
            };
            self.0[line][2..].copy_from_slice(&[second as u32, end as u32]);
        }
    }
}
