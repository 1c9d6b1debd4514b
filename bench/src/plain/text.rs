//! A sheet read line by line, and each line field by field.

use super::types::Kind;
use evidence::answer::Returned;
use evidence::words::Word;

/// What is left of a sheet, and how fields are taken off its front. Where something else stands nothing is given, and
/// the line has the wrong form.
pub trait Fields<'a> {
    fn of(sheet: &'a [u8]) -> Self;

    fn are_over(&self) -> bool;

    /// Takes this one byte.
    fn byte(&mut self, wanted: u8) -> Option<()>;

    /// Takes a word of the program sheet and the comma behind it. Within, there is none for `freelock`.
    fn word(&mut self) -> Option<Option<Word>>;

    /// Takes the word of a type line and the comma behind it.
    fn kind(&mut self) -> Option<Kind>;

    /// Takes a numeral and the byte behind it: 1 to 10 digits, no leading zero except `0` itself. Numbers past 32 bits
    /// are in range nowhere, so the greatest of 32 bits stands for each of them.
    fn field(&mut self, behind: u8) -> Option<u32>;

    /// Takes a numeral or nothing, and the byte behind it.
    fn field_or_empty(&mut self, behind: u8) -> Option<Option<u32>> {
        match self.byte(behind) {
            Some(()) => Some(None),
            None => self.field(behind).map(Some),
        }
    }
}

/// A sheet with the line reached in it. `base` is 10 for the program sheet and 20 for the split sheet: the refusals for
/// form, range and count are `base` + 1, 2 and 3.
pub struct Text<F> {
    fields: F,
    line: u32,
    base: u32,
}

impl<'a, F: Fields<'a>> Text<F> {
    pub fn new(sheet: &'a [u8], base: u32) -> Text<F> {
        Text { fields: F::of(sheet), line: 0, base }
    }

    /// Reads one line whose fields `form` takes, closing byte included. A line that is not there is a missing
    /// one, save in an empty text, where line 1 has the wrong form.
    pub fn line<T>(&mut self, form: impl FnOnce(&mut F) -> Option<T>) -> Result<T, Returned> {
        if self.fields.are_over() && self.line > 0 {
            return Err(self.refusal(self.base + 3));
        }
        self.line += 1;
        form(&mut self.fields).ok_or(self.refusal(self.base + 1))
    }

    /// Refuses the line just read unless its numbers are in range.
    pub fn in_range(&self, yes: bool) -> Result<(), Returned> {
        self.wanted(self.base + 2, yes)
    }

    /// Refuses the line just read with this number unless something holds.
    pub fn wanted(&self, number: u32, yes: bool) -> Result<(), Returned> {
        if yes {
            Ok(())
        } else {
            Err(self.refusal(number))
        }
    }

    /// The refusal of the line just read with this number.
    pub fn refusal(&self, number: u32) -> Returned {
        Returned::at_line(number, self.line)
    }

    /// Refuses the first spare line, whatever its bytes.
    pub fn end(&self) -> Result<(), Returned> {
        if self.fields.are_over() {
            Ok(())
        } else {
            Err(Returned::at_line(self.base + 3, self.line + 1))
        }
    }
}
