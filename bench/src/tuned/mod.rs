//! The tuned checker: the plain one, with fields that are read eight bytes at once. How many digits a numeral has is
//! asked of all eight, up to eight digits become a number by three multiplications, and a word is told by one
//! comparison.

mod names;
#[cfg(test)]
mod tests;
mod window;

use crate::plain::check_by;
use crate::plain::text::Fields;
use crate::plain::types::Kind;
use evidence::answer::Returned;
use evidence::words::Word;
use window::Window;

/// Judges a pair of sheets.
pub fn check(program: &[u8], split: &[u8], work: &mut [u32]) -> Returned {
    check_by::<Rest>(program, split, work)
}

/// What is left of a sheet.
struct Rest<'a>(&'a [u8]);

impl Rest<'_> {
    /// Takes what is found in the window at the front, which says how many bytes it is.
    #[inline(always)]
    fn taken<T>(&mut self, found: impl Fn(&Window) -> Option<(T, usize)>) -> Option<T> {
        let (taken, length) = match self.0.first_chunk() {
            Some(window) => found(window)?,
            None => at_the_end(self.0, found)?,
        };
        self.0 = &self.0[length..];
        Some(taken)
    }
}

/// What is found where the sheet ends within the window.
#[cold]
fn at_the_end<T>(rest: &[u8], found: impl Fn(&Window) -> Option<(T, usize)>) -> Option<(T, usize)> {
    let mut window = Window::default();
    window[..rest.len()].copy_from_slice(rest);
    found(&window)
}

impl<'a> Fields<'a> for Rest<'a> {
    fn of(sheet: &'a [u8]) -> Rest<'a> {
        Rest(sheet)
    }

    fn are_over(&self) -> bool {
        self.0.is_empty()
    }

    fn byte(&mut self, wanted: u8) -> Option<()> {
        self.0 = self.0.strip_prefix(&[wanted])?;
        Some(())
    }

    fn word(&mut self) -> Option<Option<Word>> {
        self.taken(names::word)
    }

    fn kind(&mut self) -> Option<Kind> {
        self.taken(names::kind)
    }

    #[inline(always)]
    fn field(&mut self, behind: u8) -> Option<u32> {
        self.taken(|window| window::field(window, behind))
    }
}
