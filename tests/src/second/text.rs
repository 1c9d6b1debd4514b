//! A sheet read line by line, and each line field by field.

use crate::answer::Returned;

/// A sheet with the place reached in it. `base` is 10 for the program sheet and 20 for the split
/// sheet: the refusals for form, range and count are `base` + 1, 2 and 3.
pub struct Text<'a> {
    bytes: &'a [u8],
    at: usize,
    line: u32,
    base: u32,
}

impl<'a> Text<'a> {
    pub fn new(bytes: &'a [u8], base: u32) -> Text<'a> {
        Text { bytes, at: 0, line: 1, base }
    }

    /// Reads one line whose fields `form` takes, closing byte included. A line that is not there
    /// is a missing one, save in an empty text, where line 1 has the wrong form.
    pub fn line<T>(&mut self, form: impl FnOnce(&mut Self) -> Option<T>) -> Result<T, Returned> {
        if self.at == self.bytes.len() && self.line > 1 {
            return Err(Returned::at_line(self.base + 3, self.line - 1));
        }
        let fields = form(self).filter(|_| self.byte(b'\n').is_some());
        let fields = fields.ok_or(Returned::at_line(self.base + 1, self.line))?;
        self.line += 1;
        Ok(fields)
    }

    /// Refuses the line just read unless its numbers are in range.
    pub fn in_range(&self, yes: bool) -> Result<(), Returned> {
        self.wanted(self.base + 2, yes)
    }

    /// Refuses the line just read with this number unless something holds.
    pub fn wanted(&self, number: u32, yes: bool) -> Result<(), Returned> {
        if yes {
            Ok(())
        } else {
            Err(self.refusal(number))
        }
    }

    /// The refusal of the line just read with this number.
    pub fn refusal(&self, number: u32) -> Returned {
        Returned::at_line(number, self.line - 1)
    }

    /// Refuses the first spare line, whatever its bytes.
    pub fn end(&self) -> Result<(), Returned> {
        if self.at == self.bytes.len() {
            Ok(())
        } else {
            Err(Returned::at_line(self.base + 3, self.line))
        }
    }

    /// What follows the lines read so far.
    pub fn rest(&self) -> &'a [u8] {
        &self.bytes[self.at..]
    }

    /// Takes this one byte.
    pub fn byte(&mut self, wanted: u8) -> Option<()> {
        if self.bytes.get(self.at) != Some(&wanted) {
            return None;
        }
        self.at += 1;
        Some(())
    }

    /// Takes a run of letters.
    pub fn letters(&mut self) -> &'a [u8] {
        let rest = &self.bytes[self.at..];
        let length = rest.iter().position(|byte| !byte.is_ascii_alphabetic()).unwrap_or(rest.len());
        self.at += length;
        &rest[..length]
    }

    /// Takes a numeral: 1 to 10 digits, no leading zero except `0` itself. A digit left over after
    /// that stands where a comma or the closing byte must be, so the line has the wrong form. Numbers
    /// past 32 bits are in range nowhere, so the greatest of 32 bits stands for each of them.
    pub fn numeral(&mut self) -> Option<u32> {
        let (mut value, mut length) = (0_u64, 0);
        for byte in self.bytes[self.at..].iter().take(10) {
            let digit = byte.wrapping_sub(b'0');
            if digit > 9 {
                break;
            }
            value = value * 10 + u64::from(digit);
            length += 1;
            if value == 0 {
                break;
            }
        }
        self.at += length;
        (length > 0).then_some(u32::try_from(value).unwrap_or(u32::MAX))
    }

    /// Takes a comma, then a numeral.
    pub fn next_numeral(&mut self) -> Option<u32> {
        self.byte(b',')?;
        self.numeral()
    }

    /// Takes a comma, then a numeral or nothing: a field that may be empty, with the byte behind it.
    pub fn next_numeral_or_empty(&mut self, behind: u8) -> Option<Option<u32>> {
        self.byte(b',')?;
        if self.bytes.get(self.at) == Some(&behind) {
            return Some(None);
        }
        self.numeral().map(Some)
    }
}
