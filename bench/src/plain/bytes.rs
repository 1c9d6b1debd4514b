//! Fields read byte by byte.

use super::text::Fields;
use super::types::Kind;
use evidence::words::Word;

/// A sheet with the place reached in it.
pub struct Bytes<'a> {
    bytes: &'a [u8],
    at: usize,
}

impl<'a> Bytes<'a> {
    fn next(&self) -> Option<u8> {
        self.bytes.get(self.at).copied()
    }

    /// Takes a run of letters and the comma behind it.
    fn letters(&mut self) -> Option<&'a [u8]> {
        let rest = &self.bytes[self.at..];
        let length = rest.iter().position(|byte| !byte.is_ascii_alphabetic())?;
        self.at += length;
        self.byte(b',')?;
        Some(&rest[..length])
    }

    /// Takes a numeral. A digit left over after ten stands where a comma or the closing byte must be.
    fn numeral(&mut self) -> Option<u32> {
        let mut value = self.digit()?;
        if value == 0 {
            return Some(0);
        }
        for _ in 1..10 {
            let Some(digit) = self.digit() else { break };
            value = value * 10 + digit;
        }
        Some(u32::try_from(value).unwrap_or(u32::MAX))
    }

    fn digit(&mut self) -> Option<u64> {
        let digit = self.next()?.wrapping_sub(b'0');
        if digit > 9 {
            return None;
        }
        self.at += 1;
        Some(u64::from(digit))
    }
}

impl<'a> Fields<'a> for Bytes<'a> {
    fn of(bytes: &'a [u8]) -> Bytes<'a> {
        Bytes { bytes, at: 0 }
    }

    fn are_over(&self) -> bool {
        self.at == self.bytes.len()
    }

    fn byte(&mut self, wanted: u8) -> Option<()> {
        if self.next() != Some(wanted) {
            return None;
        }
        self.at += 1;
        Some(())
    }

    fn word(&mut self) -> Option<Option<Word>> {
        let spelling = self.letters()?;
        match Word::spelled(spelling) {
            None if spelling != b"freelock" => None,
            word => Some(word),
        }
    }

    fn kind(&mut self) -> Option<Kind> {
        match self.letters()? {
            b"int" => Some(Kind::Int),
            b"ref" => Some(Kind::Ref),
            b"lock" => Some(Kind::Lock),
            b"tid" => Some(Kind::Tid),
            b"sem" => Some(Kind::Sem),
            b"rwlock" => Some(Kind::Rwlock),
            _ => None,
        }
    }

    fn field(&mut self, behind: u8) -> Option<u32> {
        let number = self.numeral()?;
        self.byte(behind)?;
        Some(number)
    }
}
