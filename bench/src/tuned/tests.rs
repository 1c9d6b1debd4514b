//! Fields read eight bytes at once beside fields read byte by byte.

use super::Rest;
use crate::plain::bytes::Bytes;
use crate::plain::text::Fields;
use evidence::words::WORDS;

/// A way to take a field, and what each way gives, with what comes next where it gives something.
type Way<F> = fn(&mut F) -> Option<Option<u32>>;
type Taken = [Option<(Option<u32>, bool, Option<()>)>; 5];

fn taken<'a, F: Fields<'a>>(sheet: &'a [u8]) -> Taken {
    let ways: [Way<F>; 5] = [
        |fields| Some(fields.word()?.map(|word| word as u32)),
        |fields| Some(Some(fields.kind()? as u32)),
        |fields| fields.field(b',').map(Some),
        |fields| fields.field(b'\n').map(Some),
        |fields| fields.field_or_empty(b'\n'),
    ];
    ways.map(|take| {
        let mut fields = F::of(sheet);
        Some((take(&mut fields)?, fields.are_over(), fields.byte(b'1')))
    })
}

/// Both readers take the same where these bytes come first, then any byte at all, then one of the rests.
fn alike(front: &str, rests: &[&str]) {
    for rest in rests {
        for byte in 0..=u8::MAX {
            let sheet = [front.as_bytes(), &[byte], rest.as_bytes()].concat();
            assert_eq!(taken::<Rest>(&sheet), taken::<Bytes>(&sheet), "{}", sheet.escape_ascii());
        }
    }
}

/// The sheet ends behind that byte, or within sixteen bytes, or further on.
const RESTS: [&str; 4] = ["", "1", ",12", "123456789012345,"];

#[test]
fn numerals_of_every_length() {
    for digits in ["102030405060", "000000000000", "999999999999"] {
        for length in 0..digits.len() {
            alike(&digits[..length], &RESTS);
        }
    }
}

#[test]
fn words_cut_or_misspelled_in_every_place() {
    let kinds = ["freelock", "tid", "sem", "rwlock"];
    for word in WORDS.map(|word| word.spelling()).into_iter().chain(kinds) {
        for cut in 0..word.len() {
            alike(&word[..cut], &RESTS);
            alike(&word[..cut], &[&format!("{},1", &word[cut + 1..])]);
        }
        alike(word, &RESTS);
    }
}
