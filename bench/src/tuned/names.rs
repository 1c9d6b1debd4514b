//! The words of both sheets, each told by its bytes as numbers.

use super::window::{halves, up_to_comma, Window};
use crate::plain::types::Kind;
use evidence::words::{Word, WORDS};

/// A word with the comma behind it.
#[derive(Clone, Copy)]
struct Name<T> {
    /// Its first eight bytes, and the others.
    halves: [u64; 2],
    length: usize,
    told: T,
}

const fn name<T: Copy>(spelling: &[u8], told: T) -> Name<T> {
    let mut bytes = [[0; 8]; 2];
    let mut place = 0;
    while place < spelling.len() {
        bytes[place / 8][place % 8] = spelling[place];
        place += 1;
    }
    bytes[place / 8][place % 8] = b',';
    Name { halves: [u64::from_le_bytes(bytes[0]), u64::from_le_bytes(bytes[1])], length: place + 1, told }
}

impl<T: Copy> Name<T> {
    /// What it says and its length, if it stands in the window, whose first eight bytes up to a comma are given.
    fn stands(&self, window: &Window, first: u64) -> Option<(T, usize)> {
        let stands = self.halves[0] == first && (self.length <= 8 || self.halves[1] == up_to_comma(halves(window)[1]));
        stands.then_some((self.told, self.length))
    }
}

/// The words of the program sheet, each in its place. A free place has the word `freelock`, whose own is elsewhere.
static WORD_NAMES: [Name<Option<Word>>; 64] = {
    let freelock = name(b"freelock", None);
    let mut names = [freelock; 64];
    let mut next = 0;
    while next < WORDS.len() {
        let word = name(WORDS[next].spelling().as_bytes(), Some(WORDS[next]));
        let place = place_of(word.halves[0]);
        assert!(
            names[place].told.is_none() && place != place_of(freelock.halves[0]),
            "each word has a place of its own"
        );
        names[place] = word;
        next += 1;
    }
    names
};

const fn place_of(first: u64) -> usize {
    (first.wrapping_mul(FACTOR) >> 58) as usize
}

/// One by which no two words fall on one place.
const FACTOR: u64 = 0x8AFE_0D91_C585_7993;

/// A word of the program sheet and the comma behind it: which it is, none for `freelock`, and how many bytes they are.
pub fn word(window: &Window) -> Option<(Option<Word>, usize)> {
    let first = up_to_comma(halves(window)[0]);
    WORD_NAMES[place_of(first)].stands(window, first)
}

/// The words of type lines.
static KIND_NAMES: [Name<Kind>; 6] = [
    name(b"int", Kind::Int),
    name(b"ref", Kind::Ref),
    name(b"lock", Kind::Lock),
    name(b"tid", Kind::Tid),
    name(b"sem", Kind::Sem),
    name(b"rwlock", Kind::Rwlock),
];

/// The same of a type line.
pub fn kind(window: &Window) -> Option<(Kind, usize)> {
    let first = up_to_comma(halves(window)[0]);
    KIND_NAMES.iter().find_map(|name| name.stands(window, first))
}
