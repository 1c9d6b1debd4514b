//! One word on one thing, of the right kind or not.

use super::loops::sheet;
use crate::draw::random::Random;

const MAKERS: [&str; 6] = ["int,0", "newtid,0", "newlock,0", "newsem,0", "newrwlock,1", "ref,0|int,0"];

/// The word, and what stands behind its first part.
const WORDS: [(&str, &str); 12] = [
    ("read", ""),
    ("write", "|int,1"),
    ("spawn", "|int,0"),
    ("join", ""),
    ("lock", ""),
    ("unlock", ""),
    ("post", ""),
    ("wait", ""),
    ("rdlock", ""),
    ("rdunlock", ""),
    ("wrlock", ""),
    ("wrunlock", ""),
];

/// The thing is made, which is one step at most, and then the word is tried.
pub fn run(random: &mut Random) -> (Vec<u8>, Vec<u8>) {
    let ((word, behind), maker) = (random.pick(&WORDS), random.pick(&MAKERS));
    (sheet(&format!("{word},0|{maker}{behind}")), b"0,0\n".repeat(1 + random.below(3)))
}
