//! The known pairs of document 01, starred or not, and pairs at the edges of the documents' wording.
//! A bar stands for byte 10.

mod base;
mod fillings;
mod locks;
mod procedures;
mod replays;
mod requests;

pub use replays::KnownReplay;

/// A program sheet, a split sheet, and the line that `racecheck` writes for them.
pub struct Known {
    pub program: &'static str,
    pub split: &'static str,
    pub answer: &'static str,
}

impl Known {
    pub fn sheets(&self) -> (Vec<u8>, Vec<u8>) {
        (bytes(self.program), bytes(self.split))
    }
}

fn bytes(sheet: &str) -> Vec<u8> {
    sheet.replace('|', "\n").into_bytes()
}

/// Every known pair; the first is document 01's P with its S.
pub fn all() -> impl Iterator<Item = &'static Known> {
    base::PAIRS.iter().chain(requests::PAIRS).chain(locks::PAIRS).chain(procedures::PAIRS)
}

/// Every known sheet for filling. The answer is the filled sheet, or the refusal as `racefill` writes it.
pub fn fillings() -> impl Iterator<Item = &'static Known> {
    fillings::SHEETS.iter().chain(procedures::SHEETS)
}

/// Every known recorded order.
pub fn replays() -> impl Iterator<Item = &'static KnownReplay> {
    replays::REPLAYS.iter()
}

/// Figure 2 (b), document 01's P.
pub(crate) const P: &str = "P,16|let,0|ref,0|int,0|let,1|newtid,0|let,2|spawn,0|var,1|read,0|var,0|let,3|join,0|var,1|\
                 write,0|var,0|int,1|";
/// The tiny split.
const Z: &str = "C,1,1,1,1|int,0,0|0|0,0,|";
/// The tiny split's program.
const ONE: &str = "P,1|int,0|";
/// A lock, whose type may stand under one number where it is made and under another where it is used.
const SAME_LOCK: &str = "P,3|let,0|newlock,0|var,0|";
/// A spawned thread that does nothing.
const IDLE: &str = "P,3|spawn,0|newtid,0|int,0|";

const fn pair(program: &'static str, split: &'static str, answer: &'static str) -> Known {
    Known { program, split, answer }
}

/// A program at fault, beside the tiny split.
const fn program(program: &'static str, answer: &'static str) -> Known {
    pair(program, Z, answer)
}

/// A split at fault, beside its program.
const fn split(split: &'static str, answer: &'static str) -> Known {
    pair(ONE, split, answer)
}
