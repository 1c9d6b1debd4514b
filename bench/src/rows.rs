//! The rows of the tables, with the titles that the page has: what is timed by the clock and counted in instructions.

use crate::grown::Counts;
use crate::pairs::{self, Pair};
use evidence::drill::{draw, readers};

/// A pair to check.
pub struct Check {
    pub title: String,
    pub pair: Pair,
    /// Whether it is the row before with one count doubled.
    pub doubled: bool,
}

/// A row that is no row before with more of something.
type Alone = (&'static str, fn() -> Pair);

/// Every check, made when it is asked for.
pub fn checks() -> impl Iterator<Item = Check> {
    let alone: [Alone; 5] = [
        ("small, Figure 2 (b)", pairs::small),
        ("full, accepted", pairs::fullest),
        ("full, refused at its last condition", pairs::refused_last),
        ("deepest types", pairs::deepest),
        ("256 steps, 16 procedures", pairs::with_procedures),
    ];
    let alone = alone.into_iter();
    alone
        .map(|(title, pair)| Check { title: title.to_string(), pair: pair(), doubled: false })
        .chain(doubling("steps", 16, |count| pairs::honest(count, 32, 4)))
        .chain(doubling("maps", 32, |count| pairs::honest(32, count, 4)))
        .chain(doubling("locations", 1, |count| pairs::honest(32, 256, count)))
        .chain(doubling("types", 4, |count| grown("types", count)))
        .chain(doubling("procedures", 1, |count| grown("procedures", count)))
}

/// One count that doubles four times.
fn doubling(what: &'static str, least: usize, pair: impl Fn(usize) -> Pair) -> impl Iterator<Item = Check> {
    let titled = move |count| match count {
        1 => format!("1 {}", what.trim_end_matches('s')),
        _ => format!("{count} {what}"),
    };
    (0..5).map(move |times| {
        let count = least << times;
        Check { title: titled(count), pair: pair(count), doubled: times > 0 }
    })
}

fn grown(what: &str, count: usize) -> Pair {
    pairs::grown(Counts::with(what, count).expect("a count has a name"))
}

/// Sheets to be filled in.
pub fn fillings() -> [(&'static str, Pair); 2] {
    [
        ("the full sheet of 256 maps, filled", pairs::fullest_to_fill()),
        ("256 steps, 16 procedures, filled", pairs::with_procedures().to_fill()),
    ]
}

/// The first seed with the most readers.
pub fn drill() -> (&'static str, u32) {
    let seed = (0..).find(|&seed| readers(draw(seed)) == 31);
    ("31 readers, drilled", seed.expect("some seed has them"))
}
