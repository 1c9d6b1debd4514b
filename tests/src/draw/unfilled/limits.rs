//! Sheets at the limits of request (viii) and one past them.

use super::{typed, Unfilled};
use crate::answer::{Returned, GIVEN_MAPS, LOCATIONS, MAPS, SPLIT_BYTES, STEPS, WORK_SPACE};
use crate::draw::draft::{Draft, Heading};
use crate::draw::full::{lengthen, with_maps, with_steps};
use crate::draw::honest;
use crate::draw::promise::Promise;
use crate::draw::random::Random;
use crate::second;

/// A sheet at one of the limits, or one past it.
pub fn at_limit(random: &mut Random) -> Unfilled {
    match random.below(4) {
        0 => with_given_maps(random),
        1 => fullest(random),
        2 => with_length(random, SPLIT_BYTES + 1),
        _ => full(random),
    }
}

/// As many maps as a sheet for filling may have, one more, or as many as a sheet may have, and one more.
fn with_given_maps(random: &mut Random) -> Unfilled {
    let mut draft = typed::draft(random);
    with_maps(&mut draft, random.pick(&[GIVEN_MAPS - 1, GIVEN_MAPS, GIVEN_MAPS + 1, MAPS, MAPS + 1]) as usize);
    let refused = |number, line| Promise::Exactly(Returned::at_line(number, line));
    let mut drawn = Unfilled::of_draft(&draft, "limit");
    drawn.pair.promise = match draft.maps.len() as u32 {
        maps if maps <= GIVEN_MAPS => Promise::Open,
        maps if maps <= MAPS => refused(43, 0),
        _ => refused(22, 1),
    };
    drawn
}

/// A sheet with 256 steps, 256 maps and 16 locations, which is as long as it may be when it is filled.
pub fn fullest(random: &mut Random) -> Unfilled {
    with_length(random, SPLIT_BYTES)
}

/// A sheet whose filled text has this length: the second filler tells how long it is with unused maps of one
/// digit, and those get the digits that are missing.
fn with_length(random: &mut Random, bytes: usize) -> Unfilled {
    loop {
        let mut draft = long(random, 1_000_000);
        let used = draft.maps.len();
        with_maps(&mut draft, GIVEN_MAPS as usize);
        let drawn = Unfilled::of_draft(&draft, "limit");
        let written = second::fill(&drawn.pair.program, &drawn.pair.split, WORK_SPACE, &mut [0; SPLIT_BYTES]);
        let missing = bytes.saturating_sub(written.line as usize);
        let target = draft.split().len() + missing;
        if written.number == 0 && lengthen(random, &mut draft, used, target) {
            return Unfilled::of_draft(&draft, "limit");
        }
    }
}

/// An honest program of 256 steps. Only the maps that it starts with and that its types carry stay.
fn long(random: &mut Random, whole: u32) -> Draft {
    loop {
        let mut draft = honest::draft(random, 235, LOCATIONS as usize, whole);
        draft.heading = Heading::C2 { start: 0 };
        if with_steps(random, &mut draft, STEPS as usize) {
            draft.drop_posts();
            return draft;
        }
    }
}

/// As many steps, maps and locations; the filled text may be too long.
fn full(random: &mut Random) -> Unfilled {
    let whole = random.pick(&[1, 1_000, 1_000_000, 1_000_000_000]);
    let mut draft = long(random, whole);
    with_maps(&mut draft, GIVEN_MAPS as usize);
    Unfilled::of_draft(&draft, "limit")
}
