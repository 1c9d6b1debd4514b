//! One filling compared: a filler called on a sheet, its answer, its text and what it leaves behind.

use crate::answer::{Returned, WORK_SPACE};
use crate::checking::{Checker, WorkSpace};
use crate::draw::unfilled::Unfilled;
use crate::second;

/// A filler as the product offers it: two sheets, a lent work space and a lent buffer. What is written has
/// its length in the place of the line.
pub type Filler = fn(&[u8], &[u8], &mut [u32], &mut [u8]) -> Returned;

/// The second filler, which needs no work space and leaves it as a filler must.
pub const SECOND: Filler = |program, split, work, out| {
    let returned = second::fill(program, split, work.len(), out);
    if work.len() >= WORK_SPACE {
        work[..WORK_SPACE].fill(0);
    }
    returned
};

/// What a filler answered, and the buffer that it was lent, with the mark behind it.
#[derive(PartialEq, Eq)]
struct Outcome {
    returned: Returned,
    bytes: Vec<u8>,
}

/// How many bytes stand behind the buffer lent, to show a write past its end.
pub const MARK: usize = 16;

/// What stands in a buffer before it is lent.
pub fn garbage(length: usize) -> Vec<u8> {
    (0..length).map(|place| 0xA5 ^ place as u8).collect()
}

impl Outcome {
    /// Calls a filler with a buffer of garbage. Fails when a text or the work space is not as it must be.
    fn of(filler: Filler, drawn: &Unfilled, buffer: usize, work: &mut WorkSpace) -> Result<Outcome, String> {
        let (program, split) = (drawn.pair.program.clone(), drawn.pair.split.clone());
        let mut bytes = garbage(buffer + MARK);
        let call = |work: &mut [u32]| filler(&program, &split, work, &mut bytes[..buffer]);
        let (returned, fault) = work.lent(drawn.pair.room, call);
        if program != drawn.pair.program || split != drawn.pair.split {
            return Err("a text was changed".to_string());
        }
        match fault {
            None => Ok(Outcome { returned, bytes }),
            Some(fault) => Err(fault.to_string()),
        }
    }

    /// The text, if one was written.
    fn text(&self) -> Option<&[u8]> {
        (self.returned.number == 0).then(|| &self.bytes[..self.returned.line as usize])
    }

    /// Behind the text all is as it was, and nothing is written on a refusal.
    fn keeps_the_rest(&self) -> bool {
        let written = self.text().map_or(0, <[u8]>::len);
        self.bytes[written..] == garbage(self.bytes.len())[written..]
    }
}

/// What the second filler answers to a drawn sheet, if a filler does the same and both keep what is known
/// of the answer. The filled pair must be accepted by a checker and by the second one.
pub fn agreed(filler: Filler, checker: Checker, drawn: &Unfilled, work: &mut WorkSpace) -> Result<Returned, String> {
    let expected = Outcome::of(SECOND, drawn, drawn.buffer, work)?;
    let returned = expected.returned;
    if !drawn.kept(returned) {
        return Err(format!("second filler {returned:?}, drawn as {:?}", drawn.pair.promise));
    }
    if !expected.keeps_the_rest() {
        return Err("the second filler changed the rest of the buffer".to_string());
    }
    let found = Outcome::of(filler, drawn, drawn.buffer, work)?;
    if found.returned != returned {
        return Err(format!("product {:?}, second filler {returned:?}, buffer {}", found.returned, drawn.buffer));
    }
    if found != expected {
        return Err(format!("the buffers differ, answer {returned:?}"));
    }
    if let Some(text) = expected.text() {
        accepted(checker, drawn, text, work)?;
        at_its_length(filler, drawn, text, work)?;
    }
    Ok(returned)
}

/// Both checkers accept the filled pair, and its maps are nowhere less than those that were taken out.
fn accepted(checker: Checker, drawn: &Unfilled, text: &[u8], work: &mut WorkSpace) -> Result<(), String> {
    let program = &drawn.pair.program;
    let answers = [second::check(program, text, WORK_SPACE), work.check(checker, program, text, WORK_SPACE).0];
    if answers != [Returned::ACCEPT; 2] {
        return Err(format!("the filled pair: second checker {}, product {}", answers[0], answers[1]));
    }
    let Some(given) = &drawn.given else { return Ok(()) };
    let at_least =
        |(filled, given): (&Vec<u64>, &Vec<u64>)| filled.iter().zip(given).all(|(filled, given)| filled >= given);
    match posts(text).iter().zip(&posts(given)).all(at_least) {
        true => Ok(()),
        false => Err("a map that was taken out is greater".to_string()),
    }
}

/// A buffer of the text's own length is enough, and one byte less is not.
fn at_its_length(filler: Filler, drawn: &Unfilled, text: &[u8], work: &mut WorkSpace) -> Result<(), String> {
    let exact = Outcome::of(filler, drawn, text.len(), work)?;
    if exact.text() != Some(text) || !exact.keeps_the_rest() {
        return Err(format!("a buffer of {} bytes, the text's length: {:?}", text.len(), exact.returned));
    }
    let short = Outcome::of(filler, drawn, text.len() - 1, work)?;
    if short.returned != Returned::at_line(42, 0) || !short.keeps_the_rest() {
        return Err(format!("a buffer one byte too short: {:?}", short.returned));
    }
    Ok(())
}

/// The map after each step of a well-formed split, by its text alone.
fn posts(split: &[u8]) -> Vec<Vec<u64>> {
    let split = std::str::from_utf8(split).expect("a well-formed split is ASCII");
    let number = |numeral: &str| numeral.parse::<u64>().expect("a numeral");
    let lines: Vec<Vec<&str>> = split.lines().map(|line| line.split(',').collect()).collect();
    let (types, maps) = (number(lines[0][3]) as usize, number(lines[0][4]) as usize);
    let (maps, rows) = lines[1 + types..].split_at(maps);
    let rows = rows.iter().filter(|row| row.len() == 3);
    rows.map(|row| maps[number(row[1]) as usize].iter().map(|numeral| number(numeral)).collect()).collect()
}

#[cfg(test)]
mod tests {
    use super::*;
    use crate::draw::unfilled;
    use crate::tally::{Tally, FILLING};

    const CHECK: Checker = |program, split, work| {
        work[..WORK_SPACE].fill(0);
        second::check(program, split, work.len())
    };

    /// The second filler keeps what the generator knows on a series, which leaves nothing out.
    #[test]
    fn a_series_meets_everything() {
        let (mut tally, mut work) = (Tally::new(FILLING), WorkSpace::default());
        for number in 0..10_000 {
            let drawn = unfilled::sheet(7, number);
            match agreed(SECOND, CHECK, &drawn, &mut work) {
                Ok(returned) => tally.count(&drawn.pair, returned),
                Err(fault) => panic!("sheet {number} ({}): {fault}", drawn.pair.origin),
            }
        }
        assert_eq!(tally.missed(), Vec::<String>::new(), "{tally}");
    }

    #[test]
    fn accepted_known_pairs_are_filled() {
        let mut work = WorkSpace::default();
        for drawn in unfilled::of_known() {
            let answer = agreed(SECOND, CHECK, &drawn, &mut work).map(|returned| returned.number);
            assert_eq!(answer, Ok(0), "{}", String::from_utf8_lossy(&drawn.pair.split));
        }
    }

    /// How many of the first drawn sheets tell a filler from the second one.
    fn told_apart(filler: Filler) -> usize {
        let mut work = WorkSpace::default();
        (0..500).filter(|&number| agreed(filler, CHECK, &unfilled::sheet(1, number), &mut work).is_err()).count()
    }

    #[cfg(product)]
    #[test]
    fn the_product_gets_through() {
        assert_eq!(crate::product::FILL.map(told_apart), Some(0));
    }

    #[test]
    fn one_that_always_finds_no_maps() {
        let filler: Filler = |_, _, work, out| {
            SECOND(b"", b"", work, &mut out[..0]);
            Returned::at_line(41, 0)
        };
        assert!(told_apart(filler) > 300);
    }

    #[test]
    fn one_that_looks_at_the_size_first() {
        let filler: Filler = |program, split, work, out| match SECOND(program, split, work, out) {
            Returned { number: 41, .. } => Returned::at_line(42, 0),
            returned => returned,
        };
        assert!(told_apart(filler) > 20);
    }

    #[test]
    fn one_that_touches_the_buffer_on_a_refusal() {
        let filler: Filler = |program, split, work, out| {
            let returned = SECOND(program, split, work, out);
            if let (1.., Some(first)) = (returned.number, out.first_mut()) {
                *first = 0;
            }
            returned
        };
        assert!(told_apart(filler) > 100);
    }

    #[test]
    fn one_that_ends_its_text_with_a_zero() {
        let filler: Filler = |program, split, work, out| {
            let returned = SECOND(program, split, work, out);
            if let (0, Some(behind)) = (returned.number, out.get_mut(returned.line as usize)) {
                *behind = 0;
            }
            returned
        };
        assert!(told_apart(filler) > 100);
    }

    #[test]
    fn one_that_leaves_the_work_space() {
        assert!(told_apart(|program, split, work, out| second::fill(program, split, work.len(), out)) > 400);
    }
}
