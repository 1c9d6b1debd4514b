//! The second replayer, written from documents 01 and 02 alone: request (xii).

use super::text::Text;
use super::{at_most, program};
use crate::answer::{Race, Replayed, Returned, PROGRAM_BYTES, REPLAY_SPACE};
use crate::steps::expression::Program;
use crate::steps::run::{Run, Stopped};
use crate::words::Word;

/// What a replay came by, for whoever counts it.
pub enum Seen<'a> {
    /// A step with this word, and the run after it.
    Took(Word, &'a Run),
    Stopped(Stopped),
}

/// Replays a trace. `room` is the length of the space in 32-bit numbers.
pub fn replay(program: &[u8], trace: &[u8], room: usize) -> Replayed {
    replay_seen(program, trace, room, |_| {})
}

/// Replays a trace, and tells what it comes by.
pub fn replay_seen(program: &[u8], trace: &[u8], room: usize, seen: impl FnMut(Seen)) -> Replayed {
    match first_state(program, room) {
        Ok(run) => along(run, trace, seen),
        Err(refusal) => Replayed::at_line(refusal.number, refusal.line.into()),
    }
}

/// The program sheet is judged before the trace is looked at.
fn first_state(program: &[u8], room: usize) -> Result<Run, Returned> {
    at_most(1, REPLAY_SPACE, room)?;
    at_most(10, program.len(), PROGRAM_BYTES)?;
    program::read(program)?;
    Ok(Run::start(&Program::listed(program).expect("a sheet that was read lists an expression")))
}

fn along(mut run: Run, trace: &[u8], mut seen: impl FnMut(Seen)) -> Replayed {
    let mut done = Replayed { race: race_of(&run, 0), ..Replayed::at_line(0, 0) };
    let mut rest = trace;
    while !rest.is_empty() {
        let line = done.steps + 1;
        let mut text = Text::new(rest, 0); // its own refusals are not used: a line of another form is 46
        let Ok((thread, choice)) = text.line(|line| Some((line.numeral()?, line.next_numeral()?))) else {
            return Replayed { number: 46, line, ..done };
        };
        let word = run.next_word(thread);
        match run.after(thread, choice) {
            Ok(next) => run = next,
            Err(stopped) => {
                seen(Seen::Stopped(stopped));
                return Replayed { number: stopped.number(), line, ..done };
            }
        }
        if let Some(word) = word {
            seen(Seen::Took(word, &run));
        }
        done.steps = line;
        done.race = done.race.or_else(|| race_of(&run, line));
        rest = text.rest();
    }
    done
}

fn race_of(run: &Run, state: u64) -> Option<Race> {
    run.lowest_race().map(|(first, second)| Race { state, first, second })
}

#[cfg(test)]
mod tests {
    use super::*;
    use crate::known;

    #[test]
    fn known_replays() {
        for known in known::replays() {
            let (program, trace) = known.texts();
            let shown = String::from_utf8_lossy(&program).replace('\n', "|");
            assert_eq!(replay(&program, &trace, REPLAY_SPACE).to_string(), known.answer, "{shown} {:?}", known.trace);
        }
    }

    #[test]
    fn the_space_comes_first() {
        assert_eq!(replay(b"", b"x", REPLAY_SPACE - 1), Replayed::at_line(1, 0));
        assert_eq!(replay(&[b'0'; PROGRAM_BYTES + 1], b"x", REPLAY_SPACE), Replayed::at_line(10, 0));
    }
}
