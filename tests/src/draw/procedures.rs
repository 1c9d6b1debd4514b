//! Drawn pairs with procedures (request (xiv)): honest ones, mutants, and each refusal that is new.

use super::draft::Draft;
use super::honest::{concurrent, procedures};
use super::promise::Promise;
use super::random::Random;
use super::{afresh, freed, headings, mutants, Drawn};
use crate::answer::{Returned, LOCATIONS, PROCEDURES, WHOLE};
use crate::words::Word;

/// A pair with procedures.
pub fn pair(random: &mut Random) -> Drawn {
    match random.below(100) {
        0..=29 => Drawn::accepted(&written_out(random), "procedures"),
        30..=39 => Drawn::accepted(&concurrent::with_procedures(random), "called threads"),
        40..=46 => {
            let draft = sized(random);
            let draft = afresh::afresh(random, &draft);
            Drawn::accepted(&headings::often_written_out(random, draft), "called afresh")
        }
        47..=61 => changed_draft(random),
        62..=75 => changed_text(random),
        76..=80 => moved_line(random),
        81..=84 => not_there(random),
        85..=87 => nothing_kept(random),
        88..=89 => {
            let draft = written_out(random);
            headings::over_whole(random, draft)
        }
        90..=93 => bound_twice(random),
        94..=95 => {
            let draft = written_out(random);
            freed::freelock(random, &draft)
        }
        96 => {
            let draft = written_out(random);
            headings::without_start(random, draft).unwrap_or_else(|| not_there(random))
        }
        _ => at_limit(random),
    }
}

/// An honest draft with none to all of the procedures that there may be.
pub fn sized(random: &mut Random) -> Draft {
    let count = if random.percent(70) { random.below(4) } else { random.below(PROCEDURES as usize + 1) };
    let size = if count > 6 { 1 + random.below(8) } else { 1 + random.below(24) };
    let locations = if random.percent(85) { 1 + random.below(3) } else { 1 + random.below(LOCATIONS as usize) };
    let whole = random.pick(&[1, 2, 2, 3, 4, 6, 100, 1_000_000, WHOLE]);
    procedures::draft(random, count, size, locations, whole)
}

pub fn written_out(random: &mut Random) -> Draft {
    let draft = sized(random);
    headings::often_written_out(random, draft)
}

/// A draft that has a step with this word.
fn with_word(random: &mut Random, word: Word) -> (Draft, usize) {
    loop {
        let draft = written_out(random);
        let meant: Vec<usize> = (0..draft.steps.len()).filter(|&step| draft.steps[step].word == word).collect();
        if !meant.is_empty() {
            let step = random.pick(&meant);
            return (draft, step);
        }
    }
}

fn changed_draft(random: &mut Random) -> Drawn {
    let mut draft = written_out(random);
    for _ in 0..1 + random.below(2) {
        mutants::change_draft(random, &mut draft);
    }
    Drawn::of(&draft, "changed calls")
}

fn changed_text(random: &mut Random) -> Drawn {
    let mut drawn = Drawn::of(&written_out(random), "changed text");
    let text = if random.percent(50) { &mut drawn.program } else { &mut drawn.split };
    for _ in 0..1 + random.below(2) {
        mutants::change_text(random, text);
    }
    drawn
}

/// A `proc` line put in some place, taken out, or changed with a line beside it; the head goes along or not.
fn moved_line(random: &mut Random) -> Drawn {
    let draft = written_out(random);
    let mut drawn = Drawn::of(&draft, "moved line");
    let text = String::from_utf8_lossy(&drawn.program).into_owned();
    let mut lines: Vec<String> = text.lines().map(str::to_string).collect();
    let (mut steps, mut count) = (draft.steps.len(), draft.procedures().len());
    let procs: Vec<usize> = (1..lines.len()).filter(|&place| lines[place].starts_with("proc")).collect();
    match random.below(4) {
        0 => {
            lines.insert(1 + random.below(lines.len()), format!("proc,{}", random.below(256)));
            count += 1;
        }
        1 if !procs.is_empty() => {
            lines.remove(random.pick(&procs));
            count -= 1;
        }
        2 if !procs.is_empty() => {
            let place = random.pick(&procs);
            let other = (place + random.below(3)).min(lines.len() - 1).max(1);
            lines.swap(place, other);
        }
        _ => (steps, count) = (steps + 1, count.wrapping_sub(1).min(16)),
    }
    if random.percent(70) {
        lines[0] = format!("P2,{steps},{count}");
    }
    drawn.program = (lines.join("\n") + "\n").into_bytes();
    drawn
}

/// A call to a procedure that is not there, or to one that no sheet has.
fn not_there(random: &mut Random) -> Drawn {
    let (mut draft, step) = with_word(random, Word::Call);
    let count = draft.procedures().len() as u32;
    draft.steps[step].number = random.pick(&[count, count, count + 1, PROCEDURES - 1, PROCEDURES]);
    let line = draft.line_of(step) as u32;
    let promise = match draft.steps[step].number {
        PROCEDURES.. => Promise::Exactly(Returned::at_line(12, line)),
        number if number >= count => Promise::Exactly(Returned::at_line(49, line)),
        _ => Promise::Open,
    };
    Drawn { promise, ..Drawn::of(&draft, "not there") }
}

/// A call line without the map kept back.
fn nothing_kept(random: &mut Random) -> Drawn {
    let (mut draft, step) = with_word(random, Word::Call);
    draft.steps[step].start = None;
    let promise = Promise::Exactly(Returned::at_line(50, draft.row_of(step) as u32));
    Drawn { promise, ..Drawn::of(&draft, "nothing kept") }
}

/// An x that is bound elsewhere too, or used elsewhere.
fn bound_twice(random: &mut Random) -> Drawn {
    loop {
        let mut draft = written_out(random);
        let count = draft.procedures().len();
        if count == 0 {
            continue;
        }
        let variable = draft.procedures()[random.below(count)].variable;
        let other = random.below(count);
        let words = [Word::Let, Word::Var];
        let meant: Vec<usize> =
            (0..draft.steps.len()).filter(|&step| words.contains(&draft.steps[step].word)).collect();
        match &mut draft.procedures {
            Some(procedures) if meant.is_empty() || random.percent(30) => procedures[other].variable = variable,
            _ => draft.steps[random.pick(&meant)].number = variable,
        }
        return Drawn::of(&draft, "bound twice");
    }
}

/// As many procedures as there may be or one more, or a number of a procedure's line that is the last of
/// its kind or one past.
fn at_limit(random: &mut Random) -> Drawn {
    let past = random.below(2);
    if random.percent(40) {
        let draft = procedures::draft(random, PROCEDURES as usize + past, 3, 2, 4);
        let refused = Promise::Exactly(Returned::at_line(12, 1));
        let promise = if past == 1 { refused } else { Promise::Accepted };
        return Drawn { promise, ..Drawn::of(&draft, "limit") };
    }
    loop {
        let mut draft = written_out(random);
        let (types, maps) = (draft.types.len(), draft.maps.len());
        let line = 2 + types + maps;
        let Some(procedures @ [_, ..]) = draft.procedures.as_deref_mut() else { continue };
        let own = random.below(procedures.len());
        let of = &mut procedures[own];
        match random.below(5) {
            0 => of.before = maps - 1 + past,
            1 => of.argument = types - 1 + past,
            2 => of.after = maps - 1 + past,
            3 => of.result = types - 1 + past,
            _ => {
                of.variable = 255 + past as u32;
                return Drawn::of(&draft, "limit");
            }
        }
        let refused = Promise::Exactly(Returned::at_line(22, (line + own) as u32));
        let promise = if past == 1 { refused } else { Promise::Open };
        return Drawn { promise, ..Drawn::of(&draft, "limit") };
    }
}
