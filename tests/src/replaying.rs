//! One replay compared: a replayer called on a program and a trace, its answer, its report and what it
//! leaves behind; and what a series of drawn traces met.

use crate::answer::{Replayed, REPLAY_SPACE, WORK_SPACE};
use crate::checking::Checker;
use crate::draw::traces::Recorded;
use crate::second::{self, Seen};
use crate::steps::run::{Counted, Stopped, COUNTED};
use crate::words::{Word, WORDS};
use std::collections::{BTreeMap, BTreeSet};
use std::fmt;

/// A replayer as the product offers it: a program, a trace and a lent space.
pub type Replayer = fn(&[u8], &[u8], &mut [u32]) -> Replayed;

/// How many numbers stand behind the space lent, to show a write past its end.
const MARK: usize = 64;

/// What stands in a place of the space before a call.
fn garbage(place: usize) -> u32 {
    0x5A5A_0003 ^ (place as u32) << 7
}

/// The longest space that is lent: what a replay needs, a few numbers that it leaves alone, and the mark.
const LONGEST: usize = REPLAY_SPACE + 64 + MARK;

/// A space that is lent to one replay after the other: each finds what the last one left there.
pub struct Lent(Vec<u32>);

impl Lent {
    pub fn garbage() -> Lent {
        Lent((0..LONGEST).map(garbage).collect())
    }

    /// Calls a replayer on the first numbers of the space. Fails when a text is changed, or the space where
    /// it must stay: past the numbers that it needs, and all of it after the answer 1.
    fn to(&mut self, replayer: Replayer, drawn: &Recorded) -> Result<Replayed, String> {
        let (program, trace) = (drawn.program.clone(), drawn.trace.clone());
        let before = (drawn.room < REPLAY_SPACE).then(|| self.0.clone());
        let replayed = replayer(&program, &trace, &mut self.0[..drawn.room]);
        if program != drawn.program || trace != drawn.trace {
            return Err("a text was changed".to_string());
        }
        let kept = match before {
            Some(before) => self.0 == before,
            None => (REPLAY_SPACE..LONGEST).all(|place| self.0[place] == garbage(place)),
        };
        match kept {
            true => Ok(replayed),
            false => Err("the space is changed where it must stay".to_string()),
        }
    }
}

/// What the second replayer answers to a drawn trace, if a replayer does the same and both keep what is
/// known: no accepted program is reported to race. The checker says what is accepted.
pub fn agreed(
    replayer: Replayer,
    checker: Checker,
    drawn: &Recorded,
    lent: &mut Lent,
    met: &mut Met,
) -> Result<Replayed, String> {
    let expected = second::replay_seen(&drawn.program, &drawn.trace, drawn.room, |seen| met.see(seen));
    met.count(drawn, expected);
    if drawn.safe && (!matches!(expected.number, 0 | 48) || expected.race.is_some()) {
        return Err(format!("second replayer {expected}, drawn as a run of a safe program"));
    }
    let found = lent.to(replayer, drawn)?;
    if found != expected {
        return Err(format!("product {found}, second replayer {expected}, room {}", drawn.room));
    }
    let accepts = |split: &Vec<u8>| checker(&drawn.program, split, &mut [0; WORK_SPACE]).number == 0;
    let accepted = drawn.split.as_ref().is_some_and(accepts);
    met.accepted += u64::from(accepted);
    match accepted && found.race.is_some() {
        true => Err(format!("an accepted program is reported to race: {found}")),
        false => Ok(expected),
    }
}

/// Every number that an answer can have, in the order in which they are looked for.
const NUMBERS: &[u32] = &[0, 1, 10, 11, 12, 45, 13, 14, 15, 49, 46, 47, 48];

/// What a series of traces met.
#[derive(Default)]
pub struct Met {
    traces: u64,
    accepted: u64,
    /// How many had each number, and how many of them with a race in the report.
    numbers: BTreeMap<u32, (u64, u64)>,
    /// How many were drawn in each way, and how many of them were done to the end.
    origins: BTreeMap<&'static str, (u64, u64)>,
    steps: u64,
    words: BTreeMap<Word, u64>,
    /// How many states had as many of a kind as there may be.
    full: BTreeMap<Counted, u64>,
    /// How many lines were not done, by the reason.
    stopped: BTreeMap<Stopped, u64>,
    /// How many had their first race in the last state.
    last: u64,
    /// The pairs of threads that raced first.
    pairs: BTreeSet<(u32, u32)>,
}

impl Met {
    fn see(&mut self, seen: Seen) {
        match seen {
            Seen::Took(word, run) => {
                *self.words.entry(word).or_default() += 1;
                for kind in COUNTED.into_iter().filter(|&kind| run.count(kind) == kind.limit()) {
                    *self.full.entry(kind).or_default() += 1;
                }
            }
            Seen::Stopped(stopped) => *self.stopped.entry(stopped).or_default() += 1,
        }
    }

    fn count(&mut self, drawn: &Recorded, replayed: Replayed) {
        self.traces += 1;
        self.steps += replayed.steps;
        let known = self.numbers.entry(replayed.number).or_default();
        (known.0, known.1) = (known.0 + 1, known.1 + u64::from(replayed.race.is_some()));
        let origin = self.origins.entry(drawn.origin).or_default();
        (origin.0, origin.1) = (origin.0 + 1, origin.1 + u64::from(replayed.number == 0));
        self.pairs.extend(replayed.race.map(|race| (race.first, race.second)));
        self.last += u64::from(replayed.race.is_some_and(|race| race.state == replayed.steps));
    }

    fn with_number(&self, number: u32) -> (u64, u64) {
        self.numbers.get(&number).copied().unwrap_or_default()
    }

    /// What the series should have met and did not: every number, a race beside each number that can have
    /// one, every word, every limit reached, every reason for a line that is not done, a program that is
    /// accepted, a race that only the last state has, and one without the start thread.
    pub fn missed(&self) -> Vec<String> {
        let numbers = NUMBERS.iter().filter(|&&number| self.with_number(number).0 == 0);
        let mut missed: Vec<String> = numbers.map(|number| format!("number {number}")).collect();
        let races = [0, 46, 47, 48].into_iter().filter(|&number| self.with_number(number).1 == 0);
        missed.extend(races.map(|number| format!("a race beside {number}")));
        let words = stepping().filter(|word| !self.words.contains_key(word));
        missed.extend(words.map(|word| format!("a step of {}", word.spelling())));
        let full = COUNTED.iter().filter(|kind| !self.full.contains_key(kind));
        missed.extend(full.map(|kind| format!("as many {kind:?} as there may be")));
        let reasons = reasons().into_iter().filter(|reason| !self.stopped.contains_key(reason));
        missed.extend(reasons.map(|reason| format!("a line that is not done: {reason:?}")));
        if self.accepted == 0 {
            missed.push("a trace of an accepted program".to_string());
        }
        if self.last == 0 {
            missed.push("a race in the last state alone".to_string());
        }
        if !self.pairs.iter().any(|&(first, _)| first > 0) {
            missed.push("a race without the start thread".to_string());
        }
        missed
    }
}

/// The words that take a step of their own: variables, constants and `proc` lines do not.
fn stepping() -> impl Iterator<Item = Word> {
    WORDS.into_iter().filter(|word| !matches!(word, Word::Var | Word::Int | Word::Proc))
}

/// Every reason for a line that is not done.
fn reasons() -> Vec<Stopped> {
    use Word::*;
    let waiting = [Join, Lock, Wait, Rdlock, Rdunlock, Wrlock, Wrunlock];
    let acting = [Spawn, Read, Write, Unlock, Post].into_iter().chain(waiting);
    let mut reasons = vec![Stopped::NotSpawned, Stopped::Finished, Stopped::Joined, Stopped::Choice];
    reasons.extend(waiting.map(Stopped::Waits));
    reasons.extend(acting.map(Stopped::WrongKind));
    reasons.extend(COUNTED.map(Stopped::Past));
    reasons
}

impl fmt::Display for Met {
    fn fmt(&self, out: &mut fmt::Formatter<'_>) -> fmt::Result {
        for (origin, (drawn, done)) in &self.origins {
            writeln!(out, "  {origin:14} {drawn:7} drawn {done:7} done to the end")?;
        }
        for &number in NUMBERS {
            let (met, races) = self.with_number(number);
            writeln!(out, "  number {number:2} {met:7}, with a race {races}")?;
        }
        for kind in COUNTED {
            let full = self.full.get(&kind).copied().unwrap_or(0);
            writeln!(out, "  {:14} {full:7} states at the limit", format!("{kind:?}"))?;
        }
        for reason in reasons() {
            let stopped = self.stopped.get(&reason).copied().unwrap_or(0);
            writeln!(out, "  {:22} {stopped:7} lines not done", format!("{reason:?}"))?;
        }
        for word in stepping() {
            writeln!(out, "  {:9} {:8} steps", word.spelling(), self.words.get(&word).copied().unwrap_or(0))?;
        }
        writeln!(
            out,
            "  {} pairs of threads race first somewhere; {} races in the last state alone",
            self.pairs.len(),
            self.last
        )?;
        writeln!(out, "  {} traces, {} steps, {} of accepted programs", self.traces, self.steps, self.accepted)
    }
}

#[cfg(test)]
mod tests {
    use super::*;
    use crate::draw::traces;

    const CHECK: Checker = |program, split, work| second::check(program, split, work.len());
    const SECOND: Replayer = |program, trace, space| second::replay(program, trace, space.len());

    /// The second replayer keeps what the generator knows on a series, which leaves nothing out.
    #[test]
    fn a_series_meets_everything() {
        let (mut lent, mut met) = (Lent::garbage(), Met::default());
        for number in 0..5_000 {
            let drawn = traces::recorded(7, number);
            if let Err(fault) = agreed(SECOND, CHECK, &drawn, &mut lent, &mut met) {
                panic!("trace {number} ({}): {fault}", drawn.origin);
            }
        }
        assert_eq!(met.missed(), Vec::<String>::new(), "{met}");
    }

    /// How many of the first drawn traces tell a replayer from the second one.
    fn told_apart(replayer: Replayer) -> usize {
        let mut lent = Lent::garbage();
        let differs = |&number: &u64| {
            agreed(replayer, CHECK, &traces::recorded(1, number), &mut lent, &mut Met::default()).is_err()
        };
        (0..1_000).filter(differs).count()
    }

    #[cfg(product)]
    #[test]
    fn the_product_gets_through() {
        assert_eq!(crate::product::REPLAY.map(told_apart), Some(0));
    }

    #[test]
    fn one_that_reports_no_race() {
        assert!(told_apart(|program, trace, space| Replayed { race: None, ..SECOND(program, trace, space) }) > 30);
    }

    #[test]
    fn one_that_forgets_the_report_on_a_refusal() {
        let replayer: Replayer = |program, trace, space| match SECOND(program, trace, space) {
            Replayed { number: number @ 1.., line, .. } => Replayed::at_line(number, line),
            done => done,
        };
        assert!(told_apart(replayer) > 100);
    }

    #[test]
    fn one_that_knows_no_limits() {
        let replayer: Replayer = |program, trace, space| match SECOND(program, trace, space) {
            Replayed { number: 48, race, line, .. } => Replayed { steps: line, race, ..Replayed::at_line(0, 0) },
            done => done,
        };
        assert!(told_apart(replayer) > 30);
    }

    #[test]
    fn one_that_names_the_last_step_done() {
        let replayer: Replayer = |program, trace, space| match SECOND(program, trace, space) {
            done @ Replayed { number: 46.., steps, .. } => Replayed { line: steps, ..done },
            done => done,
        };
        assert!(told_apart(replayer) > 100);
    }

    /// A race is looked for before each step and not after the last one.
    #[test]
    fn one_that_does_not_look_at_the_last_state() {
        let replayer: Replayer = |program, trace, space| {
            let done = SECOND(program, trace, space);
            Replayed { race: done.race.filter(|race| race.state < done.steps), ..done }
        };
        assert!(told_apart(replayer) > 0);
    }

    #[test]
    fn one_that_writes_without_room() {
        let replayer: Replayer = |program, trace, space| {
            space.iter_mut().take(1).for_each(|number| *number = !*number);
            SECOND(program, trace, space)
        };
        assert!(told_apart(replayer) > 0);
    }
}
