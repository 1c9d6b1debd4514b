//! Drawn traces (request (xii)): runs of drawn and of known programs, changed ones, and noise.

mod calls;
mod kinds;
mod loops;
mod racing;
pub mod schedule;

use super::draft::Draft;
use super::honest::{concurrent, Slip};
use super::random::Random;
use super::{changed_text, freelock, honest_draft, limits, mutants, noise, procedures, Drawn};
use crate::answer::REPLAY_SPACE;
use crate::second;
use crate::series::Files;
use crate::steps::programs::{ODD, RACY, WAITING};
use loops::sheet;
use schedule::{push_line, Schedule};

/// A program with a trace, the length of the space lent, and how they were drawn.
pub struct Recorded {
    pub program: Vec<u8>,
    /// The split beside the program, where it was drawn with one.
    pub split: Option<Vec<u8>>,
    pub trace: Vec<u8>,
    pub room: usize,
    pub origin: &'static str,
    /// The trace is a run of the program up to a limit at most, and the program has no race.
    pub safe: bool,
}

impl Recorded {
    fn of(program: Vec<u8>, trace: Vec<u8>, origin: &'static str) -> Recorded {
        Recorded { program, split: None, trace, room: REPLAY_SPACE, origin, safe: false }
    }

    /// A drawn pair with a run of its program, or with a short trace where its program is not well formed.
    fn of_pair(random: &mut Random, pair: Drawn, origin: &'static str) -> Recorded {
        let schedule = Schedule::drawn(random);
        let well_formed = second::replay(&pair.program, b"", REPLAY_SPACE).number == 0;
        let trace = if well_formed { schedule.trace(random, &pair.program) } else { b"0,0\n0,0\n".to_vec() };
        Recorded { split: Some(pair.split), ..Recorded::of(pair.program, trace, origin) }
    }

    pub fn files(&self) -> Files<'_> {
        [("program.txt", &self.program), ("trace.txt", &self.trace)]
    }

    /// A run of the program of a draft.
    fn of_draft(random: &mut Random, draft: &Draft, origin: &'static str) -> Recorded {
        Recorded::of_pair(random, Drawn::of(draft, origin), origin)
    }
}

/// One in so many traces is a long one.
const LONG: u64 = 20_000;

/// The trace with this number in the series of this seed. Equal arguments give equal traces.
pub fn recorded(seed: u64, number: u64) -> Recorded {
    let random = &mut Random::new(seed ^ 0x7ACE, number);
    if number % LONG == LONG - 1 {
        let (program, trace) = loops::posts(random, true);
        return Recorded::of(program, trace, "posts");
    }
    match random.below(100) {
        0..=60 => run(random),
        61..=64 => cut_at_race(random),
        65..=82 => changed_trace(random),
        83..=86 => {
            let pair = changed_text(random);
            Recorded::of_pair(random, pair, "changed text")
        }
        87..=88 => {
            let pair = limits::at_limit(random);
            Recorded::of_pair(random, pair, "limit")
        }
        89 => {
            let pair = noise::noise(random);
            Recorded::of_pair(random, pair, "noise")
        }
        90 => {
            let pair = freelock(random);
            Recorded::of_pair(random, pair, "freelock")
        }
        91..=92 => {
            let room = random.pick(&[0, 1, REPLAY_SPACE - 1, REPLAY_SPACE + 1, REPLAY_SPACE + 40]);
            Recorded { room, origin: "room", safe: false, ..run(random) }
        }
        93..=94 => noisy_trace(random),
        95..=96 => halted(random),
        97..=98 => {
            let (program, trace) = kinds::run(random);
            Recorded::of(program, trace, "kinds")
        }
        _ => {
            let (program, trace) = loops::posts(random, false);
            Recorded::of(program, trace, "posts")
        }
    }
}

/// A run of a program with procedures.
fn called(random: &mut Random) -> Recorded {
    match random.below(4) {
        0 => {
            let draft = procedures::written_out(random);
            safe(random, &draft, "procedures")
        }
        1 => {
            let draft = concurrent::with_procedures(random);
            safe(random, &draft, "called threads")
        }
        2 => {
            let (program, trace) = calls::run(random);
            Recorded::of(program, trace, "calls")
        }
        _ => {
            let pair = procedures::pair(random);
            Recorded::of_pair(random, pair, "drawn calls")
        }
    }
}

/// A run of some program.
fn run(random: &mut Random) -> Recorded {
    if random.percent(30) {
        return called(random);
    }
    match random.below(65) {
        0..=13 => {
            let draft = concurrent::draft(random);
            safe(random, &draft, "concurrent")
        }
        14..=25 => {
            let draft = honest_draft(random);
            safe(random, &draft, "honest")
        }
        26..=37 => slipped(random),
        38..=47 => {
            let mut draft = concurrent::draft(random);
            mutants::change_draft(random, &mut draft);
            Recorded::of_draft(random, &draft, "changed draft")
        }
        48..=49 => known(random),
        50..=59 => {
            let (program, trace) = racing::run(random);
            Recorded::of(program, trace, "racing")
        }
        _ => {
            let (program, trace) = loops::run(random);
            Recorded::of(program, trace, "loops")
        }
    }
}

fn safe(random: &mut Random, draft: &Draft, origin: &'static str) -> Recorded {
    let recorded = Recorded::of_draft(random, draft, origin);
    Recorded { safe: true, ..recorded }
}

/// What a mistaken checker would accept; some of these race.
fn slipped(random: &mut Random) -> Recorded {
    if random.percent(15) {
        let draft = concurrent::draft_with(random, Some(Slip::BodiesForFree));
        return Recorded::of_draft(random, &draft, "slip");
    }
    let slip = random.pick(&[
        Slip::LocksForFree,
        Slip::StartsForFree,
        Slip::WritesByFirstMap,
        Slip::PostsForFree,
        Slip::PrintedInequality,
        Slip::PlacesForFree,
    ]);
    let draft = concurrent::draft_with(random, Some(slip));
    Recorded::of_draft(random, &draft, "slip")
}

/// A known program: one that races, one that halts oddly, or one that waits for ever.
fn known(random: &mut Random) -> Recorded {
    let steps = match random.below(4) {
        0 | 1 => random.pick(RACY).1,
        2 => random.pick(ODD),
        _ => random.pick(WAITING),
    };
    let (program, schedule) = (sheet(steps), Schedule::drawn(random));
    let trace = schedule.trace(random, &program);
    Recorded::of(program, trace, "known")
}

/// A run as far as it goes, and a line more of a thread that has finished or waits.
fn halted(random: &mut Random) -> Recorded {
    let program = match random.below(2) {
        0 => concurrent::draft(random).program(),
        _ => sheet(random.pick(WAITING)),
    };
    let schedule = Schedule { steps: 300, first_part: 20, one_more: true, ..Schedule::drawn(random) };
    let trace = schedule.trace(random, &program);
    Recorded::of(program, trace, "halted")
}

/// A run with one or two changes in its trace: another thread or choice, lines moved, or any change of text.
fn changed_trace(random: &mut Random) -> Recorded {
    let mut recorded = Recorded { origin: "changed trace", safe: false, ..run(random) };
    for _ in 0..1 + random.below(2) {
        match random.below(3) {
            0 => other_line(random, &mut recorded.trace),
            1 => recorded.trace.truncate(recorded.trace.len() - recorded.trace.len().min(random.below(6))),
            _ => mutants::change_text(random, &mut recorded.trace),
        }
    }
    recorded
}

/// A run that ends with its first state with a race, or one line before or behind it.
fn cut_at_race(random: &mut Random) -> Recorded {
    let (program, mut trace) = racing::run(random);
    if let Some(race) = second::replay(&program, &trace, REPLAY_SPACE).race {
        let lines = race.state as usize + random.pick(&[0, 0, 1]) - usize::from(random.percent(20));
        let cut: Vec<u8> = trace.split_inclusive(|&byte| byte == b'\n').take(lines).flatten().copied().collect();
        trace = cut;
    }
    Recorded::of(program, trace, "cut at a race")
}

/// Puts a line of a low thread in some place, most often near the end.
fn other_line(random: &mut Random, trace: &mut Vec<u8>) {
    let ends = trace.iter().enumerate().filter(|(_, &byte)| byte == b'\n').map(|(place, _)| place + 1);
    let places: Vec<usize> = [0].into_iter().chain(ends).collect();
    let last = places.len() - 1;
    let place = if random.percent(60) { places[last - last.min(random.below(8))] } else { random.pick(&places) };
    let mut line = Vec::new();
    push_line(&mut line, random.between(0, 17), random.pick(&[0, 0, 0, 1, 2]));
    trace.splice(place..place, line);
}

/// Lines of any low threads and choices, or any bytes.
fn noisy_trace(random: &mut Random) -> Recorded {
    let draft = concurrent::draft(random);
    let mut trace = Vec::new();
    for _ in 0..random.below(20) {
        match random.below(12) {
            0 => trace.push(random.byte()),
            _ => push_line(&mut trace, random.between(0, 2), random.pick(&[0, 0, 0, 0, 1])),
        }
    }
    let program = draft.program();
    Recorded { split: Some(draft.split()), ..Recorded::of(program, trace, "noisy trace") }
}
