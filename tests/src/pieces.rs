//! One replay in pieces compared: the trace cut at line ends in random places, what each call gives, what it leaves of the
//! buffers, and what it does with buffers that hold anything.

use crate::answer::{Replayed, REPLAY_SPACE};
use crate::draw::random::Random;
use crate::draw::traces::Recorded;

/// The lengths that a replay in pieces wants of its job, in numbers of 32 bits, and of its run, in numbers of 64 bits.
const JOB: usize = 2_449;
const RUN: usize = 43;

/// How many numbers stand behind those that are wanted: a few are lent too, and the rest show a write past the end.
const LENT: usize = 64;
const MARK: usize = 64;

/// A replay in pieces as the product offers it.
#[derive(Clone, Copy)]
pub struct Pieces {
    pub begin: fn(&[u8], &mut [u32], &mut [u32], &mut [u64]) -> u32,
    pub more: fn(&[u32], &mut [u32], &mut [u64], &[u8]) -> u32,
    pub told: fn(&[u64]) -> Replayed,
}

/// The three buffers that are lent to one replay after the other: each finds what the last one left there.
pub struct Buffers {
    job: Vec<u32>,
    space: Vec<u32>,
    run: Vec<u64>,
}

/// What stands behind the numbers that a replay wants.
const BEHIND: u32 = 0x0BAD_5EED;

/// So many drawn numbers, and what stands behind them.
fn drawn_numbers(random: &mut Random, wanted: usize) -> Vec<u32> {
    let mut numbers = vec![BEHIND; wanted + LENT + MARK];
    numbers[..wanted].iter_mut().for_each(|one| *one = random.between(0, u32::MAX));
    numbers
}

fn drawn_run(random: &mut Random) -> Vec<u64> {
    drawn_numbers(random, RUN).into_iter().map(u64::from).collect()
}

impl Buffers {
    pub fn garbage(random: &mut Random) -> Buffers {
        Buffers { job: drawn_numbers(random, JOB), space: drawn_numbers(random, REPLAY_SPACE), run: drawn_run(random) }
    }

    /// Behind the numbers that a replay wants all is as it was.
    fn kept(&self) -> Result<(), String> {
        let as_it_was = self.job[JOB..].iter().chain(&self.space[REPLAY_SPACE..]).all(|&one| one == BEHIND)
            && self.run[RUN..].iter().all(|&one| one == u64::from(BEHIND));
        as_it_was.then_some(()).ok_or_else(|| "pieces: a buffer is changed behind its front".to_string())
    }

    /// Replays a drawn trace in pieces. Fails when the number of a call is not that of the answer so far, when `more` changes the
    /// job, or a buffer is changed where it must stay.
    pub fn replay(&mut self, pieces: Pieces, drawn: &Recorded, random: &mut Random) -> Result<Replayed, String> {
        let (job, run) = (JOB + LENT * random.below(2), RUN + LENT * random.below(2));
        let before = (drawn.room < REPLAY_SPACE).then(|| self.space.clone());
        let mut number =
            (pieces.begin)(&drawn.program, &mut self.job[..job], &mut self.space[..drawn.room], &mut self.run[..run]);
        let begun = self.job.clone();
        for piece in cut(&drawn.trace, random) {
            self.told(pieces, run, number)?;
            number = (pieces.more)(&self.job[..job], &mut self.space[..drawn.room], &mut self.run[..run], piece);
        }
        if self.job != begun || before.is_some_and(|before| self.space != before) {
            return Err("pieces: the job, or a space that is too short, is changed".to_string());
        }
        self.kept()?;
        self.told(pieces, run, number)
    }

    /// What is told so far, whose number the last call gave.
    fn told(&self, pieces: Pieces, run: usize, number: u32) -> Result<Replayed, String> {
        let told = (pieces.told)(&self.run[..run]);
        match told.number == number {
            true => Ok(told),
            false => Err(format!("pieces: a call gives {number}, and told is {told}")),
        }
    }

    /// Calls on buffers that hold anything: they come back, and leave what is behind as it was. The run says that it goes on, as
    /// often as not with as many threads as there may be.
    pub fn strike(&mut self, pieces: Pieces, trace: &[u8], random: &mut Random) -> Result<(), String> {
        (self.job, self.run) = (drawn_numbers(random, JOB), drawn_run(random));
        self.run[0] = 1;
        self.run[5] = random.pick(&[0, 7, u64::MAX - 9, u64::MAX]);
        self.run[10] = random.pick(&[0, 1, 16, 17, u64::MAX]);
        (pieces.more)(&self.job[..JOB], &mut self.space[..REPLAY_SPACE], &mut self.run[..RUN], trace);
        (pieces.told)(&self.run[..RUN]);
        self.kept()
    }

    /// With a job or a run that is too short nothing is written, and 1 is told.
    pub fn short(&mut self, pieces: Pieces, drawn: &Recorded) -> Result<(), String> {
        let before = (self.job.clone(), self.space.clone(), self.run.clone());
        for (job, run) in [(JOB - 1, RUN), (JOB, RUN - 1), (0, 0)] {
            let begun = (pieces.begin)(&drawn.program, &mut self.job[..job], &mut self.space, &mut self.run[..run]);
            let further = (pieces.more)(&self.job[..job], &mut self.space, &mut self.run[..run], &drawn.trace);
            if (begun, further) != (1, 1) || (&self.job, &self.space, &self.run) != (&before.0, &before.1, &before.2) {
                return Err(format!("pieces: {begun} and {further} with a job of {job} and a run of {run}"));
            }
        }
        match (pieces.told)(&self.run[..RUN - 1]) {
            told if told == Replayed::at_line(1, 0) => Ok(()),
            told => Err(format!("pieces: {told} of a run that is too short")),
        }
    }
}

/// The trace in pieces: each but the last ends with a line, and some are empty.
fn cut<'a>(trace: &'a [u8], random: &mut Random) -> Vec<&'a [u8]> {
    let chance = random.pick(&[2, 20, 60, 100]);
    let mut pieces = vec![];
    let mut from = 0;
    for end in (1..=trace.len()).filter(|&end| trace[end - 1] == b'\n') {
        if random.percent(chance) {
            pieces.push(&trace[from..end]);
            from = end;
        }
        if random.percent(1) {
            pieces.push(&trace[from..from]);
        }
    }
    pieces.push(&trace[from..]);
    pieces
}
