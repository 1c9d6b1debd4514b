//! Recorded orders: a program run by some manner of scheduling, and what was done written as a trace.

use crate::draw::draft::push_numeral;
use crate::draw::random::Random;
use crate::steps::expression::Program;
use crate::steps::run::Run;
use crate::words::Word;

/// Which thread goes next, among those that can.
#[derive(Clone, Copy)]
pub enum Manner {
    Any,
    InTurn,
    /// The one that went last, as long as it can.
    SameAgain,
    NewestFirst,
    OldestFirst,
}

const MANNERS: [Manner; 5] = [Manner::Any, Manner::InTurn, Manner::SameAgain, Manner::NewestFirst, Manner::OldestFirst];

/// How a program is run.
#[derive(Clone, Copy)]
pub struct Schedule {
    pub manner: Manner,
    pub steps: usize,
    /// How often, in a hundred, the first part of an `if` is taken. A loop goes on with it.
    pub first_part: usize,
    /// Whether the first step past a limit is written down as well.
    pub past_limits: bool,
    /// Whether a line of some thread is written down at the end that it may not be able to do.
    pub one_more: bool,
}

impl Schedule {
    pub fn drawn(random: &mut Random) -> Schedule {
        Schedule {
            manner: random.pick(&MANNERS),
            steps: random.pick(&[3, 10, 40, 120, 120, 300]),
            first_part: random.pick(&[20, 50, 80]),
            past_limits: random.percent(50),
            one_more: false,
        }
    }

    /// The trace of a run of a well formed program: until no thread can go on, or as far as asked.
    pub fn trace(self, random: &mut Random, program: &[u8]) -> Vec<u8> {
        let mut run = Run::start(&Program::listed(program).expect("the program is well formed"));
        let (mut trace, mut last) = (Vec::new(), 0);
        for _ in 0..self.steps {
            let choice = u32::from(!random.percent(self.first_part));
            let mut threads = self.threads_in_turn(random, &run, last);
            let next = threads.find_map(|thread| {
                let choice = if run.next_word(thread) == Some(Word::If) { choice } else { 0 };
                match run.after(thread, choice) {
                    Err(stopped) if stopped.number() == 47 => None,
                    step => Some((thread, choice, step)),
                }
            });
            let Some((thread, choice, step)) = next else { break };
            if step.is_ok() || self.past_limits {
                push_line(&mut trace, thread, choice);
            }
            let Ok(after) = step else { break };
            (run, last) = (after, thread);
        }
        if self.one_more {
            push_line(&mut trace, random.pick(run.threads()), 0);
        }
        trace
    }

    /// The threads in the order in which they are tried.
    fn threads_in_turn(self, random: &mut Random, run: &Run, last: u32) -> impl Iterator<Item = u32> {
        let mut threads = run.threads().to_vec();
        match self.manner {
            Manner::Any => random.shuffle(&mut threads),
            Manner::InTurn => {
                let next = threads.iter().position(|&thread| thread > last).unwrap_or(0);
                threads.rotate_left(next);
            }
            Manner::SameAgain => {
                random.shuffle(&mut threads);
                threads.sort_by_key(|&thread| thread != last);
            }
            Manner::NewestFirst => threads.reverse(),
            Manner::OldestFirst => {}
        }
        threads.into_iter()
    }
}

pub fn push_line(trace: &mut Vec<u8>, thread: u32, choice: u32) {
    push_numeral(trace, thread);
    trace.push(b',');
    push_numeral(trace, choice);
    trace.push(b'\n');
}
