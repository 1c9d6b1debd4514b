//! Recorded orders that are replayed: jobs that go round for ever, and as many lines of each as are wanted.

use evidence::draw::random::Random;
use evidence::draw::traces::schedule::{Manner, Schedule};

/// A job with its title.
pub struct Job {
    pub title: &'static str,
    pub program: Vec<u8>,
}

/// Two threads round a lock, many threads, and two threads that call.
pub fn jobs() -> [Job; 3] {
    [
        ("two threads round a lock", ROUND_A_LOCK.to_string()),
        ("16 threads that read one cell", sixteen_readers()),
        ("two threads that call", CALLING.to_string()),
    ]
    .map(|(title, program)| Job { title, program: program.replace('|', "\n").into_bytes() })
}

impl Job {
    /// An order of so many lines, all of which are done.
    pub fn trace(&self, lines: usize) -> Vec<u8> {
        let manner = Manner::Any;
        let schedule = Schedule { manner, steps: lines, first_part: 100, past_limits: false, one_more: false };
        schedule.trace(&mut Random::new(12, 0), &self.program)
    }
}

/// One thread writes a cell, the other reads it.
const ROUND_A_LOCK: &str = "P,27|let,0|ref,0|int,0|let,1|newlock,0|let,2|spawn,0|newtid,0|while,0|let,3|lock,0|var,1|\
                            let,4|write,0|var,0|int,1|unlock,0|var,1|while,0|let,5|lock,0|var,1|let,6|read,0|var,0|\
                            unlock,0|var,1|";

/// The same two threads, each of which writes or reads in a procedure that it calls while it has the lock.
const CALLING: &str = "P2,31,2|proc,10|write,0|var,10|int,1|proc,11|read,0|var,11|let,0|ref,0|int,0|let,1|newlock,0|\
                       let,2|spawn,0|newtid,0|while,0|let,3|lock,0|var,1|let,4|call,0|var,0|unlock,0|var,1|while,0|\
                       let,5|lock,0|var,1|let,6|call,1|var,0|unlock,0|var,1|";

/// Fifteen spawned threads and the first one, each of which reads the cell again and again.
fn sixteen_readers() -> String {
    let reading = "while,0|read,0|var,0|";
    let spawns: String = (1..16).map(|variable| format!("let,{variable}|spawn,0|newtid,0|{reading}")).collect();
    let steps = format!("let,0|ref,0|int,0|{spawns}{reading}");
    format!("P,{}|{steps}", steps.matches('|').count())
}
