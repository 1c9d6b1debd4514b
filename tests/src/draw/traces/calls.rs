//! Programs with procedures for replay: recursion to the limit of open calls and past it, and calls that race.

use super::schedule::Schedule;
use crate::draw::random::Random;

/// Procedures and the root, parted by a slash.
const PROGRAMS: [&str; 9] = [
    // In tail place, in a let, with a way out, from one to the other and back.
    "proc,0|call,0|var,0/call,0|int,0",
    "proc,0|let,1|call,0|var,0|int,0/call,0|int,0",
    "proc,0|if,0|let,1|call,0|var,0|int,3|int,4/let,9|call,0|int,1|call,0|newtid,0",
    "proc,0|if,0|call,0|var,0|int,3/let,9|call,0|int,1|let,8|call,0|int,2|call,0|var,9",
    "proc,0|call,1|var,0/proc,1|let,2|int,0|let,3|call,0|var,1|var,3/call,1|newlock,0",
    // Arguments that are calls.
    "proc,0|let,1|var,0|var,1/call,0|call,0|call,0|int,1",
    // Threads that call, and calls that spawn.
    "proc,0|if,0|call,0|var,0|int,3/let,5|newtid,0|let,6|spawn,0|var,5|call,0|int,0|call,0|int,0",
    "proc,0|let,1|spawn,0|var,0|call,0|var,0|int,0/call,0|newtid,0",
    // A race between two calls.
    "proc,0|write,0|var,0|int,1/proc,1|read,0|var,1/let,5|ref,0|int,0|let,6|spawn,0|newtid,0|call,0|var,5|let,7|\
     spawn,0|newtid,0|call,1|var,5|call,1|var,5",
];

/// One of these programs and a run of it.
pub fn run(random: &mut Random) -> (Vec<u8>, Vec<u8>) {
    let program = sheet(random.pick(&PROGRAMS));
    let mut schedule = Schedule::drawn(random);
    (schedule.steps, schedule.first_part) = (random.pick(&[20, 100, 300]), random.pick(&[60, 95, 100]));
    let trace = schedule.trace(random, &program);
    (program, trace)
}

fn sheet(listed: &str) -> Vec<u8> {
    let lines: Vec<&str> = listed.split(['|', '/']).collect();
    let procedures = lines.iter().filter(|line| line.starts_with("proc")).count();
    let steps = lines.len() - procedures;
    format!("P2,{steps},{procedures}\n{}\n", lines.join("\n")).into_bytes()
}
