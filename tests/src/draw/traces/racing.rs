//! Programs whose threads access a few cells with nothing to keep them apart: many of them race.

use super::loops::{round, sheet};
use super::schedule::Schedule;
use crate::draw::random::Random;

/// The variables of the cells; variable 0 holds an identifier.
const CELLS: std::ops::RangeInclusive<u32> = 240..=242;

/// Such a program and a run of it, now and then with a loop at the end that runs past a limit.
pub fn run(random: &mut Random) -> (Vec<u8>, Vec<u8>) {
    let mut variable = 0;
    let mut steps: Vec<String> = CELLS.map(|cell| format!("let,{cell}|ref,0|int,0")).collect();
    steps.push("let,0|newtid,0".to_string());
    for _ in 0..random.pick(&[1, 2, 3, 4, 5, 15]) {
        let body = accesses(random, &mut variable);
        variable += 1;
        steps.push(format!("let,{variable}|spawn,0|var,0|{body}"));
        if random.percent(20) {
            variable += 1;
            steps.push(format!("let,{variable}|join,0|var,0"));
        }
    }
    let mut schedule = Schedule::drawn(random);
    if random.percent(20) {
        (schedule.steps, schedule.first_part, schedule.past_limits) = (600, 100, true);
        steps.push(round(random, &mut variable));
    } else {
        steps.push(accesses(random, &mut variable));
    }
    let program = sheet(&steps.join("|"));
    let trace = schedule.trace(random, &program);
    (program, trace)
}

/// A few reads and writes, and a constant.
fn accesses(random: &mut Random, variable: &mut u32) -> String {
    let mut steps = Vec::new();
    for _ in 0..1 + random.below(3) {
        *variable += 1;
        let cell = random.between(*CELLS.start(), *CELLS.end());
        let access =
            if random.percent(60) { format!("read,0|var,{cell}") } else { format!("write,0|var,{cell}|int,1") };
        steps.push(format!("let,{variable}|{access}"));
    }
    steps.push("int,0".to_string());
    steps.join("|")
}
