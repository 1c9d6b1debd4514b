//! Programs that go round and make something new each time, for the limits of a run.

use super::schedule::{Manner, Schedule};
use crate::draw::random::Random;

/// What a round may make. Variable 0 holds an identifier for what is spawned.
const MAKERS: [&str; 7] = [
    "ref,0|int,0",
    "newlock,0",
    "newrwlock,3",
    "newsem,0",
    "newtid,0",
    "spawn,0|var,0|int,0",
    "spawn,0|var,0|newtid,0",
];

/// A program whose loops run past some limit, and its trace up to there or past it.
pub fn run(random: &mut Random) -> (Vec<u8>, Vec<u8>) {
    let mut variable = 1;
    let mut steps = "let,0|newtid,0".to_string();
    if random.percent(30) {
        steps += &format!("|let,1|spawn,0|var,0|{}", round(random, &mut variable));
    }
    steps += &format!("|{}", round(random, &mut variable));
    let program = sheet(&steps);
    let manner = random.pick(&[Manner::SameAgain, Manner::OldestFirst, Manner::NewestFirst, Manner::Any]);
    let schedule = Schedule { manner, steps: 2_000, first_part: 100, past_limits: random.percent(70), one_more: false };
    let trace = schedule.trace(random, &program);
    (program, trace)
}

/// A loop that makes one thing, or a few, each round; now and then what it spawns is joined again.
pub fn round(random: &mut Random, variable: &mut u32) -> String {
    let mut round = "while,0".to_string();
    for _ in 0..random.pick(&[1, 1, 1, 2, 3]) {
        *variable += 1;
        let maker = random.pick(&MAKERS);
        round += &format!("|let,{variable}|{maker}");
        if maker.starts_with("spawn") && random.percent(30) {
            *variable += 1;
            round += &format!("|let,{variable}|join,0|var,0");
        }
    }
    round + "|int,0"
}

/// Posts in one loop and waits in another, for counts beyond a byte, or beyond two when `long`.
pub fn posts(random: &mut Random, long: bool) -> (Vec<u8>, Vec<u8>) {
    let program = sheet("let,0|newsem,0|let,1|while,0|post,0|var,0|while,0|wait,0|var,0");
    let posts = if long { 66_000 } else { random.pick(&[0, 1, 255, 256, 257, 300]) };
    let waits = posts - random.pick(&[0, 1, 2]).min(posts) + usize::from(random.percent(30));
    let (again, out) = ("0,0\n0,0\n0,0\n0,0\n", "0,0\n0,1\n");
    // A new semaphore and its let, the first loop and the let around it, the second loop.
    let trace = ["0,0\n0,0\n", &again.repeat(posts), out, "0,0\n", &again.repeat(waits), out].concat();
    (program, trace.into_bytes())
}

/// A sheet of these steps, a bar for each line end.
pub fn sheet(steps: &str) -> Vec<u8> {
    format!("P,{}|{steps}|", steps.split('|').count()).replace('|', "\n").into_bytes()
}
