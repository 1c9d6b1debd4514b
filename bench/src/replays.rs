//! The table of replays: the product's beside the second replayer.

use crate::cells::{compared, heading, line, number, over, ratio};
use bench::traces::{jobs, Job};
use evidence::answer::{Replayed, REPLAY_SPACE};
use evidence::{product, second};
use std::hint::black_box;
use std::time::{Duration, Instant};

/// How often each of the two is timed, by turns, and how long one turn takes at least.
pub const TURNS: usize = 5;
const TURN: Duration = Duration::from_millis(20);

/// Times traces of three lengths, whose cost a line should not grow, one of many threads, and one with calls.
pub fn replays() {
    heading(["trace", "bytes", "product", "second", "of second", "growth"]);
    let [round_a_lock, sixteen, calling] = jobs();
    let mut before = None;
    for lines in [10_000, 100_000, 1_000_000] {
        before = row(&round_a_lock, lines, before);
    }
    row(&sixteen, 1_000_000, None);
    row(&calling, 1_000_000, None);
}

/// Measures one trace, prints its line and returns the product's nanoseconds a line; `before` are those of the
/// line above.
fn row(job: &Job, lines: usize, before: Option<f64>) -> Option<f64> {
    let (program, trace) = (&job.program, job.trace(lines));
    let expected = second::replay(program, &trace, REPLAY_SPACE);
    assert_eq!((expected.number, expected.steps), (0, lines as u64), "the whole trace is done");
    let mut space = vec![0; REPLAY_SPACE];
    let (mut products, mut seconds) = (Vec::new(), Vec::new());
    for _ in 0..TURNS {
        if let Some(product) = product::REPLAY {
            assert_eq!(product(program, &trace, &mut space), expected);
            products.push(timed(|| product(program, &trace, &mut space)));
        }
        seconds.push(timed(|| second::replay(program, &trace, REPLAY_SPACE)));
    }
    let times = [products, seconds].map(|times| over(median(times), Some(lines as f64)));
    let count = |count: usize| number(Some(count as f64), 0);
    let front = [format!("{}, {} lines", job.title, count(lines)), count(trace.len())];
    let growth = ratio(over(times[0], before));
    line(&front.into_iter().chain(compared(&times, 1)).chain([growth]).collect::<Vec<String>>());
    times[0]
}

/// The mean time of a call over one turn, in nanoseconds.
fn timed(mut call: impl FnMut() -> Replayed) -> f64 {
    let start = Instant::now();
    let mut calls = 0;
    while start.elapsed() < TURN {
        black_box(call());
        calls += 1;
    }
    start.elapsed().as_nanos() as f64 / f64::from(calls)
}

fn median(mut times: Vec<f64>) -> Option<f64> {
    times.sort_by(f64::total_cmp);
    times.get(times.len() / 2).copied()
}
