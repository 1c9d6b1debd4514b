//! The times of calls that do the same work, measured by turns.

use evidence::answer::{SPLIT_BYTES, WORK_SPACE};
use std::hint::black_box;
use std::time::{Duration, Instant};

/// How long one batch of calls takes at least, and how many batches there are of each. Batches are short, so
/// that on a busy machine some of them run undisturbed.
const BATCH: Duration = Duration::from_micros(1_000);
pub const BATCHES: usize = 100;

/// What is lent to a call, as far as it wants it.
#[derive(PartialEq)]
pub struct Lent {
    pub work: Vec<u32>,
    pub program: Vec<u8>,
    pub split: Vec<u8>,
}

impl Lent {
    fn new() -> Lent {
        Lent { work: vec![0; WORK_SPACE], program: vec![0; SPLIT_BYTES], split: vec![0; SPLIT_BYTES] }
    }
}

/// The best batch of each call that is there, in nanoseconds a call. Each has its batch in turn, so that a busy
/// machine slows all of them alike. They agree in what they answer and in what they leave behind.
pub fn best<F: Copy, T: PartialEq, const N: usize>(
    calls: [Option<F>; N],
    run: impl Fn(F, &mut Lent) -> T,
) -> [Option<f64>; N] {
    let mut lent = calls.map(|_| Lent::new());
    let mut best = [None; N];
    for _ in 0..BATCHES {
        for ((call, lent), best) in calls.iter().zip(&mut lent).zip(&mut best) {
            let Some(call) = *call else { continue };
            let time = batch(|| run(call, lent));
            *best = Some(best.unwrap_or(f64::MAX).min(time));
        }
    }
    let left = calls.iter().zip(lent).filter_map(|(call, mut lent)| Some((run((*call)?, &mut lent), lent)));
    let left: Vec<(T, Lent)> = left.collect();
    assert!(left.iter().all(|each| *each == left[0]), "answers differ, or what is left behind");
    best
}

/// The mean time of a call over one batch, in nanoseconds.
fn batch<T>(mut call: impl FnMut() -> T) -> f64 {
    let start = Instant::now();
    let mut calls = 0;
    while start.elapsed() < BATCH {
        for _ in 0..8 {
            black_box(call());
        }
        calls += 8;
    }
    start.elapsed().as_nanos() as f64 / f64::from(calls)
}
