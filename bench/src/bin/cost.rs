//! Calls in a function of their own, so that callgrind can count the instructions of each.
//!
//! `cost rows [TITLE]` makes the calls of every row of the tables, or of one, and says for each of them in a line which
//! call, which row, of how many bytes, and whose.
//!
//! Without an argument, standard input has a line `WHO CALL WHAT COUNT` for each call. CALL is `check`, `fill` or
//! `replay`. WHAT says what there are COUNT of in a pair that is made to cost much; for a replay it is `lines`. WHO may
//! also be `squared`, a control whose cost grows with the square of the steps.

use bench::grown::Counts;
use bench::pairs::{self, Pair};
use bench::rows::{self, Check};
use bench::{plain, traces, tuned, SECOND};
use evidence::answer::{REPLAY_SPACE, SPLIT_BYTES, WORK_SPACE};
use evidence::checking::Checker;
use evidence::drill::{self, Driller};
use evidence::filling::{self, Filler};
use evidence::replaying::Replayer;
use evidence::{product, second};
use std::hint::black_box;
use std::process::ExitCode;

/// Those that make a call, where they are there.
type Callers<F, const N: usize> = [(&'static str, Option<F>); N];

const CHECKERS: Callers<Checker, 4> = [
    ("product", product::CHECK),
    ("second", Some(SECOND)),
    ("plain", Some(plain::check)),
    ("tuned", Some(tuned::check)),
];
const FILLERS: Callers<Filler, 2> = [("product", product::FILL), ("second", Some(filling::SECOND))];
const DRILLERS: Callers<Driller, 2> = [("product", product::DRILL), ("second", Some(drill::drill))];
const REPLAYERS: Callers<Replayer, 2> = [
    ("product", product::REPLAY),
    ("second", Some(|program, trace, space| second::replay(program, trace, space.len()))),
];

fn main() -> ExitCode {
    let mut arguments = std::env::args().skip(1);
    if arguments.next().as_deref() == Some("rows") {
        rows(arguments.next());
        return ExitCode::SUCCESS;
    }
    for line in std::io::stdin().lines() {
        let line = line.expect("standard input can be read");
        if asked(&line) != Some(0) {
            eprintln!("{line}: no such call, or it is refused, or {}", product::NOT_LINKED);
            return ExitCode::FAILURE;
        }
    }
    ExitCode::SUCCESS
}

/// What is counted.
#[inline(never)]
fn measured(call: &mut dyn FnMut() -> u32) -> u32 {
    black_box(call())
}

fn rows(title: Option<String>) {
    let is_wanted = |row: &str| title.as_deref().is_none_or(|title| title == row);
    let (mut work, mut space) = (vec![0; WORK_SPACE], vec![0; REPLAY_SPACE]);
    let (mut first, mut second) = (vec![0; SPLIT_BYTES], vec![0; SPLIT_BYTES]);
    for Check { title, pair, .. } in rows::checks().filter(|check| is_wanted(&check.title)) {
        let (program, split) = (&pair.program, &pair.split);
        row("check", &title, pair.bytes(), CHECKERS, |check| check(program, split, &mut work).number);
    }
    for (title, pair) in rows::fillings().iter().filter(|(title, _)| is_wanted(title)) {
        let (program, split) = (&pair.program, &pair.split);
        row("fill", title, pair.bytes(), FILLERS, |fill| fill(program, split, &mut work, &mut first).number);
    }
    let (title, seed) = rows::drill();
    if is_wanted(title) {
        let (program, split) = drill::sheets(drill::readers(drill::draw(seed)));
        let bytes = program.len() + split.len();
        row("drill", title, bytes, DRILLERS, |drill| drill(seed, &mut first, &mut second).number);
    }
    for job in traces::jobs().iter().filter(|job| is_wanted(job.title)) {
        let (title, trace) = (format!("{}, 10,000 lines", job.title), job.trace(10_000));
        row("replay", &title, trace.len(), REPLAYERS, |replay| replay(&job.program, &trace, &mut space).number);
    }
}

/// One call of each. They give the same number.
fn row<F: Copy, const N: usize>(
    call: &str,
    title: &str,
    bytes: usize,
    callers: Callers<F, N>,
    mut run: impl FnMut(F) -> u32,
) {
    let mut numbers = Vec::new();
    for (who, caller) in callers {
        if let Some(caller) = caller {
            println!("{call}\t{title}\t{bytes}\t{who}");
            numbers.push(measured(&mut || run(caller)));
        }
    }
    assert!(numbers.iter().all(|&number| number == numbers[0]), "{title}: answers differ");
}

/// The number that the call of a line answers, if there is such a call.
fn asked(line: &str) -> Option<u32> {
    let fields: Vec<&str> = line.split(' ').collect();
    let &[who, call, what, count] = &fields[..] else { return None };
    let count = count.parse().ok()?;
    let (mut work, mut out) = (vec![0; WORK_SPACE], vec![0; SPLIT_BYTES]);
    Some(match call {
        "check" => {
            let (check, Pair { program, split }) = (checker(who)?, grown(what, count)?);
            measured(&mut || check(&program, &split, &mut work).number)
        }
        "fill" => {
            let (fill, Pair { program, split }) = (named(FILLERS, who)?, grown(what, count)?.to_fill());
            measured(&mut || fill(&program, &split, &mut work, &mut out).number)
        }
        "replay" if what == "lines" => {
            let (replay, trace, mut space) = (named(REPLAYERS, who)?, b"0,0\n".repeat(count), vec![0; REPLAY_SPACE]);
            measured(&mut || replay(ROUND, &trace, &mut space).number)
        }
        _ => return None,
    })
}

fn named<F: Copy, const N: usize>(callers: Callers<F, N>, who: &str) -> Option<F> {
    callers.into_iter().find(|(name, _)| *name == who)?.1
}

fn checker(who: &str) -> Option<Checker> {
    match who {
        "squared" => Some(|program, split, work| {
            let lines = program.iter().filter(|&&byte| byte == b'\n');
            lines.map(|_| plain::check(program, split, work)).last().expect("a sheet has a line")
        }),
        _ => named(CHECKERS, who),
    }
}

fn grown(what: &str, count: usize) -> Option<Pair> {
    Some(pairs::grown(Counts::with(what, count)?))
}

/// A thread that goes round a loop and calls a procedure each time, which writes a cell. All its choices are 0.
const ROUND: &[u8] = b"P2,9,1\nproc,0\nwrite,0\nvar,0\nint,1\nlet,1\nref,0\nint,0\nwhile,0\ncall,0\nvar,1\n";
