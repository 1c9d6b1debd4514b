//! Runs programs under many schedules and checks the two claims: no race, no odd halt.
//!
//! Accepted pairs must never show a fault. Racy and ill-typed programs must show theirs, so that
//! the search is known to find what it looks for. Exits with 1 on any failure.
//!
//! `schedules [second]`. The product says what is accepted, or, when asked for, the second checker.

use evidence::answer::{Returned, WORK_SPACE};
use evidence::checking::Checker;
use evidence::draw::draft::Draft;
use evidence::draw::honest::{self, concurrent, Slip};
use evidence::draw::random::Random;
use evidence::draw::{self, mutants, Drawn};
use evidence::series::SEED;
use evidence::steps::claims::Fault;
use evidence::steps::expression::Program;
use evidence::steps::programs::{ODD, RACY, WAITING};
use evidence::steps::search::{drawn_schedule, exhaustive, Found};
use evidence::words::Word;
use evidence::{known, product, second};
use std::process::ExitCode;
use std::time::Instant;

/// How many states an exhaustive search visits before it gives up on the rest.
const BOUND: usize = 4_000;

/// A summary when all is well, else what failed. The checker says which pairs are accepted.
type Check = fn(Checker) -> Result<String, String>;

/// The second checker, which needs no work space.
const SECOND: Checker = |program, split, work| second::check(program, split, work.len());

fn main() -> ExitCode {
    let by_second = std::env::args().nth(1).as_deref() == Some("second");
    let Some(checker) = product::CHECK.filter(|_| !by_second).or(by_second.then_some(SECOND)) else {
        println!("{}", product::NOT_LINKED);
        return ExitCode::FAILURE;
    };
    let start = Instant::now();
    let checks: [(&str, Check); 7] = [
        ("known racy programs", |_| known_races()),
        ("known odd halts", |_| known_odd_halts()),
        ("known safe programs", |_| known_safe()),
        ("accepted pairs, all schedules", accepted_exhaustively),
        ("accepted pairs, drawn schedules", accepted_at_random),
        ("faulty drawn programs are refused", faulty_are_refused),
        ("what a mistaken checker would accept", slips_are_refused),
    ];
    let mut exit = ExitCode::SUCCESS;
    for (title, check) in checks {
        match check(checker) {
            Ok(summary) => println!("{title}: {summary}"),
            Err(failure) => {
                println!("{title}: FAILED, {failure}");
                exit = ExitCode::FAILURE;
            }
        }
    }
    println!("{:.1} s", start.elapsed().as_secs_f64());
    exit
}

fn sheet(steps: &str) -> Vec<u8> {
    let count = steps.split('|').count();
    format!("P,{count}|{steps}|").replace('|', "\n").into_bytes()
}

fn listed(program: &[u8]) -> Program {
    Program::listed(program).expect("the program is well formed")
}

fn known_races() -> Result<String, String> {
    for (title, steps) in RACY {
        let found = exhaustive(&listed(&sheet(steps)), BOUND);
        let Some(Fault::Race(_)) = found.fault else { return Err(format!("no race found in {title}")) };
    }
    Ok(format!("{} of {} found", RACY.len(), RACY.len()))
}

fn known_odd_halts() -> Result<String, String> {
    for steps in ODD {
        let found = exhaustive(&listed(&sheet(steps)), BOUND);
        let Some(Fault::OddHalt(_)) = found.fault else { return Err(format!("no odd halt found in {steps}")) };
    }
    Ok(format!("{} of {} found", ODD.len(), ODD.len()))
}

fn known_safe() -> Result<String, String> {
    let accepted = known::all().filter(|known| known.answer == "ACCEPT");
    let waiting = WAITING.iter().map(|steps| sheet(steps));
    let mut sum = Sum::default();
    for program in accepted.map(|known| known.sheets().0).chain(waiting) {
        let found = exhaustive(&listed(&program), 50_000);
        if let Some(fault) = found.fault {
            return Err(format!("{fault:?} in {}", String::from_utf8_lossy(&program)));
        }
        sum.add(&found);
    }
    Ok(sum.told())
}

/// How telling a series of searches was.
#[derive(Default)]
struct Sum {
    runs: usize,
    complete: usize,
    concurrent: usize,
    shared: usize,
    states: usize,
}

impl Sum {
    fn add(&mut self, found: &Found) {
        self.runs += 1;
        self.complete += usize::from(found.complete);
        self.concurrent += usize::from(found.threads > 1);
        self.shared += usize::from(found.shared);
        self.states += found.states;
    }

    fn told(&self) -> String {
        format!(
            "{} runs, {} states, {} to the end, {} with two threads or more, {} with a shared cell",
            self.runs, self.states, self.complete, self.concurrent, self.shared
        )
    }
}

/// What a checker says of a pair with work space enough.
fn answer(checker: Checker, program: &[u8], split: &[u8]) -> Returned {
    checker(program, split, &mut [0; WORK_SPACE])
}

fn accepted_exhaustively(checker: Checker) -> Result<String, String> {
    let mut sum = Sum::default();
    for number in 0..1_200 {
        let random = &mut Random::new(SEED, number);
        let draft = small_draft(random, number);
        if answer(checker, &draft.program(), &draft.split()).number != 0 {
            return Err(format!("the honest pair {number} is refused"));
        }
        let found = exhaustive(&listed(&draft.program()), BOUND);
        if let Some(fault) = found.fault {
            return Err(format!("{fault:?} in the accepted pair {number}"));
        }
        sum.add(&found);
    }
    Ok(sum.told())
}

/// Two kinds in turn: drawn word by word, and drawn around threads that share cells; now and then these call.
fn small_draft(random: &mut Random, number: u64) -> Draft {
    if number.is_multiple_of(3) {
        return concurrent::with_procedures(random);
    }
    if number.is_multiple_of(2) {
        return concurrent::draft(random);
    }
    let (size, locations) = (10 + random.below(25), 1 + random.below(2));
    honest::draft(random, size, locations, 2)
}

fn accepted_at_random(checker: Checker) -> Result<String, String> {
    let mut sum = Sum::default();
    for number in 0..3_000 {
        let random = &mut Random::new(SEED + 1, number);
        let pair = match number % 2 {
            0 => Drawn::of(&concurrent::draft(random), "concurrent"),
            _ => draw::pair(SEED + 1, number),
        };
        if answer(checker, &pair.program, &pair.split).number != 0 {
            continue;
        }
        let program = listed(&pair.program);
        for _ in 0..3 {
            let found = drawn_schedule(&program, random, 300);
            if let Some(fault) = found.fault {
                return Err(format!("{fault:?} in the accepted pair {number}"));
            }
            sum.add(&found);
        }
    }
    Ok(sum.told())
}

/// Drawn pairs with a change: where the search finds a fault, the pair must be refused.
fn faulty_are_refused(checker: Checker) -> Result<String, String> {
    let (mut races, mut halts, mut still_accepted) = (0, 0, 0);
    for number in 0..1_600 {
        let random = &mut Random::new(SEED + 2, number);
        let calls = number % 4 == 1;
        let mut draft = if calls { concurrent::with_procedures(random) } else { concurrent::draft(random) };
        if number % 3 == 0 {
            mutants::change_draft(random, &mut draft);
        } else {
            loosen(random, &mut draft);
        }
        let returned = answer(checker, &draft.program(), &draft.split());
        if (1..=23).contains(&returned.number) || matches!(returned.number, 49 | 50) {
            continue;
        }
        let fault = exhaustive(&listed(&draft.program()), BOUND).fault;
        match (fault, returned.number) {
            (Some(fault), 0) => return Err(format!("{fault:?} in the accepted pair {number}")),
            (Some(Fault::Race(_)), _) => races += 1,
            (Some(Fault::OddHalt(_)), _) => halts += 1,
            (None, 0) => still_accepted += 1,
            _ => {}
        }
    }
    if races < 50 || halts < 5 {
        return Err(format!("only {races} races and {halts} odd halts found"));
    }
    Ok(format!("{races} with a race and {halts} with an odd halt, all refused; {still_accepted} still accepted"))
}

const SLIPS: [Slip; 7] = [
    Slip::LocksForFree,
    Slip::StartsForFree,
    Slip::WritesByFirstMap,
    Slip::PostsForFree,
    Slip::PrintedInequality,
    Slip::PlacesForFree,
    Slip::BodiesForFree,
];

/// Drafts built with one of the mistakes that a checker may make: some of them race, and those must be
/// refused.
fn slips_are_refused(checker: Checker) -> Result<String, String> {
    let mut told = Vec::new();
    for slip in SLIPS {
        let mut races = 0;
        for number in 0..300 {
            let draft = concurrent::draft_with(&mut Random::new(SEED + 3, number), Some(slip));
            let Some(fault) = exhaustive(&listed(&draft.program()), BOUND).fault else { continue };
            races += usize::from(matches!(fault, Fault::Race(_)));
            if answer(checker, &draft.program(), &draft.split()).number == 0 {
                return Err(format!("{fault:?} in the accepted pair {number} with {slip:?}"));
            }
        }
        if races < 10 {
            return Err(format!("only {races} races with {slip:?}"));
        }
        told.push(format!("{slip:?} {races} races"));
    }
    Ok(format!("{}, all refused", told.join(", ")))
}

/// Takes away what keeps threads apart: a `lock` becomes an `unlock`, a `wait` a `post`, a `wrlock` a
/// `rdlock`, a `join` or a `rdlock` a mere `ref`.
fn loosen(random: &mut Random, draft: &mut Draft) {
    use Word::{Join, Lock, Rdlock, Wait, Wrlock};
    let guard = |step: &usize| matches!(draft.steps[*step].word, Lock | Wait | Join | Rdlock | Wrlock);
    let guards: Vec<usize> = (0..draft.steps.len()).filter(guard).collect();
    if !guards.is_empty() {
        let guard = &mut draft.steps[random.pick(&guards)];
        guard.word = match guard.word {
            Word::Lock => Word::Unlock,
            Word::Wait => Word::Post,
            Word::Wrlock => Word::Rdlock,
            _ => Word::Ref,
        };
    }
}
