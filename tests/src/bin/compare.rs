//! Compares the product with the second checker on drawn pairs.
//!
//! `compare [pairs [seed]]`. Exits with 1 without the product, on the first difference, which it saves
//! as two files, and also when the drawn pairs did not meet what they should (see `tally`).

use evidence::answer::WORK_SPACE;
use evidence::checking::{difference, Checker, WorkSpace};
use evidence::tally::{Tally, CHECKING};
use evidence::{draw, known, product, second, series};
use std::process::ExitCode;
use std::time::Instant;

const PAIRS: u64 = 200_000;

fn main() -> ExitCode {
    let (pairs, seed) = series::asked(PAIRS);
    let Some(product) = product::CHECK else {
        println!("{}", product::NOT_LINKED);
        return ExitCode::FAILURE;
    };
    let start = Instant::now();
    let mut work = WorkSpace::default();
    let mut tally = Tally::new(CHECKING);
    let known_agree = known_pairs_agree(product, &mut work);
    for number in 0..pairs {
        let drawn = draw::pair(seed, number);
        let expected = second::check(&drawn.program, &drawn.split, drawn.room);
        if let Some(difference) = difference(product, &drawn, expected, &mut work) {
            let kept = series::kept(drawn.files(), number);
            println!("pair {number} of seed {seed} ({}): {difference}; {kept}", drawn.origin);
            return ExitCode::FAILURE;
        }
        tally.count(&drawn, expected);
    }
    println!(
        "{} known pairs and {pairs} of seed {seed} through the product and the second checker",
        known::all().count()
    );
    println!("{:.1} s", start.elapsed().as_secs_f64());
    print!("{tally}");
    let missed = tally.missed();
    if !missed.is_empty() {
        println!("not met: {}", missed.join(", "));
        return ExitCode::FAILURE;
    }
    println!("all drawn pairs agree, {} of {pairs} accepted", tally.accepted());
    if known_agree {
        ExitCode::SUCCESS
    } else {
        ExitCode::FAILURE
    }
}

/// The known pairs get the answers that document 01 lists.
fn known_pairs_agree(product: Checker, work: &mut WorkSpace) -> bool {
    let mut agree = true;
    for known in known::all() {
        let (program, split) = known.sheets();
        let (returned, fault) = work.check(product, &program, &split, WORK_SPACE);
        if returned.to_string() != known.answer || fault.is_some() {
            println!("known pair {} with {}: {returned}, not {}", known.program, known.split, known.answer);
            agree = false;
        }
    }
    agree
}
