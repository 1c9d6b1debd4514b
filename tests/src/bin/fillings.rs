//! Compares the product's filling with the second filler on known and drawn sheets.
//!
//! `fillings [sheets [seed]]`. Exits with 1 without the product, on the first difference, which it saves as
//! two files, and also when the drawn sheets did not meet what they should (see `tally`).

use evidence::answer::{Returned, SPLIT_BYTES, WORK_SPACE};
use evidence::checking::{Checker, WorkSpace};
use evidence::draw::unfilled;
use evidence::filling::{agreed, Filler};
use evidence::tally::{Tally, FILLING};
use evidence::{known, product, series};
use std::process::ExitCode;
use std::time::Instant;

const SHEETS: u64 = 50_000;

fn main() -> ExitCode {
    let (sheets, seed) = series::asked(SHEETS);
    let (Some(filler), Some(checker)) = (product::FILL, product::CHECK) else {
        println!("{}", product::NOT_LINKED);
        return ExitCode::FAILURE;
    };
    let start = Instant::now();
    let known = known_sheets(filler).and_then(|()| known_pairs(filler, checker));
    match known.and_then(|()| drawn_sheets(filler, checker, sheets, seed)) {
        Ok(tally) => {
            let (sheets_known, pairs_known) = (known::fillings().count(), unfilled::of_known().count());
            println!("{sheets_known} known sheets, {pairs_known} made of known pairs and {sheets} of seed {seed} through both fillers");
            println!("{:.1} s", start.elapsed().as_secs_f64());
            print!("{tally}");
            println!("all drawn sheets agree, {} of {sheets} filled", tally.accepted());
            ExitCode::SUCCESS
        }
        Err(failure) => {
            println!("{failure}");
            ExitCode::FAILURE
        }
    }
}

fn drawn_sheets(filler: Filler, checker: Checker, sheets: u64, seed: u64) -> Result<Tally, String> {
    let (mut work, mut tally) = (WorkSpace::default(), Tally::new(FILLING));
    for number in 0..sheets {
        let drawn = unfilled::sheet(seed, number);
        let returned = agreed(filler, checker, &drawn, &mut work).map_err(|difference| {
            let kept = series::kept(drawn.pair.files(), number);
            format!("sheet {number} of seed {seed} ({}): {difference}; {kept}", drawn.pair.origin)
        })?;
        tally.count(&drawn.pair, returned);
    }
    match tally.missed().as_slice() {
        [] => Ok(tally),
        missed => Err(format!("{tally}not met: {}", missed.join(", "))),
    }
}

/// The known sheets get the answers that are listed.
fn known_sheets(filler: Filler) -> Result<(), String> {
    for known in known::fillings() {
        let (program, split) = known.sheets();
        let mut out = vec![0; SPLIT_BYTES];
        let returned = filler(&program, &split, &mut vec![1; WORK_SPACE], &mut out);
        if told(returned, &out) != known.answer {
            return Err(format!("known sheet {} with {}: {}", known.program, known.split, told(returned, &out)));
        }
    }
    Ok(())
}

/// The accepted known pairs are filled when their maps are taken out.
fn known_pairs(filler: Filler, checker: Checker) -> Result<(), String> {
    let mut work = WorkSpace::default();
    for drawn in unfilled::of_known() {
        let returned = agreed(filler, checker, &drawn, &mut work)?;
        if returned.number != 0 {
            return Err(format!("{returned} for {}", String::from_utf8_lossy(&drawn.pair.split)));
        }
    }
    Ok(())
}

/// What is written, a bar for each byte 10, or the refusal.
fn told(returned: Returned, out: &[u8]) -> String {
    match returned.number {
        0 => String::from_utf8_lossy(&out[..returned.line as usize]).replace('\n', "|"),
        _ => returned.to_string(),
    }
}
