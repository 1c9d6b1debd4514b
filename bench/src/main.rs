//! Times the product beside the second checker, the plain one and the tuned one, its filling beside the second filler,
//! its drill beside the second drill and its replay beside the second replayer, in one run and on the same texts. What it
//! prints are the tables of docs/BENCHMARKS.md.

mod agreement;
mod cells;
mod replays;
mod tables;
mod timing;

use evidence::product;
use replays::TURNS;
use std::process::ExitCode;
use timing::BATCHES;

fn main() -> ExitCode {
    match product::CHECK {
        None => println!("{}; its columns stay empty\n", product::NOT_LINKED),
        Some(product) => {
            if let Err(fault) = agreement::agree(product) {
                println!("{fault}");
                return ExitCode::FAILURE;
            }
        }
    }
    println!("Nanoseconds a check, the best batch of {BATCHES}:\n");
    tables::checks();
    println!("\nNanoseconds a filling or a drill, the best batch of {BATCHES}:\n");
    tables::others();
    println!("\nNanoseconds a line of a trace, the median of {TURNS} turns:\n");
    replays::replays();
    ExitCode::SUCCESS
}
