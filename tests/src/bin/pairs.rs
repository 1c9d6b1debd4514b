//! Writes drawn pairs as files: `pairs FOLDER COUNT [SEED]` makes FOLDER/0, FOLDER/1, .., each with both sheets;
//! `pairs --to-fill FOLDER COUNT [SEED]` makes pairs whose splits are to be filled in.

use evidence::draw::{pair, unfilled, Drawn};
use evidence::series;
use std::process::ExitCode;

const COMMAND: &str = "pairs [--to-fill]";

fn main() -> ExitCode {
    let arguments = series::arguments();
    match arguments.split_first() {
        Some((option, others)) if option == "--to-fill" => {
            series::written(COMMAND, others, |seed, number| unfilled::sheet(seed, number).pair, Drawn::files)
        }
        _ => series::written(COMMAND, &arguments, pair, Drawn::files),
    }
}
