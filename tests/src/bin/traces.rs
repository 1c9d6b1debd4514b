//! Writes drawn traces as files: `traces FOLDER COUNT [SEED]` makes FOLDER/0, FOLDER/1, .., each with a program
//! sheet and a trace.

use evidence::draw::traces::{recorded, Recorded};
use evidence::series;
use std::process::ExitCode;

fn main() -> ExitCode {
    series::written("traces", &series::arguments(), recorded, Recorded::files)
}
