//! What the commands over a series of drawn pairs or traces share: how many and of which seed, where two texts
//! are kept that tell two answers apart, and how a series is written as files.

use std::path::Path;
use std::process::ExitCode;

/// The seed of a series when none is named.
pub const SEED: u64 = 2008;

/// The two arguments of a command, a count and a seed; `count` where the first is not given.
pub fn asked(count: u64) -> (u64, u64) {
    let mut arguments = arguments().into_iter().map(|argument| argument.parse::<u64>());
    let count = arguments.next().and_then(Result::ok).unwrap_or(count);
    (count, arguments.next().and_then(Result::ok).unwrap_or(SEED))
}

/// Two texts with the names of their files.
pub type Files<'a> = [(&'static str, &'a [u8]); 2];

/// Keeps two texts on which two answers differ for a closer look, and says where.
pub fn kept(files: Files, number: u64) -> String {
    let files = files.map(|(name, text)| (format!("unlike-{number}-{name}"), text));
    match files.iter().try_for_each(|(name, text)| std::fs::write(name, text)) {
        Ok(()) => format!("saved as {} and {}", files[0].0, files[1].0),
        Err(error) => format!("not saved: {error}"),
    }
}

/// The arguments of a command.
pub fn arguments() -> Vec<String> {
    std::env::args().skip(1).collect()
}

/// A command with the arguments `FOLDER COUNT [SEED]` behind its options, which makes FOLDER/0, FOLDER/1, .., each with
/// the two files of that number.
pub fn written<T>(
    command: &str,
    arguments: &[String],
    drawn: impl Fn(u64, u64) -> T,
    files: impl Fn(&T) -> Files<'_>,
) -> ExitCode {
    let count = arguments.get(1).and_then(|count| count.parse::<u64>().ok());
    let (Some(folder), Some(count)) = (arguments.first(), count) else {
        eprintln!("usage: {command} FOLDER COUNT [SEED]");
        return ExitCode::FAILURE;
    };
    let seed = arguments.get(2).and_then(|seed| seed.parse().ok()).unwrap_or(SEED);
    let folder_of = |number: u64| Path::new(folder).join(number.to_string());
    match (0..count).try_for_each(|number| write_files(&folder_of(number), files(&drawn(seed, number)))) {
        Ok(()) => ExitCode::SUCCESS,
        Err(error) => {
            eprintln!("not written: {error}");
            ExitCode::FAILURE
        }
    }
}

fn write_files(folder: &Path, files: Files) -> std::io::Result<()> {
    std::fs::create_dir_all(folder)?;
    files.into_iter().try_for_each(|(name, text)| std::fs::write(folder.join(name), text))
}
