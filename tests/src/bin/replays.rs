//! Compares the product's replay, of a whole trace and in pieces, with the second replayer on known and drawn traces.
//!
//! `replays [traces [seed]]`. Exits with 1 without the product, on the first difference, which it saves as
//! two files, and also when the drawn traces did not meet what they should (see `replaying`).

use evidence::answer::{Replayed, REPLAY_SPACE};
use evidence::checking::Checker;
use evidence::draw::random::Random;
use evidence::draw::traces::{self, Recorded};
use evidence::pieces::{Buffers, Pieces};
use evidence::replaying::{agreed, Lent, Met, Replayer};
use evidence::{known, product, series};
use std::process::ExitCode;
use std::time::Instant;

const TRACES: u64 = 100_000;

/// Behind one in so many traces the calls in pieces are tried on buffers that are too short, or hold anything.
const STRUCK: u64 = 50;

fn main() -> ExitCode {
    let (traces, seed) = series::asked(TRACES);
    let (Some(checker), Some(replayer), Some(pieces)) = (product::CHECK, product::REPLAY, product::PIECES) else {
        println!("{}", product::NOT_LINKED);
        return ExitCode::FAILURE;
    };
    let start = Instant::now();
    match known_traces(replayer).and_then(|()| drawn_traces(replayer, pieces, checker, traces, seed)) {
        Ok(met) => {
            let known = known::replays().count();
            println!("{known} known traces and {traces} of seed {seed} through the product, whole and in pieces, and the second replayer");
            println!("{:.1} s", start.elapsed().as_secs_f64());
            print!("{met}");
            println!("all drawn traces agree");
            ExitCode::SUCCESS
        }
        Err(failure) => {
            println!("{failure}");
            ExitCode::FAILURE
        }
    }
}

/// The known traces get the answers that are listed.
fn known_traces(replayer: Replayer) -> Result<(), String> {
    for known in known::replays() {
        let (program, trace) = known.texts();
        let found = replayer(&program, &trace, &mut vec![1; REPLAY_SPACE]).to_string();
        if found != known.answer {
            let program = String::from_utf8_lossy(&program).replace('\n', "|");
            return Err(format!("known trace {:?} of {program}: {found}, not {}", known.trace, known.answer));
        }
    }
    Ok(())
}

fn drawn_traces(replayer: Replayer, pieces: Pieces, checker: Checker, traces: u64, seed: u64) -> Result<Met, String> {
    let (mut lent, mut met) = (Lent::garbage(), Met::default());
    let mut buffers = Buffers::garbage(&mut Random::new(seed, traces));
    for number in 0..traces {
        let drawn = traces::recorded(seed, number);
        let random = &mut Random::new(seed ^ 0x91EC, number);
        let alike = agreed(replayer, checker, &drawn, &mut lent, &mut met)
            .and_then(|expected| in_pieces(pieces, &drawn, &mut buffers, random, expected))
            .and_then(|()| if number % STRUCK == 0 { struck(pieces, &drawn, &mut buffers, random) } else { Ok(()) });
        alike.map_err(|difference| {
            let kept = series::kept(drawn.files(), number);
            format!("trace {number} of seed {seed} ({}): {difference}; {kept}", drawn.origin)
        })?;
    }
    match met.missed().as_slice() {
        [] => Ok(met),
        missed => Err(format!("{met}not met: {}", missed.join(", "))),
    }
}

/// In pieces the product says the same.
fn in_pieces(
    pieces: Pieces,
    drawn: &Recorded,
    buffers: &mut Buffers,
    random: &mut Random,
    expected: Replayed,
) -> Result<(), String> {
    match buffers.replay(pieces, drawn, random)? {
        found if found == expected => Ok(()),
        found => Err(format!("in pieces {found}, second replayer {expected}, room {}", drawn.room)),
    }
}

/// Buffers that are too short are told, and those that hold anything are taken.
fn struck(pieces: Pieces, drawn: &Recorded, buffers: &mut Buffers, random: &mut Random) -> Result<(), String> {
    buffers.short(pieces, drawn)?;
    buffers.strike(pieces, &drawn.trace, random)
}
