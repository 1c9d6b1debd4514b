//! The calls of the product through its C entries, where the library is linked (see `build.rs`).

pub use calls::{CHECK, DRILL, FILL, PIECES, REPLAY};

/// What a command that needs the product says before it fails without it.
pub const NOT_LINKED: &str = "the product is not linked: name the folder of its library in RACECHECK_LIB_DIR";

/// Without the library there is nothing to call.
#[cfg(not(product))]
mod calls {
    use crate::checking::Checker;
    use crate::drill::Driller;
    use crate::filling::Filler;
    use crate::pieces::Pieces;
    use crate::replaying::Replayer;

    pub const CHECK: Option<Checker> = None;
    pub const DRILL: Option<Driller> = None;
    pub const FILL: Option<Filler> = None;
    pub const REPLAY: Option<Replayer> = None;
    pub const PIECES: Option<Pieces> = None;
}

#[cfg(product)]
mod calls {
    use crate::answer::{Race, Replayed, Returned};
    use crate::checking::Checker;
    use crate::drill::{Drilled, Driller};
    use crate::filling::Filler;
    use crate::pieces::Pieces;
    use crate::replaying::Replayer;

    pub const CHECK: Option<Checker> = Some(check);
    pub const DRILL: Option<Driller> = Some(drill);
    pub const FILL: Option<Filler> = Some(fill);
    pub const REPLAY: Option<Replayer> = Some(replay);
    pub const PIECES: Option<Pieces> = Some(Pieces { begin, more, told });

    extern "C" {
        fn racecheck_check(
            program: *const u8,
            program_len: usize,
            split: *const u8,
            split_len: usize,
            work: *mut u32,
            work_len: usize,
            line: *mut u32,
            condition: *mut u32,
            location: *mut u32,
        ) -> u32;

        fn racecheck_drill(
            seed: u32,
            program: *mut u8,
            program_len: usize,
            split: *mut u8,
            split_len: usize,
            next: *mut u32,
            program_length: *mut u32,
            split_length: *mut u32,
        ) -> u32;

        fn racecheck_fill(
            program: *const u8,
            program_len: usize,
            split: *const u8,
            split_len: usize,
            work: *mut u32,
            work_len: usize,
            out: *mut u8,
            out_len: usize,
            length_or_line: *mut u32,
            condition: *mut u32,
            location: *mut u32,
        ) -> u32;

        fn racecheck_replay(
            program: *const u8,
            program_len: usize,
            trace: *const u8,
            trace_len: usize,
            space: *mut u32,
            space_len: usize,
            line: *mut u64,
            condition: *mut u32,
            location: *mut u32,
            steps: *mut u64,
            state: *mut u64,
            first: *mut u32,
            second: *mut u32,
        ) -> u32;

        fn racecheck_replay_begin(
            program: *const u8,
            program_len: usize,
            job: *mut u32,
            job_len: usize,
            space: *mut u32,
            space_len: usize,
            run: *mut u64,
            run_len: usize,
        ) -> u32;

        fn racecheck_replay_more(
            job: *const u32,
            job_len: usize,
            space: *mut u32,
            space_len: usize,
            run: *mut u64,
            run_len: usize,
            piece: *const u8,
            piece_len: usize,
        ) -> u32;

        fn racecheck_replay_told(
            run: *const u64,
            run_len: usize,
            line: *mut u64,
            condition: *mut u32,
            location: *mut u32,
            steps: *mut u64,
            state: *mut u64,
            first: *mut u32,
            second: *mut u32,
        ) -> u32;
    }

    /// Calls the product on a pair and a lent work space.
    fn check(program: &[u8], split: &[u8], work: &mut [u32]) -> Returned {
        let mut returned = Returned::ACCEPT;
        // The three slices and the three places are live and apart for the whole call.
        returned.number = unsafe {
            racecheck_check(
                program.as_ptr(),
                program.len(),
                split.as_ptr(),
                split.len(),
                work.as_mut_ptr(),
                work.len(),
                &mut returned.line,
                &mut returned.condition,
                &mut returned.location,
            )
        };
        returned
    }

    /// Calls the product's drill on two lent buffers.
    fn drill(seed: u32, program: &mut [u8], split: &mut [u8]) -> Drilled {
        // What is stored must overwrite this.
        let mut drilled = Drilled { number: 1, next: 1, program: 1, split: 1 };
        // The two slices and the three places are live and apart for the whole call.
        drilled.number = unsafe {
            racecheck_drill(
                seed,
                program.as_mut_ptr(),
                program.len(),
                split.as_mut_ptr(),
                split.len(),
                &mut drilled.next,
                &mut drilled.program,
                &mut drilled.split,
            )
        };
        drilled
    }

    /// Calls the product's filling on a pair, a lent work space and a lent buffer.
    fn fill(program: &[u8], split: &[u8], work: &mut [u32], out: &mut [u8]) -> Returned {
        // What is stored must overwrite this.
        let mut returned = Returned { number: 1, line: 1, condition: 1, location: 1 };
        // The four slices and the three places are live and apart for the whole call.
        returned.number = unsafe {
            racecheck_fill(
                program.as_ptr(),
                program.len(),
                split.as_ptr(),
                split.len(),
                work.as_mut_ptr(),
                work.len(),
                out.as_mut_ptr(),
                out.len(),
                &mut returned.line,
                &mut returned.condition,
                &mut returned.location,
            )
        };
        returned
    }

    /// Without a race the state and the threads are the largest numbers of their kinds.
    const NO_RACE: Race = Race { state: u64::MAX, first: u32::MAX, second: u32::MAX };

    /// What must be overwritten by what a replay stores.
    const NOTHING: Replayed = Replayed { number: 77, line: 77, condition: 77, location: 77, steps: 77, race: None };
    const NOWHERE: Race = Race { state: 77, first: 77, second: 77 };

    /// Calls the product's replay on a program, a trace and a lent space.
    fn replay(program: &[u8], trace: &[u8], space: &mut [u32]) -> Replayed {
        let (mut done, mut race) = (NOTHING, NOWHERE);
        // The three slices and the seven places are live and apart for the whole call.
        done.number = unsafe {
            racecheck_replay(
                program.as_ptr(),
                program.len(),
                trace.as_ptr(),
                trace.len(),
                space.as_mut_ptr(),
                space.len(),
                &mut done.line,
                &mut done.condition,
                &mut done.location,
                &mut done.steps,
                &mut race.state,
                &mut race.first,
                &mut race.second,
            )
        };
        Replayed { race: (race != NO_RACE).then_some(race), ..done }
    }

    /// Begins a replay in pieces in three lent buffers.
    fn begin(program: &[u8], job: &mut [u32], space: &mut [u32], run: &mut [u64]) -> u32 {
        // The four slices are live and apart for the whole call.
        unsafe {
            racecheck_replay_begin(
                program.as_ptr(),
                program.len(),
                job.as_mut_ptr(),
                job.len(),
                space.as_mut_ptr(),
                space.len(),
                run.as_mut_ptr(),
                run.len(),
            )
        }
    }

    /// Goes on with a piece in the same buffers.
    fn more(job: &[u32], space: &mut [u32], run: &mut [u64], piece: &[u8]) -> u32 {
        // The four slices are live and apart for the whole call.
        unsafe {
            racecheck_replay_more(
                job.as_ptr(),
                job.len(),
                space.as_mut_ptr(),
                space.len(),
                run.as_mut_ptr(),
                run.len(),
                piece.as_ptr(),
                piece.len(),
            )
        }
    }

    /// What has become of the run that a buffer holds.
    fn told(run: &[u64]) -> Replayed {
        let (mut done, mut race) = (NOTHING, NOWHERE);
        // The slice and the seven places are live and apart for the whole call.
        done.number = unsafe {
            racecheck_replay_told(
                run.as_ptr(),
                run.len(),
                &mut done.line,
                &mut done.condition,
                &mut done.location,
                &mut done.steps,
                &mut race.state,
                &mut race.first,
                &mut race.second,
            )
        };
        Replayed { race: (race != NO_RACE).then_some(race), ..done }
    }
}
