//! The four returned numbers, and the limits of document 01.

/// The work space's length in 32-bit numbers, below which a call is refused with 1.
pub const WORK_SPACE: usize = 16_384;
/// The length of the space lent to a replay in 32-bit numbers, below which it is refused with 1.
pub const REPLAY_SPACE: usize = 542_960;
/// The most threads of a run, the start thread included.
pub const THREADS: usize = 16;
/// The most cells of a run, and likewise locks, read-write locks, semaphores and identifiers.
pub const THINGS: usize = 64;
/// The longest program sheet in bytes.
pub const PROGRAM_BYTES: usize = 16_384;
/// The longest split sheet in bytes.
pub const SPLIT_BYTES: usize = 65_536;
pub const STEPS: u32 = 256;
/// The most procedures of a sheet.
pub const PROCEDURES: u32 = 16;
/// The most open calls of one thread of a run.
pub const OPEN_CALLS: usize = 64;
pub const VARIABLES: u32 = 256;
pub const CONSTANTS: u32 = 65_536;
/// The most reading places of a read-write lock.
pub const PLACES: u32 = 64;
pub const LOCATIONS: u32 = 16;
pub const TYPES: u32 = 64;
pub const MAPS: u32 = 512;
/// The most maps of a sheet that is to be filled in.
pub const GIVEN_MAPS: u32 = 256;
/// The greatest denominator, and the greatest numeral of a map.
pub const WHOLE: u32 = 1_000_000_000;

/// What a call returns. All four are 0 for ACCEPT.
#[derive(Clone, Copy, Debug, PartialEq, Eq, Default)]
pub struct Returned {
    pub number: u32,
    pub line: u32,
    pub condition: u32,
    pub location: u32,
}

impl Returned {
    pub const ACCEPT: Returned = Returned { number: 0, line: 0, condition: 0, location: 0 };

    /// A refusal that names a line and nothing else.
    pub const fn at_line(number: u32, line: u32) -> Returned {
        Returned { number, line, condition: 0, location: 0 }
    }
}

impl std::fmt::Display for Returned {
    /// The line that `racecheck` writes, without its closing byte.
    fn fmt(&self, out: &mut std::fmt::Formatter<'_>) -> std::fmt::Result {
        if *self == Returned::ACCEPT {
            return write!(out, "ACCEPT");
        }
        write!(out, "REFUSE,{},{},{},{}", self.number, self.line, self.condition, self.location)
    }
}

/// What a replay returns, and what it reports: the steps done and the first state with a race.
#[derive(Clone, Copy, Debug, PartialEq, Eq)]
pub struct Replayed {
    pub number: u32,
    pub line: u64,
    pub condition: u32,
    pub location: u32,
    pub steps: u64,
    pub race: Option<Race>,
}

impl Replayed {
    /// An answer with no condition, no location, no steps and no race.
    pub const fn at_line(number: u32, line: u64) -> Replayed {
        Replayed { number, line, condition: 0, location: 0, steps: 0, race: None }
    }
}

/// The number of the first state with a race, and the lowest pair of threads that race in it.
#[derive(Clone, Copy, Debug, PartialEq, Eq)]
pub struct Race {
    pub state: u64,
    pub first: u32,
    pub second: u32,
}

impl std::fmt::Display for Replayed {
    /// The line that `racereplay` writes, without its closing byte.
    fn fmt(&self, out: &mut std::fmt::Formatter<'_>) -> std::fmt::Result {
        let Replayed { number, line, condition, location, steps, race } = self;
        match (number, race) {
            (0, None) => write!(out, "RAN,{steps}"),
            (0, Some(Race { state, first, second })) => write!(out, "RACE,{steps},{state},{first},{second}"),
            (_, None) => write!(out, "REFUSE,{number},{line},{condition},{location},{steps}"),
            (_, Some(Race { state, first, second })) => {
                write!(out, "REFUSE,{number},{line},{condition},{location},{steps},RACE,{state},{first},{second}")
            }
        }
    }
}
