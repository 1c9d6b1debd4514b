//! A false condition, and how it is reported.

use evidence::answer::Returned;

/// A false condition of some line: (T) is 31, (F) is 32, (A) is 33.
pub struct Broken {
    pub number: u32,
    pub condition: u32,
    pub location: usize,
}

pub type Judged = Result<(), Broken>;

impl Broken {
    /// The answer, on the line with this number; line 0 stands on the sheet's line 2.
    pub fn at(self, line: usize) -> Returned {
        let Broken { number, condition, location } = self;
        Returned { number, line: line as u32 + 2, condition, location: location as u32 }
    }
}

/// A condition on types.
pub fn holds(condition: u32, yes: bool) -> Judged {
    if yes {
        Ok(())
    } else {
        Err(Broken { number: 31, condition, location: 0 })
    }
}

/// A condition on maps, false at this location.
pub fn flows(condition: u32, lowest_false: Option<usize>) -> Judged {
    match lowest_false {
        None => Ok(()),
        Some(location) => Err(Broken { number: 32, condition, location }),
    }
}
