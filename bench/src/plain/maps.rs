//! Maps in rows of 16 numbers, those past the sheet's last location 0, so that a map is compared as a whole.

use evidence::answer::LOCATIONS;

const WIDTH: usize = LOCATIONS as usize;

/// A capability mapping, document 01's "map".
pub type Map = [u32; WIDTH];

/// The maps by their numbers, and behind them one that holds nothing.
pub struct Maps<'a>(pub &'a mut [Map]);

/// Each of these gives the lowest location where it does not hold, if there is one.
impl Maps<'_> {
    pub fn equal(&self, left: usize, right: usize) -> Option<usize> {
        if left == right {
            return None;
        }
        let (left, right) = (&self.0[left], &self.0[right]);
        lowest_false(|location| left[location] == right[location])
    }

    pub fn at_least(&self, greater: usize, less: usize) -> Option<usize> {
        if greater == less {
            return None;
        }
        let (greater, less) = (&self.0[greater], &self.0[less]);
        lowest_false(|location| greater[location] >= less[location])
    }

    /// left + right = total. Sums stay within 2,000,000,000, so nothing overflows.
    pub fn sum(&self, left: usize, right: usize, total: usize) -> Option<usize> {
        let (left, right, total) = (&self.0[left], &self.0[right], &self.0[total]);
        lowest_false(|location| left[location] + right[location] == total[location])
    }

    /// So many shares are together at most the total.
    pub fn shares(&self, count: u32, share: usize, total: usize) -> Option<usize> {
        let (share, total) = (&self.0[share], &self.0[total]);
        lowest_false(|location| u64::from(count) * u64::from(share[location]) <= u64::from(total[location]))
    }
}

/// All locations are looked at in one go, which most conditions pass, before the lowest is sought.
pub fn lowest_false(holds: impl Fn(usize) -> bool) -> Option<usize> {
    let all = (0..WIDTH).fold(true, |all, location| all & holds(location));
    if all {
        return None;
    }
    (0..WIDTH).find(|&location| !holds(location))
}
