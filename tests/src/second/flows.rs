//! The flow and access conditions on maps: what a word asks, and how the maps of a sheet answer.

use super::conditions::{broken, Judged};
use super::split::Split;

/// What becomes of the conditions on maps. Maps go by their numbers.
pub trait Flows {
    /// left + right = total, right a map that the sheet gives.
    fn sum(&mut self, condition: u32, left: usize, right: usize, total: usize) -> Judged;
    fn equal(&mut self, condition: u32, left: usize, right: usize) -> Judged;
    fn at_least(&mut self, condition: u32, greater: usize, less: usize) -> Judged;
    /// So many shares are together at most the total; both are maps that the sheet gives.
    fn shares(&mut self, condition: u32, count: u32, share: usize, total: usize) -> Judged;
    /// The map has at least this much of the location.
    fn access(&mut self, condition: u32, map: usize, location: usize, wanted: u32) -> Judged;
}

/// The conditions are judged on the maps that the sheet gives.
pub struct Given<'a>(pub &'a Split);

impl Flows for Given<'_> {
    /// Sums stay within 2,000,000,000, so nothing overflows.
    fn sum(&mut self, condition: u32, left: usize, right: usize, total: usize) -> Judged {
        let pairs = self.0.map(left).iter().zip(self.0.map(right));
        flows(condition, pairs.zip(self.0.map(total)).map(|((left, right), total)| left + right == *total))
    }

    fn equal(&mut self, condition: u32, left: usize, right: usize) -> Judged {
        let pairs = self.0.map(left).iter().zip(self.0.map(right));
        flows(condition, pairs.map(|(left, right)| left == right))
    }

    fn at_least(&mut self, condition: u32, greater: usize, less: usize) -> Judged {
        let pairs = self.0.map(greater).iter().zip(self.0.map(less));
        flows(condition, pairs.map(|(greater, less)| greater >= less))
    }

    fn shares(&mut self, condition: u32, count: u32, share: usize, total: usize) -> Judged {
        let pairs = self.0.map(share).iter().zip(self.0.map(total));
        flows(condition, pairs.map(|(&share, &total)| u64::from(count) * u64::from(share) <= u64::from(total)))
    }

    fn access(&mut self, condition: u32, map: usize, location: usize, wanted: u32) -> Judged {
        if self.0.map(map)[location] >= wanted {
            return Ok(());
        }
        broken(33, condition, location)
    }
}

/// A condition on maps, judged location by location; the lowest false one is reported.
fn flows(condition: u32, mut locations: impl Iterator<Item = bool>) -> Judged {
    match locations.position(|yes| !yes) {
        None => Ok(()),
        Some(location) => broken(32, condition, location),
    }
}
