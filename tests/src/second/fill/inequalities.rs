//! What the conditions ask of the after-maps, as inequalities, and the greatest numbers that meet them.

use crate::second::conditions::Judged;
use crate::second::flows::Flows;
use crate::second::split::Split;

/// x[greater] >= x[less] + margin.
struct Inequality {
    greater: usize,
    less: usize,
    margin: i128,
}

/// The inequalities of each location. Unknown 0 is the number 0 itself, unknown i + 1 the map after step i.
pub struct Inequalities<'a> {
    split: &'a Split,
    of_location: Vec<Vec<Inequality>>,
}

impl<'a> Inequalities<'a> {
    /// No number is below 0.
    pub fn new(split: &'a Split) -> Inequalities<'a> {
        let above_zero = |step| Inequality { greater: step + 1, less: 0, margin: 0 };
        let of_each_step = || (0..split.marks.len()).map(above_zero).collect();
        Inequalities { split, of_location: (0..split.locations).map(|_| of_each_step()).collect() }
    }

    /// A map at a location, as an unknown and what is added to it.
    fn term(&self, map: usize, location: usize) -> (usize, i128) {
        match map.checked_sub(self.split.maps + 1) {
            Some(step) => (step + 1, 0),
            None => (0, i128::from(self.split.map(map)[location])),
        }
    }

    /// The one map is at least the other plus a margin of each location.
    fn ask(&mut self, greater: usize, less: usize, margin: impl Fn(usize) -> i128) {
        for location in 0..self.split.locations {
            let ((greater, more), (less, known)) = (self.term(greater, location), self.term(less, location));
            let margin = margin(location) + known - more;
            self.of_location[location].push(Inequality { greater, less, margin });
        }
    }

    /// For each step the greatest map, a number for each location. None when no maps meet the inequalities.
    pub fn greatest(&self) -> Option<Vec<Vec<i128>>> {
        let steps = self.split.marks.len();
        let mut posts = vec![Vec::with_capacity(self.split.locations); steps];
        for inequalities in &self.of_location {
            let found = greatest(steps + 1, inequalities)?;
            posts.iter_mut().zip(&found[1..]).for_each(|(post, &number)| post.push(number));
        }
        Some(posts)
    }
}

/// The greatest numbers with x[0] = 0, if there are any: from bounds that are too high, each inequality
/// lowers a bound until nothing changes. Rounds go there and back, as maps are handed on both ways. A
/// bound below 0 for 0 itself, or in any graph with so many places a change past that many rounds, means
/// a negative cycle. Every unknown has a bound: the map before a step bounds the one after it.
fn greatest(unknowns: usize, inequalities: &[Inequality]) -> Option<Vec<i128>> {
    const UNBOUNDED: i128 = i128::MAX / 2;
    let mut highest = vec![UNBOUNDED; unknowns];
    highest[0] = 0;
    for _ in 0..unknowns {
        let mut changed = false;
        for &Inequality { greater, less, margin } in inequalities.iter().chain(inequalities.iter().rev()) {
            if highest[greater] < UNBOUNDED && highest[greater] - margin < highest[less] {
                highest[less] = highest[greater] - margin;
                changed = true;
            }
        }
        if highest[0] < 0 {
            return None;
        }
        if !changed {
            return Some(highest);
        }
    }
    None
}

impl Flows for Inequalities<'_> {
    fn sum(&mut self, _: u32, left: usize, right: usize, total: usize) -> Judged {
        let split = self.split;
        let carried = |location: usize| i128::from(split.map(right)[location]);
        self.ask(total, left, carried);
        self.ask(left, total, |location| -carried(location));
        Ok(())
    }

    fn equal(&mut self, _: u32, left: usize, right: usize) -> Judged {
        self.ask(left, right, |_| 0);
        self.ask(right, left, |_| 0);
        Ok(())
    }

    fn at_least(&mut self, _: u32, greater: usize, less: usize) -> Judged {
        self.ask(greater, less, |_| 0);
        Ok(())
    }

    fn shares(&mut self, _: u32, count: u32, share: usize, total: usize) -> Judged {
        let split = self.split;
        self.ask(total, split.maps, |location| i128::from(count) * i128::from(split.map(share)[location]));
        Ok(())
    }

    fn access(&mut self, _: u32, map: usize, location: usize, wanted: u32) -> Judged {
        let (greater, more) = self.term(map, location);
        let margin = i128::from(wanted) - more;
        self.of_location[location].push(Inequality { greater, less: 0, margin });
        Ok(())
    }
}
