//! What a series of drawn pairs met: answers, conditions, and how each origin fared.

use crate::answer::Returned;
use crate::draw::promise::broken;
use crate::draw::Drawn;
use crate::words::{Word, WORDS};
use std::collections::{BTreeMap, BTreeSet};
use std::fmt;

/// What a series has to meet.
pub struct Asked {
    /// Every number that an answer can have, in the order in which they are looked for.
    numbers: &'static [u32],
    /// How line 1 of a split can open.
    headings: &'static [&'static str],
    /// How many conditions of a word an answer can name.
    conditions: fn(Word) -> u32,
}

pub const CHECKING: Asked = Asked {
    numbers: &[0, 1, 10, 11, 12, 45, 13, 14, 15, 49, 20, 21, 22, 40, 50, 23, 44, 30, 31, 32, 33],
    headings: &["C", "C2", "C3"],
    conditions: Word::conditions,
};

pub const FILLING: Asked = Asked {
    numbers: &[0, 1, 10, 11, 12, 45, 13, 14, 15, 49, 20, 21, 22, 50, 23, 43, 44, 30, 31, 41, 42],
    headings: &["C2", "C3"],
    conditions: Word::type_conditions,
};

/// How many pairs met each answer.
pub struct Tally {
    asked: Asked,
    pairs: u64,
    numbers: BTreeMap<u32, u64>,
    conditions: BTreeMap<(Word, u32), u64>,
    /// How many pairs were drawn in each way, and how many of them were accepted.
    origins: BTreeMap<&'static str, (u64, u64)>,
    /// How many were accepted under each heading, and with each word.
    headings: BTreeMap<&'static str, u64>,
    words: BTreeMap<Word, u64>,
}

impl Tally {
    pub fn new(asked: Asked) -> Tally {
        let (numbers, conditions) = (BTreeMap::new(), BTreeMap::new());
        let (origins, headings, words) = (BTreeMap::new(), BTreeMap::new(), BTreeMap::new());
        Tally { asked, pairs: 0, numbers, conditions, origins, headings, words }
    }

    pub fn count(&mut self, drawn: &Drawn, returned: Returned) {
        self.pairs += 1;
        *self.numbers.entry(returned.number).or_default() += 1;
        let origin = self.origins.entry(drawn.origin).or_default();
        origin.0 += 1;
        origin.1 += u64::from(returned.number == 0);
        if returned.number == 0 {
            self.count_accepted(drawn);
        }
        if let Some(condition) = broken(&drawn.program, returned) {
            *self.conditions.entry(condition).or_default() += 1;
        }
    }

    fn count_accepted(&mut self, drawn: &Drawn) {
        let heading = drawn.split.split(|&byte| byte == b',').next().unwrap_or_default();
        if let Some(heading) = self.asked.headings.iter().find(|known| known.as_bytes() == heading) {
            *self.headings.entry(heading).or_default() += 1;
        }
        let spellings =
            drawn.program.split(|&byte| byte == b'\n').filter_map(|line| line.split(|&byte| byte == b',').next());
        for word in spellings.filter_map(Word::spelled).collect::<BTreeSet<Word>>() {
            *self.words.entry(word).or_default() += 1;
        }
    }

    pub fn accepted(&self) -> u64 {
        self.with_number(0)
    }

    fn with_number(&self, number: u32) -> u64 {
        self.numbers.get(&number).copied().unwrap_or(0)
    }

    fn under(&self, heading: &str) -> u64 {
        self.headings.get(heading).copied().unwrap_or(0)
    }

    fn with_word(&self, word: Word) -> u64 {
        self.words.get(&word).copied().unwrap_or(0)
    }

    fn met(&self, word: Word, condition: u32) -> u64 {
        self.conditions.get(&(word, condition)).copied().unwrap_or(0)
    }

    /// What the series should have met and did not: every number, every condition, every heading and every
    /// word in accepted pairs, and a third of the pairs accepted.
    pub fn missed(&self) -> Vec<String> {
        let numbers = self.asked.numbers.iter().filter(|&&number| self.with_number(number) == 0);
        let mut missed: Vec<String> = numbers.map(|number| format!("number {number}")).collect();
        let words = WORDS.iter().filter(|&&word| self.with_word(word) == 0);
        missed.extend(words.map(|word| format!("an accepted {}", word.spelling())));
        for word in WORDS {
            let conditions = (1..=(self.asked.conditions)(word)).filter(|&condition| self.met(word, condition) == 0);
            missed.extend(conditions.map(|condition| format!("condition {condition} of {}", word.spelling())));
        }
        let headings = self.asked.headings.iter().filter(|heading| self.under(heading) == 0);
        missed.extend(headings.map(|heading| format!("a {heading} sheet accepted")));
        if 3 * self.accepted() < self.pairs {
            missed.push("a third of the pairs accepted".to_string());
        }
        missed
    }
}

impl fmt::Display for Tally {
    fn fmt(&self, out: &mut fmt::Formatter<'_>) -> fmt::Result {
        for (origin, (drawn, accepted)) in &self.origins {
            writeln!(out, "  {origin:14} {drawn:7} drawn {accepted:7} accepted")?;
        }
        for heading in self.asked.headings {
            writeln!(out, "  {heading:2} sheets {:7} accepted", self.under(heading))?;
        }
        for number in self.asked.numbers {
            writeln!(out, "  number {number:2} {:7}", self.with_number(*number))?;
        }
        for word in WORDS {
            let counts: Vec<String> =
                (1..=(self.asked.conditions)(word)).map(|condition| self.met(word, condition).to_string()).collect();
            writeln!(out, "  {:9} {:6} accepted, false {}", word.spelling(), self.with_word(word), counts.join(" "))?;
        }
        Ok(())
    }
}

#[cfg(test)]
mod tests {
    use super::{Tally, CHECKING};
    use crate::{draw, second};

    /// The second checker keeps the generator's promises on a series, and the series leaves nothing out.
    #[test]
    fn a_series_meets_everything() {
        let mut tally = Tally::new(CHECKING);
        for number in 0..20_000 {
            let drawn = draw::pair(7, number);
            let returned = second::check(&drawn.program, &drawn.split, drawn.room);
            assert!(drawn.promise.kept(&drawn.program, returned), "pair {number}: {returned}, {:?}", drawn.promise);
            tally.count(&drawn, returned);
        }
        assert_eq!(tally.missed(), Vec::<String>::new(), "{tally}");
    }
}
