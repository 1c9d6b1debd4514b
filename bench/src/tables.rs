//! The tables of checks, of fillings and of the drill.

use crate::cells::{compared, heading, line, number, over, ratio};
use crate::timing::best;
use bench::rows::{self, Check};
use bench::{plain, tuned, SECOND};
use evidence::{drill, filling, product};

/// Times each check by all four. Growth is the product's time over that of the row above, where one count doubles.
pub fn checks() {
    heading(["pair", "bytes", "product", "second", "plain", "tuned", "of second", "of plain", "of tuned", "growth"]);
    let mut before = None;
    for Check { title, pair, doubled } in rows::checks() {
        let checkers = [product::CHECK, Some(SECOND), Some(plain::check), Some(tuned::check)];
        let times = best(checkers, |check, lent| check(&pair.program, &pair.split, &mut lent.work));
        let growth = over(times[0], before.filter(|_| doubled));
        row(&title, pair.bytes(), &times, Some(ratio(growth)));
        before = times[0];
    }
}

/// Times fillings and the drill beside the second ones. The bytes of a drill are those that it writes.
pub fn others() {
    heading(["call", "bytes", "product", "second", "of second"]);
    for (title, pair) in rows::fillings() {
        let fillers = [product::FILL, Some(filling::SECOND)];
        let times = best(fillers, |fill, lent| fill(&pair.program, &pair.split, &mut lent.work, &mut lent.split));
        row(title, pair.bytes(), &times, None);
    }
    let (title, seed) = rows::drill();
    let (program, split) = drill::sheets(drill::readers(drill::draw(seed)));
    let drills = [product::DRILL, Some(drill::drill)];
    let times = best(drills, |drill, lent| drill(seed, &mut lent.program, &mut lent.split));
    row(title, program.len() + split.len(), &times, None);
}

fn row(title: &str, bytes: usize, times: &[Option<f64>], growth: Option<String>) {
    let front = [title.to_string(), number(Some(bytes as f64), 0)];
    line(&front.into_iter().chain(compared(times, 0)).chain(growth).collect::<Vec<String>>());
}
