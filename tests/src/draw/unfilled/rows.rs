//! Step lines whose map afterwards is not empty, or that are at fault in more than one field.

use super::{typed, Unfilled};
use crate::draw::random::Random;

/// A sheet with one or two of its step lines changed field by field.
pub fn changed(random: &mut Random) -> Unfilled {
    let draft = typed::draft(random);
    let mut drawn = Unfilled::of_draft(&draft, "rows");
    let text = String::from_utf8(drawn.pair.split).expect("a draft is ASCII");
    let mut lines: Vec<String> = text.lines().map(str::to_string).collect();
    for _ in 0..1 + random.below(2) {
        let row = draft.row_of(random.below(draft.steps.len())) - 1;
        let mut fields: Vec<&str> = lines[row].split(',').collect();
        if random.percent(80) {
            fields[1] = random.pick(&["0", "1", "00", "512", "4294967296", "9999999999", "10000000000", "x", " ", "-"]);
        }
        if random.percent(20) {
            fields[0] = random.pick(&["", "64", "x", "00", "4294967296"]);
        }
        if random.percent(20) {
            fields[2] = random.pick(&["0", "x", "00", "512", "10000000000"]);
        }
        lines[row] = fields.join(",");
    }
    drawn.pair.split = (lines.join("\n") + "\n").into_bytes();
    drawn
}
