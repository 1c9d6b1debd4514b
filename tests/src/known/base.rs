//! Document 01's own pairs, the paper's examples, and pairs at the edges of document 01.

use super::{pair, program, split, Known, ONE, P};

/// The tiny split for three steps.
const Z3: &str = "C,1,1,1,1|int,0,0|0|0,0,|0,0,|0,0,|";

/// Document 01's S, with another head or another spawn line.
macro_rules! split_of_p {
    ($head:literal, $spawn:literal) => {
        concat!(
            $head,
            "|int,0,0|ref,0,0|tid,1,0|2|1|0,0,|1,0,|0,0,|0,0,|2,0,|0,0,|",
            $spawn,
            "|2,0,|0,1,|1,1,|0,0,|0,0,|2,1,|0,0,|1,0,|0,0,|"
        )
    };
}

/// Figure 2 (a), with half of the cell for each thread: the write asks for the whole.
const RACY: Known = pair(
    "P,11|let,0|ref,0|int,0|let,1|spawn,0|newtid,0|read,0|var,0|write,0|var,0|int,1|",
    "C,2,1,3,3|int,0,0|ref,0,0|tid,2,0|2|1|0|0,1,|1,0,|0,0,|0,1,|0,1,1|2,0,|0,1,|1,1,|0,1,|1,1,|0,1,|",
    "REFUSE,33,10,5,0",
);

/// Figure 2 (c): the lock carries the whole of the cell.
const GUARDED: Known = pair(
    "P,25|let,0|ref,0|int,0|let,1|newlock,0|let,2|spawn,0|newtid,0|let,3|lock,0|var,1|let,4|read,0|var,0|\
     unlock,0|var,1|let,5|lock,0|var,1|let,6|write,0|var,0|int,1|unlock,0|var,1|",
    "C,1,1,4,2|int,0,0|ref,0,0|lock,0,0|tid,1,0|1|0|0,1,|1,0,|0,0,|0,1,|2,1,|0,1,|0,1,1|3,1,|0,1,|0,0,|2,1,|0,1,|\
     0,0,|1,0,|0,1,|2,0,|0,1,|0,0,|2,1,|0,1,|0,0,|1,0,|0,0,|0,1,|2,0,|",
    "ACCEPT",
);

/// The program beside NEWL-unsound: each of two locks would carry the whole of the cell.
const TWO_LOCKS: Known = pair(
    "P,27|let,0|ref,0|int,0|let,1|newlock,0|let,2|newlock,0|let,3|spawn,0|newtid,0|let,4|lock,0|var,1|let,5|read,0|\
     var,0|unlock,0|var,1|let,6|lock,0|var,2|let,7|write,0|var,0|int,1|unlock,0|var,2|",
    "C,1,1,4,2|int,0,0|ref,0,0|lock,0,0|tid,1,0|1|0|0,1,|1,0,|0,0,|0,1,|2,1,|0,1,|2,1,|0,1,|0,1,1|3,1,|0,1,|0,0,|2,1,|\
     0,1,|0,0,|1,0,|0,1,|2,0,|0,1,|0,0,|2,1,|0,1,|0,0,|1,0,|0,0,|0,1,|2,0,|",
    "REFUSE,32,8,2,0",
);

/// The example of the paper's section 2.2.1: threads spawned in a loop, x behind a lock, y read in
/// halves and written after the joins.
const LOOP: Known = pair(
    "P,50|let,0|ref,0|int,0|let,1|ref,0|int,0|let,2|newtid,0|let,3|newlock,0|while,0|\
     let,4|spawn,0|var,2|let,5|read,0|var,1|let,6|lock,0|var,3|let,7|write,0|var,0|var,5|unlock,0|var,3|\
     let,8|spawn,0|var,2|let,9|read,0|var,1|let,10|lock,0|var,3|let,11|write,0|var,0|var,9|unlock,0|var,3|\
     let,12|join,0|var,2|let,13|join,0|var,2|write,0|var,1|int,1|",
    "C,2,2,5,6|int,0,0|ref,0,0|ref,1,0|tid,2,0|lock,1,0|2,2|2,0|0,1|0,2|0,0|2,1|\
     0,3,|1,0,|0,0,|0,3,|2,0,|0,0,|0,3,|3,0,|0,3,|4,3,|0,3,|\
     0,3,|0,2,2|3,3,|0,2,|0,2,|2,2,|0,2,|0,5,|4,2,|0,2,|0,5,|1,5,|0,5,|0,2,|4,5,|\
     0,3,|0,4,2|3,2,|0,2,|0,2,|2,2,|0,2,|0,5,|4,2,|0,2,|0,5,|1,5,|0,5,|0,2,|4,5,|\
     0,3,|0,2,|3,4,|0,3,|0,3,|3,2,|0,3,|2,3,|0,3,|",
    "ACCEPT",
);

pub const PAIRS: &[Known] = &[
    // The pairs that document 01 lists.
    pair(P, split_of_p!("C,2,1,3,2", "0,1,1"), "ACCEPT"),
    pair(P, split_of_p!("C,2,1,3,2", "0,1,0"), "REFUSE,32,8,4,0"),
    pair(P, split_of_p!("C,3,1,3,2", "0,1,1"), "REFUSE,33,15,5,0"),
    pair(P, split_of_p!("C,1,1,3,2", "0,1,1"), "REFUSE,30,2,0,0"),
    program(ONE, "ACCEPT"),
    program("P,1|int,65535|", "ACCEPT"),
    program("P,1|int,65536|", "REFUSE,12,2,0,0"),
    program("P,1|var,0|", "REFUSE,14,2,0,0"),
    program("P,1|", "REFUSE,13,1,0,0"),
    program("P,2|let,0|int,0|", "REFUSE,13,3,0,0"),
    program("P,2|int,0|int,0|", "REFUSE,13,3,0,0"),
    pair("P,3|let,255|int,0|var,255|", Z3, "ACCEPT"),
    pair("P,3|let,256|int,0|int,0|", Z3, "REFUSE,12,2,0,0"),
    // The paper's other examples.
    RACY,
    GUARDED,
    TWO_LOCKS,
    LOOP,
    // Missing and spare lines. A spare line is met before the tree is looked at.
    program("P,2|int,0|", "REFUSE,13,2,0,0"),
    program("P,1|int,0|x", "REFUSE,13,3,0,0"),
    program("P,1|int,0||", "REFUSE,13,3,0,0"),
    program("P,1|let,0|int,0|int,0|", "REFUSE,13,3,0,0"),
    program("P,0|", "REFUSE,12,1,0,0"),
    program("P,256|", "REFUSE,13,1,0,0"),
    program("P,257|", "REFUSE,12,1,0,0"),
    program("P,2|int,65536|bad|", "REFUSE,12,2,0,0"),
    // The form of line 1.
    program("", "REFUSE,11,1,0,0"),
    program("|", "REFUSE,11,1,0,0"),
    program("P,1", "REFUSE,11,1,0,0"),
    program("Q,1|", "REFUSE,11,1,0,0"),
    program("P,01|", "REFUSE,11,1,0,0"),
    program("P,1,|", "REFUSE,11,1,0,0"),
    program("P, 1|", "REFUSE,11,1,0,0"),
    // The form of a step's line.
    program("P,1|int,0", "REFUSE,11,2,0,0"),
    program("P,1|int|", "REFUSE,11,2,0,0"),
    program("P,1|int,|", "REFUSE,11,2,0,0"),
    program("P,1|int,00|", "REFUSE,11,2,0,0"),
    program("P,1|int,0,|", "REFUSE,11,2,0,0"),
    program("P,1|Int,0|", "REFUSE,11,2,0,0"),
    program("P,1|in,0|", "REFUSE,11,2,0,0"),
    program("P,1|int,0\r|", "REFUSE,11,2,0,0"),
    program("P,1|newtid,1|", "REFUSE,12,2,0,0"),
    // Scopes.
    program("P,3|let,0|var,0|int,0|", "REFUSE,14,3,0,0"),
    program("P,5|if,0|let,0|int,0|int,0|var,0|", "REFUSE,14,6,0,0"),
    program("P,5|let,0|int,0|let,0|int,0|int,0|", "REFUSE,15,4,0,0"),
    program("P,5|let,0|let,0|int,0|int,0|int,0|", "REFUSE,15,3,0,0"),
    program("P,5|let,1|var,7|let,1|int,0|int,0|", "REFUSE,14,3,0,0"),
    // The head of the split.
    split("", "REFUSE,21,1,0,0"),
    split("C,1,1,1|", "REFUSE,21,1,0,0"),
    split("C,0,1,1,1|", "REFUSE,22,1,0,0"),
    split("C,1,17,1,1|", "REFUSE,22,1,0,0"),
    split("C,1,1,65,1|", "REFUSE,22,1,0,0"),
    split("C,1,1,1,513|", "REFUSE,22,1,0,0"),
    split("C,1,1,1,1|", "REFUSE,23,1,0,0"),
    // Types.
    split("C,1,1,1,1|int,1,0|", "REFUSE,22,2,0,0"),
    split("C,1,1,1,1|int,0|", "REFUSE,21,2,0,0"),
    split("C,1,1,1,1|bool,9,0|", "REFUSE,21,2,0,0"),
    split("C,1,1,1,1|ref,0,0|", "REFUSE,22,2,0,0"),
    split("C,1,1,1,1|lock,1,0|", "REFUSE,22,2,0,0"),
    split("C,1,1,1,1|tid,0,1|", "REFUSE,22,2,0,0"),
    // Maps.
    split("C,1,1,1,1|int,0,0|0,0|", "REFUSE,21,3,0,0"),
    split("C,1,2,1,1|int,0,0|1000000001|", "REFUSE,21,3,0,0"),
    // Steps.
    split("C,1,1,1,1|int,0,0|0|0,0|", "REFUSE,21,4,0,0"),
    split("C,1,1,1,1|int,0,0|0|1,0,|", "REFUSE,22,4,0,0"),
    split("C,1,1,1,1|int,0,0|0|0,1,|", "REFUSE,22,4,0,0"),
    split("C,1,1,1,1|int,0,0|0|0,0,0|", "REFUSE,22,4,0,0"),
    split("C,1,1,1,1|int,0,0|0|1,0,x|", "REFUSE,21,4,0,0"),
    split("C,1,1,1,1|int,0,0|0|", "REFUSE,23,3,0,0"),
    split("C,1,1,1,1|int,0,0|0|0,0,||", "REFUSE,23,5,0,0"),
    // Two maps that hold the same are equal.
    split("C,1,1,1,2|int,0,0|1|1|0,1,|", "ACCEPT"),
    // The lowest failing location, for map 0 and for a flow.
    split("C,1,3,1,1|int,0,0|1,2,3|0,0,|", "REFUSE,30,2,0,1"),
    split("C,1,3,1,2|int,0,0|1,1,1|1,0,2|0,1,|", "REFUSE,32,2,2,1"),
];
