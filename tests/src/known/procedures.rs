//! Pairs and sheets with procedures, request (xiv): each new refusal and condition, and readings of its text.

use super::{pair, program, Known, Z};

/// A procedure that gives its x back, and a call of it.
const SAME: &str = "P2,3,1|proc,0|var,0|call,0|int,5|";
/// A procedure that gives a constant, and a call of it.
const CONSTANT: &str = "P2,3,1|proc,0|int,0|call,0|int,5|";
/// A procedure that nobody calls.
const UNCALLED: &str = "P2,2,1|proc,0|int,0|int,1|";
/// A procedure that gives its lock back, and a call of it with a new one.
const SAME_LOCK: &str = "P2,3,1|proc,0|var,0|call,0|newlock,0|";

pub const PAIRS: &[Known] = &[
    // The order of `proc` lines and steps is one walk from the top.
    program("P2,1,1|int,0|int,0|", "REFUSE,13,2,0,0"),
    program("P2,1,1|proc,0|proc,1|", "REFUSE,13,3,0,0"),
    program("P2,1,1|proc,0|int,0|", "REFUSE,13,3,0,0"),
    program("P2,3,1|proc,0|int,0|int,0|int,0|", "REFUSE,13,5,0,0"),
    program("P2,2,2|proc,0|ref,0|ref,0|int,0|", "REFUSE,13,5,0,0"),
    program("P2,2,1|proc,0|ref,0|proc,1|", "REFUSE,13,4,0,0"),
    program("P2,3,0|let,0|int,0|proc,0|", "REFUSE,13,4,0,0"),
    program("P2,1,2|proc,0|int,0|int,0|", "REFUSE,13,4,0,0"),
    // A line that is missing or spare comes before that walk.
    program("P2,1,1|int,0|", "REFUSE,13,2,0,0"),
    program("P2,1,0|int,0|proc,0|", "REFUSE,13,3,0,0"),
    // The head and the two words.
    program("P2,1,0|int,0|", "ACCEPT"),
    program("P2,1|int,0|", "REFUSE,11,1,0,0"),
    program("P2,1,0,0|int,0|", "REFUSE,11,1,0,0"),
    program("P2,1,17|int,0|", "REFUSE,12,1,0,0"),
    program("P2,0,1|proc,0|", "REFUSE,12,1,0,0"),
    program("P2,1,4294967296|int,0|", "REFUSE,12,1,0,0"),
    program("P,2|call,0|int,0|", "REFUSE,11,2,0,0"),
    program("P,2|proc,0|int,0|", "REFUSE,11,2,0,0"),
    program("P2,2,1|proc,256|int,0|int,0|", "REFUSE,12,2,0,0"),
    program("P2,2,0|call,16|int,0|", "REFUSE,12,2,0,0"),
    // Variables and calls are one walk in line order.
    program("P2,2,0|call,0|int,0|", "REFUSE,49,2,0,0"),
    program("P2,3,1|proc,0|int,0|call,1|int,0|", "REFUSE,49,4,0,0"),
    program("P2,2,0|call,15|var,0|", "REFUSE,49,2,0,0"),
    program("P2,4,0|if,0|var,3|call,0|int,0|", "REFUSE,14,3,0,0"),
    program("P2,2,1|proc,0|int,0|var,0|", "REFUSE,14,4,0,0"),
    program("P2,3,2|proc,0|int,0|proc,1|var,0|int,0|", "REFUSE,14,5,0,0"),
    program("P2,4,1|proc,0|int,0|let,0|int,0|int,0|", "REFUSE,15,4,0,0"),
    program("P2,5,2|proc,0|let,1|int,0|int,0|proc,1|int,0|int,0|", "REFUSE,15,6,0,0"),
    program("P2,3,2|proc,7|int,0|proc,7|int,0|int,0|", "REFUSE,15,4,0,0"),
    program("P2,2,1|freelock,0|int,0|int,0|", "REFUSE,45,2,0,0"),
    // Lines of procedures in the split.
    pair(SAME, "C,1,1,1,1|int,0,0|0|0,0,0,0|0,0,|0,0,0|0,0,|", "ACCEPT"),
    pair(SAME, "C,1,1,1,1|int,0,0|0|0,0,0|0,0,|0,0,0|0,0,|", "REFUSE,21,4,0,0"),
    pair(SAME, "C,1,1,1,1|int,0,0|0|0,1,0,0|0,0,|0,0,0|0,0,|", "REFUSE,22,4,0,0"),
    pair(SAME, "C,1,1,1,1|int,0,0|0|0,0,1,0|0,0,|0,0,0|0,0,|", "REFUSE,22,4,0,0"),
    pair(SAME, "C,1,1,1,1|int,0,0|0|", "REFUSE,23,3,0,0"),
    pair(SAME, "C,1,1,1,1|int,0,0|0|0,0,0,0|0,0,|0,0,|0,0,|", "REFUSE,50,6,0,0"),
    pair(SAME, "C2,1,1,1,1,0|int,0,0|0|0,0,0,0|0,0,|0,0,|0,0,|", "REFUSE,50,6,0,0"),
    pair(SAME, "C,1,1,1,1|int,0,0|0|0,0,0,0|0,0,|0,9,|0,0,|", "REFUSE,22,6,0,0"),
    pair(SAME, "C,1,1,1,1|int,0,0|0|0,0,0,0|0,0,|0,0,1|0,0,|", "REFUSE,22,6,0,0"),
    pair(SAME, "C,1,1,1,1|int,0,0|0|0,0,0,0|0,0,0|0,0,|0,0,|", "REFUSE,22,5,0,0"),
    // The start is refused at the root's own line, before the procedures.
    pair(SAME, "C,1,1,1,1|int,0,0|2|0,0,0,0|0,0,|0,0,0|0,0,|", "REFUSE,30,4,0,0"),
    pair(UNCALLED, "C,1,1,2,1|int,0,0|tid,0,0|2|0,0,0,0|1,0,|0,0,|", "REFUSE,30,4,0,0"),
    // The conditions of a `proc` line, also where nobody calls.
    pair(UNCALLED, "C,1,1,2,1|int,0,0|tid,0,0|0|0,0,0,0|1,0,|0,0,|", "REFUSE,31,2,1,0"),
    pair(SAME, "C,1,1,2,1|int,0,0|tid,0,0|0|0,0,0,1|0,0,|1,0,0|0,0,|", "REFUSE,31,2,1,0"),
    pair(SAME, "C,1,1,1,2|int,0,0|1|0|1,0,0,0|0,1,|0,0,0|0,0,|", "REFUSE,32,2,2,0"),
    // A body starts with its own map, and may end with more than it says.
    pair(UNCALLED, "C,1,1,1,2|int,0,0|1|0|0,0,1,0|0,0,|0,0,|", "ACCEPT"),
    pair(UNCALLED, "C,1,1,1,2|int,0,0|1|0|1,0,1,0|0,0,|0,0,|", "REFUSE,32,3,2,0"),
    // The conditions of a call: what is kept back comes again.
    pair(SAME, "C,1,1,1,2|int,0,0|1|0|1,0,1,0|0,1,|0,0,0|0,0,|", "ACCEPT"),
    pair(SAME, "C,1,1,1,2|int,0,0|1|0|1,0,1,0|0,1,|0,0,1|0,0,|", "REFUSE,32,4,3,0"),
    pair(SAME, "C,1,1,1,2|int,0,0|1|0|1,0,1,0|0,1,|0,1,0|0,0,|", "REFUSE,32,4,4,0"),
    pair(SAME, "C,1,1,2,1|int,0,0|tid,0,0|0|0,0,0,0|0,0,|1,0,0|0,0,|", "REFUSE,31,4,1,0"),
    pair(CONSTANT, "C,1,1,2,1|int,0,0|tid,0,0|0|0,1,0,0|0,0,|0,0,0|0,0,|", "REFUSE,31,4,2,0"),
    pair(SAME, "C,1,1,2,1|int,0,0|tid,0,0|0|0,1,0,0|0,0,|0,0,0|0,0,|", "REFUSE,31,3,1,0"),
    // An x may be shown as a looser lock; arguments and results agree.
    pair(SAME_LOCK, "C3,1,1,3,2,0|int,0,0|lock,0,0|lock,1,0|1|0|1,1,1,2|2,1,|2,1,1|1,1,|", "ACCEPT"),
    pair(SAME_LOCK, "C3,1,1,3,2,0|int,0,0|lock,0,0|lock,1,0|1|0|1,1,1,2|2,1,|1,1,1|1,1,|", "REFUSE,31,4,1,0"),
    pair(SAME_LOCK, "C3,1,1,3,2,0|int,0,0|lock,0,0|lock,1,0|1|0|1,1,1,2|2,1,|2,1,1|2,1,|", "REFUSE,31,4,2,0"),
    // A procedure that calls itself for ever may promise anything.
    pair("P2,4,1|proc,0|call,0|var,0|call,0|int,0|", "C,1,1,1,2|int,0,0|0|1|0,0,1,0|0,1,0|0,0,|0,1,0|0,0,|", "ACCEPT"),
];

pub const SHEETS: &[Known] = &[
    pair(SAME, "C2,1,1,1,1,0|int,0,0|0|0,0,0,0|0,,|0,,0|0,,|", "C2,1,1,1,4,0|int,0,0|0|0|0|0|0,0,0,0|0,1,|0,2,0|0,3,|"),
    pair(
        SAME,
        "C2,1,1,1,2,0|int,0,0|1|0|1,0,1,0|0,,|0,,0|0,,|",
        "C2,1,1,1,5,0|int,0,0|1|0|0|1|1|1,0,1,0|0,2,|0,3,0|0,4,|",
    ),
    pair(SAME, "C2,1,1,1,2,0|int,0,0|1|0|1,0,1,0|0,,|0,,1|0,,|", "REFUSE,41,0,0,0"),
    pair(SAME, "C2,1,1,1,2,0|int,0,0|1|0|1,0,0,0|0,,|0,,0|0,,|", "REFUSE,41,0,0,0"),
    pair(SAME, "C2,1,1,1,2,0|int,0,0|1|0|1,0,1,0|0,,|0,,|0,,|", "REFUSE,50,7,0,0"),
    pair(SAME, "C2,1,1,1,1,0|int,0,0|2|0,0,0,0|0,,|0,,0|0,,|", "REFUSE,30,4,0,0"),
    // Conditions on types are judged whatever flow is false before them.
    pair(SAME, "C2,1,1,2,2,0|int,0,0|tid,0,0|1|0|1,0,0,0|0,,|1,,0|0,,|", "REFUSE,31,4,1,0"),
    pair(UNCALLED, "C2,1,1,2,1,0|int,0,0|tid,0,0|0|0,0,0,1|0,,|0,,|", "REFUSE,31,2,1,0"),
    pair("P2,1,0|int,0|", "C2,1,1,1,1,0|int,0,0|0|0,,|", "C2,1,1,1,2,0|int,0,0|0|0|0,1,|"),
    pair("P2,2,0|call,0|int,0|", Z, "REFUSE,49,2,0,0"),
];
