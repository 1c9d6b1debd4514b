//! Pairs for the requests (i) to (vii) of document 02, in their order.

use super::{pair, program, split, Known, IDLE, P, SAME_LOCK};

/// Document 01's S with types and maps written anew for each use, the last row's first.
const P_AFRESH: &str = "C,2,1,20,20|int,0,0|int,0,0|ref,0,1|int,0,0|tid,3,0|int,0,0|int,0,0|int,0,0|ref,0,7|int,0,0|\
                        tid,8,0|int,0,0|int,0,0|tid,12,0|int,0,0|int,0,0|int,0,0|ref,0,16|int,0,0|int,0,0|\
                        2|2|2|1|2|1|2|2|1|1|1|2|1|1|2|2|2|2|2|2|\
                        18,19,|17,18,|19,17,|15,16,|13,15,|14,14,|12,13,3|10,11,|11,10,|8,9,|9,7,|6,6,|4,5,|5,4,|2,2,|0,1,|";

/// A cell, and a semaphore, under one number where they are made and under another where they are used.
const SAME_CELL: &str = "P,4|let,0|ref,0|int,0|var,0|";
const SAME_SEM: &str = "P,3|let,0|newsem,0|var,0|";

/// Document 01's S with its two maps the other way round.
macro_rules! split_from_map_1 {
    ($spawn:literal) => {
        concat!(
            "C2,2,1,3,2,1|int,0,0|ref,0,0|tid,0,0|1|2|0,1,|1,1,|0,1,|0,1,|2,1,|0,1,|",
            $spawn,
            "|2,1,|0,0,|1,0,|0,1,|0,1,|2,0,|0,1,|1,1,|0,1,|"
        )
    };
}

/// Types int, sem and lock, the last two with one half; maps of 2, 1, 0 and 3 halves.
macro_rules! halves {
    ($rows:literal) => {
        concat!("C,2,1,3,4|int,0,0|sem,1,0|lock,1,0|2|1|0|3|", $rows)
    };
}

/// A cell and a semaphore. A thread waits before it writes; then the rest of the first thread.
macro_rules! waited_for {
    ($steps:literal, $rest:literal, $rows:literal, $answer:literal) => {
        pair(
            concat!(
                "P,",
                $steps,
                "|let,0|ref,0|int,0|let,1|newsem,0|let,2|spawn,0|newtid,0|let,3|wait,0|var,1|write,0|var,0|int,1|let,4|",
                $rest
            ),
            concat!(
                "C,1,1,4,2|int,0,0|ref,0,0|sem,0,0|tid,1,0|1|0|0,1,|1,0,|0,0,|0,1,|2,0,|0,1,|0,0,1|3,0,|0,0,|0,0,|2,1,|\
                 0,0,|1,0,|0,0,|0,1,|",
                $rows
            ),
            $answer,
        )
    };
}

/// The first thread writes and then posts.
const SIGNALLED: Known = waited_for!("20", "write,0|var,0|int,2|post,0|var,1|", "0,0,|1,0,|0,0,|0,1,|2,0,|", "ACCEPT");

/// It posts and then writes.
const SIGNALLED_EARLY: Known =
    waited_for!("20", "post,0|var,1|write,0|var,0|int,2|", "0,1,|2,0,|0,1,|1,1,|0,1,|", "REFUSE,33,19,5,0");

/// Figure 7: two threads wait, and the second post has nothing left to give.
const TWO_POSTS: Known = waited_for!(
    "28",
    "spawn,0|newtid,0|let,5|wait,0|var,1|write,0|var,0|int,1|let,6|post,0|var,1|post,0|var,1|",
    "0,0,1|3,0,|0,0,|0,0,|2,1,|0,0,|1,0,|0,0,|0,1,|0,1,|2,0,|0,1,|2,1,|",
    "REFUSE,32,28,3,0"
);

pub const PAIRS: &[Known] = &[
    // Types agree by structure, request (i): any two ints, maps by their numbers, refs by location and content.
    split("C,1,1,2,1|int,0,0|int,0,0|0|1,0,|", "ACCEPT"),
    pair("P,3|let,0|int,0|var,0|", "C,1,1,2,1|int,0,0|int,0,0|0|1,0,|0,0,|1,0,|", "ACCEPT"),
    pair(P, P_AFRESH, "ACCEPT"),
    pair(SAME_LOCK, "C,1,2,2,4|lock,1,0|lock,2,0|1,1|0,1|0,1|1,0|1,3,|0,3,|1,3,|", "ACCEPT"),
    pair(SAME_LOCK, "C,1,2,2,4|lock,1,0|lock,2,0|1,1|0,1|0,0|1,0|1,3,|0,3,|1,3,|", "REFUSE,31,4,1,0"),
    pair(SAME_LOCK, "C,1,1,2,2|lock,1,0|tid,1,0|1|0|1,0,|0,0,|1,0,|", "REFUSE,31,4,1,0"),
    pair(SAME_CELL, "C,1,2,4,1|int,0,0|ref,1,0|int,0,0|ref,1,2|1,1|3,0,|1,0,|0,0,|3,0,|", "ACCEPT"),
    pair(SAME_CELL, "C,1,2,4,1|int,0,0|ref,1,0|int,0,0|ref,0,2|1,1|3,0,|1,0,|0,0,|3,0,|", "REFUSE,31,5,1,0"),
    pair(SAME_CELL, "C,1,2,4,1|int,0,0|ref,1,0|tid,0,0|ref,1,2|1,1|3,0,|1,0,|0,0,|3,0,|", "REFUSE,31,5,1,0"),
    pair(SAME_CELL, "C,1,1,3,1|int,0,0|ref,0,0|ref,0,1|1|2,0,|1,0,|0,0,|2,0,|", "REFUSE,31,5,1,0"),
    // Numerals of up to ten digits, request (iii). A number past 32 bits is out of range, never wrapped.
    program("P,4294967297|int,0|", "REFUSE,12,1,0,0"),
    program("P,10000000000|int,0|", "REFUSE,11,1,0,0"),
    program("P,1|int,9999999999|", "REFUSE,12,2,0,0"),
    program("P,1|int,4294967296|", "REFUSE,12,2,0,0"),
    program("P,1|int,10000000000|", "REFUSE,11,2,0,0"),
    program("P,1|var,1000000000|", "REFUSE,12,2,0,0"),
    split("C,1000000000,1,1,1|int,0,0|1000000000|0,0,|", "ACCEPT"),
    split("C,999999999,1,1,1|int,0,0|1000000000|0,0,|", "REFUSE,30,2,0,0"),
    split("C,1000000001,1,1,1|", "REFUSE,22,1,0,0"),
    split("C,4294967297,1,1,1|int,0,0|0|0,0,|", "REFUSE,22,1,0,0"),
    split("C,10000000000,1,1,1|int,0,0|0|0,0,|", "REFUSE,21,1,0,0"),
    split("C,1,1,4294967297,1|int,0,0|0|0,0,|", "REFUSE,22,1,0,0"),
    split("C,1,1,1,1|int,4294967296,0|0|0,0,|", "REFUSE,22,2,0,0"),
    split("C,1,1,1,1|int,0,0|1000000001|", "REFUSE,22,3,0,0"),
    split("C,1,1,1,1|int,0,0|4294967296|0,0,|", "REFUSE,22,3,0,0"),
    split("C,1,1,1,1|int,0,0|00|0,0,|", "REFUSE,21,3,0,0"),
    split("C,1,1,1,1|int,0,0|0|4294967296,0,|", "REFUSE,22,4,0,0"),
    split("C,1,1,1,1|int,0,0|0|0,0,4294967296|", "REFUSE,22,4,0,0"),
    split("C,1,1,1,1|int,0,0|0|0,0,10000000000|", "REFUSE,21,4,0,0"),
    pair("P,1|newlock,0|", "C,1,1,1,2|lock,1,0|0|1000000000|0,1,|", "REFUSE,32,2,2,0"),
    // The start written out, request (iv). The form of all fields comes before the range of any.
    pair(P, split_from_map_1!("0,0,0"), "ACCEPT"),
    split("C2,1,1,1,1,0|int,0,0|0|0,0,|", "ACCEPT"),
    split("C2,1,1,1,1,1|int,0,0|0|0,0,|", "REFUSE,22,1,0,0"),
    split("C2,1,1,1,1|int,0,0|0|0,0,|", "REFUSE,21,1,0,0"),
    split("C2,1,1,1,1,|int,0,0|0|0,0,|", "REFUSE,21,1,0,0"),
    split("C2,0,1,1,1,x|", "REFUSE,21,1,0,0"),
    split("C2,1,1,1,1,0,|", "REFUSE,21,1,0,0"),
    split("C,1,1,1,1,0|int,0,0|0|0,0,|", "REFUSE,21,1,0,0"),
    split("C22,1,1,1,1,0|int,0,0|0|0,0,|", "REFUSE,21,1,0,0"),
    split("C1,1,1,1,1|int,0,0|0|0,0,|", "REFUSE,21,1,0,0"),
    split("C2,1,1,1,2,1|int,0,0|2|0|0,1,|", "ACCEPT"),
    split("C2,1,2,1,2,1|int,0,0|0,0|1,2|0,1,|", "REFUSE,30,2,0,1"),
    split("C2,1,1,1,2,1|int,0,0|1|0|0,0,|", "REFUSE,32,2,2,0"),
    // Semaphores, request (vi).
    SIGNALLED,
    SIGNALLED_EARLY,
    TWO_POSTS,
    program("P,1|newsem,1|", "REFUSE,12,2,0,0"),
    program("P,2|post,1|newsem,0|", "REFUSE,12,2,0,0"),
    program("P,1|wait,0|", "REFUSE,13,2,0,0"),
    split("C,1,1,1,1|sem,0,1|", "REFUSE,22,2,0,0"),
    split("C,1,1,1,1|sem,1,0|", "REFUSE,22,2,0,0"),
    split("C,1,1,1,1|sem,0|", "REFUSE,21,2,0,0"),
    split("C,1,1,2,1|int,0,0|sem,0,0|0|0,0,|", "ACCEPT"),
    pair("P,1|newsem,0|", halves!("0,0,|"), "REFUSE,31,2,1,0"),
    pair("P,1|newsem,0|", halves!("2,0,|"), "REFUSE,31,2,1,0"),
    pair("P,1|newsem,0|", halves!("1,1,|"), "REFUSE,32,2,2,0"),
    pair("P,1|newsem,0|", halves!("1,0,|"), "ACCEPT"),
    pair("P,2|post,0|newsem,0|", halves!("1,1,|1,0,|"), "REFUSE,31,2,1,0"),
    pair("P,2|post,0|newsem,0|", halves!("0,1,|2,0,|"), "REFUSE,31,2,2,0"),
    pair("P,2|post,0|newsem,0|", halves!("0,0,|1,0,|"), "REFUSE,32,2,3,0"),
    pair("P,2|post,0|newsem,0|", halves!("0,1,|1,0,|"), "ACCEPT"),
    pair("P,2|wait,0|newsem,0|", halves!("1,3,|1,0,|"), "REFUSE,31,2,1,0"),
    pair("P,2|wait,0|newsem,0|", halves!("0,3,|2,0,|"), "REFUSE,31,2,2,0"),
    pair("P,2|wait,0|newsem,0|", halves!("0,0,|1,0,|"), "REFUSE,32,2,3,0"),
    pair("P,2|wait,0|newsem,0|", halves!("0,3,|1,0,|"), "ACCEPT"),
    pair("P,2|lock,0|newsem,0|", halves!("0,3,|1,0,|"), "REFUSE,31,2,2,0"),
    pair("P,2|join,0|newsem,0|", halves!("0,3,|1,0,|"), "REFUSE,31,2,2,0"),
    pair(SAME_SEM, "C,1,1,2,2|sem,0,0|sem,1,0|0|0|1,0,|0,0,|1,0,|", "ACCEPT"),
    pair(SAME_SEM, "C,1,1,2,2|sem,0,0|sem,1,0|0|1|1,0,|0,0,|1,0,|", "REFUSE,31,4,1,0"),
    pair(SAME_SEM, "C,1,1,2,1|sem,0,0|tid,0,0|0|1,0,|0,0,|1,0,|", "REFUSE,31,4,1,0"),
    // A spawn with no start given, request (vii): nothing in a C2 sheet; in a C sheet 40, after 22 on its line and
    // before anything of a later line, also where map 0 would have fitted.
    pair(P, split_from_map_1!("0,0,"), "REFUSE,32,8,4,0"),
    pair(IDLE, "C,2,1,2,3|int,0,0|tid,2,0|1|2|0|0,0,|1,0,|0,9,|", "REFUSE,40,7,0,0"),
    pair(IDLE, "C,2,1,2,3|int,0,0|tid,2,0|1|2|0|0,9,|1,0,|0,9,|", "REFUSE,22,7,0,0"),
    pair(IDLE, "C,2,1,2,3|int,0,0|tid,2,0|1|2|0|0,9|", "REFUSE,21,7,0,0"),
    pair(IDLE, "C,2,1,2,3|int,0,0|tid,2,0|1|2|0|0,0,|", "REFUSE,40,7,0,0"),
    pair(IDLE, "C,1,1,2,1|int,0,0|tid,0,0|0|0,0,|1,0,|0,0,|", "REFUSE,40,5,0,0"),
    pair(IDLE, "C,1,1,2,1|int,0,0|tid,0,0|0|0,0,0|1,0,|0,0,|", "ACCEPT"),
    pair(IDLE, "C,1,1,2,1|int,0,0|tid,0,0|2|0,0,|1,0,|0,0,|", "REFUSE,40,5,0,0"),
    pair(IDLE, "C2,2,1,2,3,0|int,0,0|tid,2,0|1|2|0|0,0,|1,0,|0,2,|", "ACCEPT"),
    pair(IDLE, "C2,2,1,2,3,0|int,0,0|tid,2,0|1|2|0|0,0,|1,0,|0,0,|", "REFUSE,32,4,2,0"),
    pair(IDLE, "C2,1,1,2,1,0|int,0,0|tid,0,0|1|0,0,|1,0,|0,0,|", "REFUSE,32,4,2,0"),
];
