//! Sheets for filling, request (viii), with what is written or the refusal.

use super::{pair, Known, IDLE, ONE, P};

/// Document 01's S with its maps afterwards taken out, with another head, tid line or spawn line.
macro_rules! unfilled_p {
    ($head:literal, $tid:literal, $spawn:literal) => {
        concat!(
            $head,
            "|int,0,0|ref,0,0|",
            $tid,
            "|2|1|0,,|1,,|0,,|0,,|2,,|0,,|",
            $spawn,
            "|2,,|0,,|1,,|0,,|0,,|2,,|0,,|1,,|0,,|"
        )
    };
}

/// A row beside the smallest program.
macro_rules! row {
    ($row:literal) => {
        concat!("C2,1,1,1,1,0|int,0,0|1|", $row)
    };
}

/// Types int, tid, sem and lock, each with the one map of the given number; the start holds the first number.
macro_rules! loads {
    ($start:literal, $load:literal, $rows:literal) => {
        concat!("C2,1000000000,1,4,2,0|int,0,0|tid,1,0|sem,1,0|lock,1,0|", $start, "|", $load, "|", $rows)
    };
}

const JOIN: &str = "P,2|join,0|newtid,0|";
const POST: &str = "P,2|post,0|newsem,0|";
/// One more of the load, then one less, then nothing.
const UP_AND_DOWN: &str = "P,7|let,0|join,0|newtid,0|let,1|post,0|newsem,0|int,0|";
/// One more of the load, then two less.
const UP_AND_DOWN_TWICE: &str = "P,8|let,0|join,0|newtid,0|let,1|post,0|newsem,0|post,0|newsem,0|";

/// A lock is made, taken and given back.
const TAKEN: &str = "P,7|let,0|newlock,0|let,1|lock,0|var,0|unlock,0|var,0|";

pub const SHEETS: &[Known] = &[
    pair(ONE, row!("0,,|"), "C2,1,1,1,2,0|int,0,0|1|1|0,1,|"),
    // Document 01's P: the maps are those of S, save that each step has its own.
    pair(
        P,
        unfilled_p!("C2,2,1,3,2,0", "tid,1,0", "0,,1"),
        "C2,2,1,3,18,0|int,0,0|ref,0,0|tid,1,0|2|1|2|2|2|2|2|2|1|2|1|1|2|2|1|2|2|2|0,2,|1,3,|0,4,|0,5,|2,6,|0,7,|0,8,1|\
         2,9,|0,10,|1,11,|0,12,|0,13,|2,14,|0,15,|1,16,|0,17,|",
    ),
    // The read has nothing, or what the body leaves is less than the identifier carries.
    pair(P, unfilled_p!("C2,2,1,3,2,0", "tid,1,0", "0,,"), "REFUSE,41,0,0,0"),
    pair(P, unfilled_p!("C2,2,1,3,2,0", "tid,0,0", "0,,1"), "REFUSE,41,0,0,0"),
    pair(P, unfilled_p!("C2,3,1,3,2,0", "tid,1,0", "0,,1"), "REFUSE,41,0,0,0"),
    pair(P, unfilled_p!("C2,1,1,3,2,0", "tid,1,0", "0,,1"), "REFUSE,30,2,0,0"),
    pair(P, unfilled_p!("C2,2,1,3,2,0", "lock,1,0", "0,,1"), "REFUSE,31,6,1,0"),
    // An empty start stays empty, and means nothing.
    pair(
        IDLE,
        "C2,2,1,2,2,0|int,0,0|tid,1,0|2|0|0,,|1,,|0,,|",
        "C2,2,1,2,5,0|int,0,0|tid,1,0|2|0|2|2|0|0,2,|1,3,|0,4,|",
    ),
    // An if has the lesser of its parts at each location; a while what each round leaves, or what was before.
    pair(
        "P,9|if,0|join,0|newtid,0|if,0|while,0|join,0|newtid,0|post,0|newsem,0|",
        "C2,2,2,3,3,0|int,0,0|tid,1,0|sem,2,0|2,2|1,0|0,1|0,,|0,,|1,,|0,,|0,,|0,,|1,,|0,,|2,,|",
        "C2,2,2,3,12,0|int,0,0|tid,1,0|sem,2,0|2,2|1,0|0,1|2,1|3,2|2,2|2,1|2,2|3,2|2,2|2,1|2,2|\
         0,3,|0,4,|1,5,|0,6,|0,7,|0,8,|1,9,|0,10,|2,11,|",
    ),
    // A round that leaves less each time leaves no maps at all.
    pair("P,3|while,0|post,0|newsem,0|", "C2,2,1,2,2,0|int,0,0|sem,1,0|2|1|0,,|0,,|1,,|", "REFUSE,41,0,0,0"),
    // The heading, and a map afterwards that is not empty.
    pair(ONE, "C,1,1,1,1|int,0,0|1|0,,|", "REFUSE,21,1,0,0"),
    pair(ONE, "C,0,1,1,1|", "REFUSE,21,1,0,0"),
    pair(ONE, "C2,1,1,1,1|int,0,0|1|0,,|", "REFUSE,21,1,0,0"),
    pair(ONE, row!("0,0,x|"), "REFUSE,21,4,0,0"),
    pair(ONE, row!("0,0,|"), "REFUSE,22,4,0,0"),
    pair(ONE, row!("0,00,|"), "REFUSE,21,4,0,0"),
    pair(ONE, row!("0,9999999999,|"), "REFUSE,22,4,0,0"),
    pair(ONE, row!("0,10000000000,|"), "REFUSE,21,4,0,0"),
    pair(ONE, row!("0,x,|"), "REFUSE,21,4,0,0"),
    pair(ONE, row!("0, ,|"), "REFUSE,21,4,0,0"),
    pair(ONE, row!("0,|"), "REFUSE,21,4,0,0"),
    pair(ONE, row!("0,,"), "REFUSE,21,4,0,0"),
    pair(ONE, row!(",,|"), "REFUSE,21,4,0,0"),
    pair(ONE, row!("1,,|"), "REFUSE,22,4,0,0"),
    pair(ONE, row!("1,,x|"), "REFUSE,21,4,0,0"),
    pair(ONE, row!("0,,0|"), "REFUSE,22,4,0,0"),
    pair(ONE, row!("0,,,|"), "REFUSE,21,4,0,0"),
    pair(ONE, row!(""), "REFUSE,23,3,0,0"),
    pair(ONE, row!("0,,||"), "REFUSE,23,5,0,0"),
    pair("P,1|var,0|", row!("0,,|"), "REFUSE,14,2,0,0"),
    pair("P,2|freelock,0|newlock,0|", row!("0,,|"), "REFUSE,45,2,0,0"),
    // More than 512 maps, which is judged on line 1; the head alone has no lines to fill.
    pair(ONE, "C2,1,1,1,513,0|", "REFUSE,22,1,0,0"),
    pair(ONE, "C2,1,1,1,257,0|", "REFUSE,23,1,0,0"),
    // 31 is the first false condition on types, whatever is false of maps before it.
    pair("P,3|if,0|newlock,0|int,0|", loads!("0", "1", "3,,|3,,|0,,|"), "REFUSE,31,2,2,0"),
    pair("P,3|let,0|newlock,0|newlock,0|", loads!("0", "1", "3,,|3,,|0,,|"), "REFUSE,31,2,1,0"),
    pair("P,3|let,0|newlock,0|newlock,0|", loads!("0", "1", "0,,|3,,|0,,|"), "REFUSE,31,4,1,0"),
    pair("P,1|newlock,0|", loads!("0", "1", "3,,|"), "REFUSE,41,0,0,0"),
    // 42 looks at the greatest maps, at each step of the way.
    pair(
        JOIN,
        loads!("0", "1000000000", "0,,|1,,|"),
        "C2,1000000000,1,4,4,0|int,0,0|tid,1,0|sem,1,0|lock,1,0|0|1000000000|1000000000|0|0,2,|1,3,|",
    ),
    pair(JOIN, loads!("1", "1000000000", "0,,|1,,|"), "REFUSE,42,0,0,0"),
    pair(POST, loads!("1", "1000000000", "0,,|2,,|"), "REFUSE,41,0,0,0"),
    pair(UP_AND_DOWN, loads!("1", "1000000000", "0,,|0,,|1,,|0,,|0,,|2,,|0,,|"), "REFUSE,42,0,0,0"),
    pair(UP_AND_DOWN_TWICE, loads!("999999999", "1000000000", "0,,|0,,|1,,|0,,|0,,|2,,|0,,|2,,|"), "REFUSE,41,0,0,0"),
    pair(UP_AND_DOWN_TWICE, loads!("1000000000", "1000000000", "0,,|0,,|1,,|0,,|0,,|2,,|0,,|2,,|"), "REFUSE,42,0,0,0"),
    // A C3 sheet, request (ix): newlock and unlock use out, lock uses in. A looser type is shown on a var line alone.
    pair(
        TAKEN,
        "C3,3,1,2,4,0|int,0,0|lock,1,2|3|1|2|0|0,,|1,,|0,,|0,,|1,,|0,,|1,,|",
        "C3,3,1,2,11,0|int,0,0|lock,1,2|3|1|2|0|0|1|0|2|1|0|2|0,4,|1,5,|0,6,|0,7,|1,8,|0,9,|1,10,|",
    ),
    pair(TAKEN, "C3,3,1,2,4,1|int,0,0|lock,1,2|3|1|2|0|0,,|1,,|0,,|0,,|1,,|0,,|1,,|", "REFUSE,41,0,0,0"),
    pair(
        TAKEN,
        "C3,3,1,3,3,0|int,0,0|lock,1,1|lock,2,1|3|1|0|0,,|1,,|0,,|0,,|1,,|0,,|1,,|",
        "C3,3,1,3,10,0|int,0,0|lock,1,1|lock,2,1|3|1|0|2|2|2|3|2|2|3|0,3,|1,4,|0,5,|0,6,|1,7,|0,8,|1,9,|",
    ),
    pair(
        TAKEN,
        "C3,3,1,3,3,0|int,0,0|lock,1,1|lock,2,1|3|1|0|0,,|1,,|0,,|0,,|2,,|0,,|1,,|",
        "C3,3,1,3,10,0|int,0,0|lock,1,1|lock,2,1|3|1|0|1|2|1|2|2|1|2|0,3,|1,4,|0,5,|0,6,|2,7,|0,8,|1,9,|",
    ),
    pair(TAKEN, "C3,3,1,3,3,0|int,0,0|lock,2,1|lock,1,1|3|1|0|0,,|1,,|0,,|0,,|2,,|0,,|1,,|", "REFUSE,31,6,1,0"),
    pair(ONE, "C3,1,1,2,3,0|int,0,0|lock,1,2|2|1|0|0,,|", "REFUSE,44,3,0,0"),
    pair(ONE, "C3,1,1,1,1,0|int,0,0|1|0,,|", "C3,1,1,1,2,0|int,0,0|1|1|0,1,|"),
    pair(ONE, "C2,1,1,2,1,0|int,0,0|lock,0,1|1|0,,|", "REFUSE,22,3,0,0"),
    // Read-write locks, request (xi). A false N x r <= w leaves no maps.
    pair("P,1|newrwlock,2|", "C2,2,1,1,2,0|rwlock,1,0|2|1|0,,|", "C2,2,1,1,3,0|rwlock,1,0|2|1|0|0,2,|"),
    pair("P,1|newrwlock,3|", "C2,2,1,1,2,0|rwlock,1,0|2|1|0,,|", "REFUSE,41,0,0,0"),
    pair("P,1|newrwlock,2|", "C2,2,1,1,2,1|rwlock,1,0|2|1|0,,|", "REFUSE,41,0,0,0"),
    pair("P,1|newrwlock,64|", "C2,1000000000,1,1,2,1|rwlock,0,1|67108864|0|0,,|", "REFUSE,41,0,0,0"),
    pair(
        "P,10|let,0|newrwlock,2|let,1|rdlock,0|var,0|let,2|rdunlock,0|var,0|wrlock,0|var,0|",
        "C2,2,1,2,2,0|int,0,0|rwlock,1,0|2|1|0,,|1,,|0,,|0,,|1,,|0,,|0,,|1,,|0,,|1,,|",
        "C2,2,1,2,12,0|int,0,0|rwlock,1,0|2|1|2|0|2|1|0|2|0|1|2|0|0,2,|1,3,|0,4,|0,5,|1,6,|0,7,|0,8,|1,9,|0,10,|1,11,|",
    ),
    pair("P,2|wrunlock,0|newrwlock,1|", "C2,2,1,2,2,0|int,0,0|rwlock,1,1|2|1|0,,|1,,|", "C2,2,1,2,4,0|int,0,0|rwlock,1,1|2|1|0|1|0,2,|1,3,|"),
    pair("P,2|wrunlock,0|newrwlock,1|", "C2,2,1,2,2,0|int,0,0|rwlock,1,0|2|1|0,,|1,,|", "REFUSE,41,0,0,0"),
    pair("P,2|rdlock,0|newlock,0|", "C2,2,1,2,2,0|int,0,0|lock,1,0|2|1|0,,|1,,|", "REFUSE,31,2,2,0"),
    // Smaller maps would fit: the if might keep less than both of its parts leave.
    pair("P,4|if,0|join,0|newtid,0|int,0|", loads!("1", "1000000000", "0,,|0,,|1,,|0,,|"), "REFUSE,42,0,0,0"),
];
