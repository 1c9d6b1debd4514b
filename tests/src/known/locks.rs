//! Pairs for the requests of document 02 on locks: (ix), (x) and (xi).

use super::{pair, program, split, Known, IDLE, SAME_LOCK};

/// Types int; locks of in and out 0 and 1, 1 and 1, 0 and 2, 2 and 2, 0 and 0, in halves; cells of the
/// second and the first. Maps of 2, 1 and 0 halves.
macro_rules! loads {
    ($rows:literal) => {
        concat!("C3,2,1,8,3,0|int,0,0|lock,2,1|lock,1,1|lock,2,0|lock,0,0|lock,2,2|ref,0,2|ref,0,1|2|1|0|", $rows)
    };
}
const LOCK_TWICE: &str = "P,5|let,0|newlock,0|let,1|var,0|var,1|";
const LOCK_IN_CELL: &str = "P,4|let,0|ref,0|newlock,0|var,0|";

/// Section 3.1.6 as printed would let the thread give back nothing and go on writing.
const GIVEN_BACK_AS_NOTHING: Known = pair(
    "P,23|let,0|ref,0|int,0|let,1|newlock,0|let,2|spawn,0|newtid,0|let,3|lock,0|var,1|write,0|var,0|int,1|\
     let,4|lock,0|var,1|let,5|unlock,0|var,1|write,0|var,0|int,2|",
    "C3,1,1,5,2,0|int,0,0|ref,0,0|lock,0,0|lock,1,1|tid,1,0|1|0|0,0,|1,0,|0,0,|0,0,|2,1,|0,0,|0,1,1|4,1,|0,0,|0,0,|2,1,|\
     0,0,|1,0,|0,0,|0,0,|0,0,|2,1,|0,0,|0,0,|3,0,|0,0,|1,0,|0,0,|",
    "REFUSE,31,21,1,0",
);

/// Types int; a read-write lock of 1 and 2; a lock of 1, in quarters. Maps of 4, 1, 2, 0 and 3 quarters.
macro_rules! readers {
    ($rows:literal) => {
        concat!("C,4,1,3,5|int,0,0|rwlock,1,2|lock,1,0|4|1|2|0|3|", $rows)
    };
}
const SAME_RWLOCK: &str = "P,3|let,0|newrwlock,1|var,0|";

/// A cell under a read-write lock. A thread reads it under a reading hold; then the rest of the first thread.
macro_rules! read_by_one {
    ($rest:literal, $rows:literal, $answer:literal) => {
        pair(
            concat!(
                "P,25|let,0|ref,0|int,0|let,1|newrwlock,2|let,2|spawn,0|newtid,0|let,3|rdlock,0|var,1|let,4|read,0|var,0|\
                 rdunlock,0|var,1|let,5|",
                $rest
            ),
            concat!(
                "C,2,1,4,3|int,0,0|ref,0,0|rwlock,1,0|tid,2,0|2|1|0|0,2,|1,0,|0,0,|0,2,|2,2,|0,2,|0,2,2|3,2,|0,2,|0,1,|\
                 2,2,|0,2,|0,1,|1,1,|0,2,|2,1,|0,2,|",
                $rows
            ),
            $answer,
        )
    };
}

/// The first thread writes under a writing hold.
const READ_OR_WRITTEN: Known = read_by_one!(
    "wrlock,0|var,1|let,6|write,0|var,0|int,1|wrunlock,0|var,1|",
    "0,0,|2,2,|0,2,|0,0,|1,0,|0,0,|0,2,|2,0,|",
    "ACCEPT"
);

/// It writes under a reading hold.
const WRITTEN_BY_A_READER: Known = read_by_one!(
    "rdlock,0|var,1|let,6|write,0|var,0|int,1|rdunlock,0|var,1|",
    "0,1,|2,2,|0,2,|0,1,|1,1,|0,1,|0,2,|2,1,|",
    "REFUSE,33,22,5,0"
);

pub const PAIRS: &[Known] = &[
    // Locks that take more than they give, request (ix). In a C3 sheet the third field of a lock line is a map.
    split("C3,1,1,1,1,0|int,0,0|0|0,0,|", "ACCEPT"),
    split("C3,1,1,1,1|int,0,0|0|0,0,|", "REFUSE,21,1,0,0"),
    split("C3,1,1,1,1,1|int,0,0|0|0,0,|", "REFUSE,22,1,0,0"),
    split("C4,1,1,1,1,0|int,0,0|0|0,0,|", "REFUSE,21,1,0,0"),
    split("C32,1,1,1,1,0|int,0,0|0|0,0,|", "REFUSE,21,1,0,0"),
    split("C3,1,1,1,2,0|lock,0,2|", "REFUSE,22,2,0,0"),
    split("C3,1,1,1,2,0|tid,0,1|", "REFUSE,22,2,0,0"),
    split("C2,1,1,1,2,0|lock,0,1|", "REFUSE,22,2,0,0"),
    split("C,1,1,1,2|lock,0,1|", "REFUSE,22,2,0,0"),
    pair("P,1|newlock,0|", "C3,1,1,1,2,0|lock,1,0|1|0|0,1,|", "ACCEPT"),
    pair("P,1|newlock,0|", "C2,1,1,1,2,0|lock,1,0|1|0|0,1,|", "REFUSE,32,2,2,0"),
    pair(IDLE, "C3,1,1,2,2,0|int,0,0|tid,1,0|1|0|0,0,|1,0,|0,1,|", "ACCEPT"),
    // 44 looks at every lock line, after 23 and before 30.
    split("C3,1,1,2,2,0|int,0,0|lock,0,1|1|0|0,0,|", "REFUSE,44,3,0,0"),
    split("C3,1,1,2,2,0|int,0,0|lock,0,1|2|0|0,0,|", "REFUSE,44,3,0,0"),
    split("C3,1,1,3,2,0|int,0,0|lock,0,1|lock,0,1|1|0|1,1,|", "REFUSE,44,3,0,0"),
    split("C3,1,2,2,2,0|int,0,0|lock,0,1|1,1|2,0|0,0,|", "REFUSE,44,3,0,0"),
    split("C3,1,1,2,2,0|int,0,0|lock,0,1|1|0|0,0,||", "REFUSE,23,7,0,0"),
    split("C3,1,1,2,2,0|int,0,0|lock,0,1|1|0|", "REFUSE,23,5,0,0"),
    split("C3,1,1,2,2,0|int,0,0|lock,1,0|1|0|0,0,|", "ACCEPT"),
    // Newlock and unlock use out, lock uses in.
    pair("P,2|lock,0|newlock,0|", loads!("0,1,|1,1,|"), "ACCEPT"),
    pair("P,2|lock,0|newlock,0|", loads!("0,0,|1,1,|"), "REFUSE,32,2,3,0"),
    pair("P,2|unlock,0|newlock,0|", loads!("0,2,|1,1,|"), "ACCEPT"),
    pair("P,2|unlock,0|newlock,0|", loads!("0,1,|1,1,|"), "REFUSE,32,2,3,0"),
    pair("P,1|newlock,0|", loads!("1,0,|"), "REFUSE,32,2,2,0"),
    // A var line may show a looser lock than its own let's e1, and nothing else may.
    pair(SAME_LOCK, loads!("3,1,|2,1,|3,1,|"), "ACCEPT"),
    pair(SAME_LOCK, loads!("1,1,|2,1,|1,1,|"), "ACCEPT"),
    pair(SAME_LOCK, loads!("4,1,|2,1,|4,1,|"), "REFUSE,31,4,1,0"),
    pair(SAME_LOCK, loads!("5,1,|2,1,|5,1,|"), "REFUSE,31,4,1,0"),
    pair(SAME_LOCK, loads!("3,1,|2,1,|2,1,|"), "REFUSE,31,2,1,0"),
    pair(SAME_LOCK, loads!("2,1,|2,1,|3,1,|"), "REFUSE,31,2,1,0"),
    pair(LOCK_TWICE, loads!("3,1,|2,1,|3,1,|1,1,|3,1,|"), "ACCEPT"),
    pair(LOCK_TWICE, loads!("2,1,|2,1,|2,1,|1,1,|2,1,|"), "REFUSE,31,6,1,0"),
    pair(LOCK_IN_CELL, loads!("6,1,|6,1,|2,1,|6,1,|"), "ACCEPT"),
    pair(LOCK_IN_CELL, loads!("7,1,|6,1,|2,1,|7,1,|"), "REFUSE,31,5,1,0"),
    GIVEN_BACK_AS_NOTHING,
    // Freelock goes, request (x): 45, after 12 on its line and before anything of a later line.
    pair("P,2|freelock,0|newlock,0|", loads!("0,1,|1,1,|"), "REFUSE,45,2,0,0"),
    pair("P,2|lock,0|newlock,0|", loads!("0,1,|1,1,|"), "ACCEPT"),
    program("P,1|freelock,1|", "REFUSE,12,2,0,0"),
    program("P,1|freelock,00|", "REFUSE,11,2,0,0"),
    program("P,1|freelock|", "REFUSE,11,2,0,0"),
    program("P,1|freelocks,0|", "REFUSE,11,2,0,0"),
    program("P,1|freeloc,0|", "REFUSE,11,2,0,0"),
    program("P,1|freelock,0", "REFUSE,11,2,0,0"),
    program("P,1|freelock,0|", "REFUSE,45,2,0,0"),
    program("P,2|freelock,0|bad|", "REFUSE,45,2,0,0"),
    program("P,2|freelock,0|", "REFUSE,45,2,0,0"),
    program("P,2|int,65536|freelock,0|", "REFUSE,12,2,0,0"),
    program("P,1|int,0|freelock,0|", "REFUSE,13,3,0,0"),
    program("P,2|var,0|freelock,0|", "REFUSE,45,3,0,0"),
    // Colour book with many readers, request (xi). N × r is a product of whole numbers.
    READ_OR_WRITTEN,
    WRITTEN_BY_A_READER,
    program("P,1|newrwlock,0|", "REFUSE,12,2,0,0"),
    program("P,1|newrwlock,65|", "REFUSE,12,2,0,0"),
    program("P,1|newrwlock|", "REFUSE,11,2,0,0"),
    program("P,2|rdlock,1|newrwlock,1|", "REFUSE,12,2,0,0"),
    program("P,1|wrunlock,0|", "REFUSE,13,2,0,0"),
    pair("P,1|newrwlock,64|", "C,1,1,1,1|rwlock,0,0|0|0,0,|", "ACCEPT"),
    pair("P,1|newrwlock,64|", "C,1,1,1,2|rwlock,1,0|0|67108864|0,0,|", "REFUSE,32,2,2,0"),
    pair("P,1|newrwlock,64|", "C,1,1,1,2|rwlock,1,1|0|1000000000|0,0,|", "REFUSE,32,2,2,0"),
    pair("P,1|newrwlock,2|", "C,1,2,1,2|rwlock,1,0|1,1|0,1|0,0,|", "REFUSE,32,2,2,1"),
    split("C,1,1,1,1|rwlock,1,0|", "REFUSE,22,2,0,0"),
    split("C,1,1,1,1|rwlock,0,1|", "REFUSE,22,2,0,0"),
    split("C,1,1,1,1|rwlock,0|", "REFUSE,21,2,0,0"),
    split("C3,1,1,2,2,0|int,0,0|rwlock,0,1|1|0|0,0,|", "ACCEPT"),
    pair("P,1|newrwlock,2|", readers!("0,2,|"), "REFUSE,31,2,1,0"),
    pair("P,1|newrwlock,2|", readers!("2,2,|"), "REFUSE,31,2,1,0"),
    pair("P,1|newrwlock,3|", readers!("1,0,|"), "REFUSE,32,2,2,0"),
    pair("P,1|newrwlock,2|", readers!("1,0,|"), "REFUSE,32,2,3,0"),
    pair("P,1|newrwlock,2|", readers!("1,2,|"), "ACCEPT"),
    pair("P,1|newrwlock,1|", readers!("1,2,|"), "ACCEPT"),
    pair("P,2|rdlock,0|newrwlock,2|", readers!("1,4,|1,2,|"), "REFUSE,31,2,1,0"),
    pair("P,2|rdlock,0|newrwlock,2|", readers!("0,4,|2,2,|"), "REFUSE,31,2,2,0"),
    pair("P,2|rdlock,0|newrwlock,2|", readers!("0,0,|1,2,|"), "REFUSE,32,2,3,0"),
    pair("P,2|rdlock,0|newrwlock,2|", readers!("0,4,|1,2,|"), "ACCEPT"),
    pair("P,2|wrlock,0|newrwlock,2|", readers!("1,0,|1,2,|"), "REFUSE,31,2,1,0"),
    pair("P,2|wrlock,0|newrwlock,2|", readers!("0,0,|2,2,|"), "REFUSE,31,2,2,0"),
    pair("P,2|wrlock,0|newrwlock,2|", readers!("0,4,|1,2,|"), "REFUSE,32,2,3,0"),
    pair("P,2|wrlock,0|newrwlock,2|", readers!("0,0,|1,2,|"), "ACCEPT"),
    pair("P,2|rdunlock,0|newrwlock,2|", readers!("1,1,|1,2,|"), "REFUSE,31,2,1,0"),
    pair("P,2|rdunlock,0|newrwlock,2|", readers!("0,1,|2,2,|"), "REFUSE,31,2,2,0"),
    pair("P,2|rdunlock,0|newrwlock,2|", readers!("0,3,|1,2,|"), "REFUSE,32,2,3,0"),
    pair("P,2|rdunlock,0|newrwlock,2|", readers!("0,1,|1,2,|"), "ACCEPT"),
    pair("P,2|wrunlock,0|newrwlock,2|", readers!("1,3,|1,2,|"), "REFUSE,31,2,1,0"),
    pair("P,2|wrunlock,0|newrwlock,2|", readers!("0,3,|2,2,|"), "REFUSE,31,2,2,0"),
    pair("P,2|wrunlock,0|newrwlock,2|", readers!("0,1,|1,2,|"), "REFUSE,32,2,3,0"),
    pair("P,2|wrunlock,0|newrwlock,2|", readers!("0,3,|1,2,|"), "ACCEPT"),
    pair("P,2|lock,0|newrwlock,2|", readers!("0,4,|1,2,|"), "REFUSE,31,2,2,0"),
    pair("P,2|unlock,0|newrwlock,2|", readers!("0,1,|1,2,|"), "REFUSE,31,2,2,0"),
    pair(SAME_RWLOCK, "C,2,1,2,4|rwlock,1,2|rwlock,3,2|2|1|1|1|1,1,|0,1,|1,1,|", "ACCEPT"),
    pair(SAME_RWLOCK, "C,2,1,2,4|rwlock,1,2|rwlock,3,2|2|1|1|0|1,1,|0,1,|1,1,|", "REFUSE,31,4,1,0"),
    pair(SAME_RWLOCK, "C,2,1,2,4|rwlock,1,2|rwlock,1,3|2|1|1|2|1,1,|0,1,|1,1,|", "REFUSE,31,4,1,0"),
    pair(SAME_RWLOCK, "C3,2,1,2,4,0|rwlock,1,2|lock,1,2|2|1|1|2|1,1,|0,1,|1,1,|", "REFUSE,31,4,1,0"),
];
