//! Programs whose fate under all schedules is known. Steps in prefix order, a bar for each line end.

/// Programs with a race that some schedule shows.
pub const RACY: &[(&str, &str)] = &[
    ("Figure 2 (a)", "let,0|ref,0|int,0|let,1|spawn,0|newtid,0|read,0|var,0|write,0|var,0|int,1"),
    ("two writers", "let,0|ref,0|int,0|let,1|spawn,0|newtid,0|write,0|var,0|int,2|write,0|var,0|int,1"),
    (
        "a read without the lock",
        "let,0|ref,0|int,0|let,1|newlock,0|let,2|spawn,0|newtid,0|read,0|var,0|let,3|lock,0|var,1|\
         let,4|write,0|var,0|int,1|unlock,0|var,1",
    ),
    (
        "two locks, the program beside NEWL-unsound",
        "let,0|ref,0|int,0|let,1|newlock,0|let,2|newlock,0|let,3|spawn,0|newtid,0|let,4|lock,0|var,1|\
         let,5|read,0|var,0|unlock,0|var,1|let,6|lock,0|var,2|let,7|write,0|var,0|int,1|unlock,0|var,2",
    ),
    (
        "one join for two threads",
        "let,0|ref,0|int,0|let,1|newtid,0|let,2|spawn,0|var,1|read,0|var,0|let,3|spawn,0|var,1|read,0|var,0|\
         let,4|join,0|var,1|write,0|var,0|int,1",
    ),
    (
        "a lock given up too early",
        "let,0|ref,0|int,0|let,1|newlock,0|let,2|spawn,0|newtid,0|let,3|lock,0|var,1|write,0|var,0|int,2|\
         let,4|lock,0|var,1|let,5|unlock,0|var,1|write,0|var,0|int,1",
    ),
    (
        "an unlock by a thread that does not hold the lock",
        "let,0|ref,0|int,0|let,1|newlock,0|let,2|spawn,0|newtid,0|let,3|unlock,0|var,1|let,4|lock,0|var,1|\
         write,0|var,0|int,2|let,5|lock,0|var,1|write,0|var,0|int,1",
    ),
    (
        "Figure 7, two posts for two that wait",
        "let,0|ref,0|int,0|let,1|newsem,0|let,2|spawn,0|newtid,0|let,3|wait,0|var,1|write,0|var,0|int,1|\
         let,4|spawn,0|newtid,0|let,5|wait,0|var,1|write,0|var,0|int,1|let,6|post,0|var,1|post,0|var,1",
    ),
    (
        "a post before the write",
        "let,0|ref,0|int,0|let,1|newsem,0|let,2|spawn,0|newtid,0|let,3|wait,0|var,1|write,0|var,0|int,1|\
         let,4|post,0|var,1|write,0|var,0|int,2",
    ),
    (
        "a wait that takes its own post",
        "let,0|ref,0|int,0|let,1|newsem,0|let,2|spawn,0|newtid,0|let,3|read,0|var,0|post,0|var,1|\
         let,4|post,0|var,1|let,5|wait,0|var,1|write,0|var,0|int,2",
    ),
    (
        "two readers that write",
        "let,0|ref,0|int,0|let,1|newrwlock,2|let,2|spawn,0|newtid,0|let,3|rdlock,0|var,1|write,0|var,0|int,1|\
         let,4|rdlock,0|var,1|write,0|var,0|int,2",
    ),
    (
        "a reader beside one that holds twice, and writes",
        "let,0|ref,0|int,0|let,1|newrwlock,3|let,2|spawn,0|newtid,0|let,3|rdlock,0|var,1|read,0|var,0|\
         let,4|rdlock,0|var,1|let,5|rdlock,0|var,1|write,0|var,0|int,2",
    ),
    (
        "a writer whose hold another thread gives back",
        "let,0|ref,0|int,0|let,1|newrwlock,1|let,2|spawn,0|newtid,0|let,3|wrunlock,0|var,1|let,4|wrlock,0|var,1|\
         write,0|var,0|int,1|let,5|wrlock,0|var,1|write,0|var,0|int,2",
    ),
];

/// Programs whose one thread halts on a value of the wrong kind.
pub const ODD: &[&str] = &[
    "read,0|int,0",
    "write,0|int,0|int,0",
    "lock,0|int,0",
    "unlock,0|newtid,0",
    "join,0|newlock,0",
    "spawn,0|newlock,0|int,0",
    "wait,0|newlock,0",
    "post,0|int,0",
    "lock,0|newsem,0",
    "join,0|newsem,0",
    "lock,0|newrwlock,1",
    "rdlock,0|newlock,0",
    "wrlock,0|newsem,0",
    "wrunlock,0|int,0",
    "let,0|newtid,0|let,1|spawn,0|var,0|read,0|int,0|join,0|var,0",
];

/// Programs that wait for ever, and show no fault for it.
pub const WAITING: &[&str] = &[
    "join,0|newtid,0",
    "let,0|newlock,0|let,1|lock,0|var,0|lock,0|var,0",
    "wait,0|newsem,0",
    "rdunlock,0|newrwlock,1",
    "wrunlock,0|newrwlock,1",
    "let,0|newrwlock,1|let,1|rdlock,0|var,0|rdlock,0|var,0",
    "let,0|newrwlock,2|let,1|rdlock,0|var,0|wrlock,0|var,0",
    "let,0|newrwlock,2|let,1|wrlock,0|var,0|rdlock,0|var,0",
    "let,0|newsem,0|let,1|post,0|var,0|let,2|wait,0|var,0|wait,0|var,0",
];
