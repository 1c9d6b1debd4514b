//! Recorded orders, request (xii), with the lines that `racereplay` writes for them. Each is worked out by hand.

/// A program, a trace as lines that come so many times, and the answer with its report.
pub struct KnownReplay {
    pub program: Program,
    pub trace: &'static [(usize, &'static str)],
    pub answer: &'static str,
}

pub enum Program {
    /// The steps of a sheet, bars for line ends; its first line counts them.
    Steps(&'static str),
    /// A whole sheet, bars for line ends.
    Sheet(&'static str),
}

impl KnownReplay {
    /// The program sheet and the trace.
    pub fn texts(&self) -> (Vec<u8>, Vec<u8>) {
        let program = match self.program {
            Program::Steps(steps) => format!("P,{}|{steps}|", steps.split('|').count()),
            Program::Sheet(sheet) => sheet.to_string(),
        };
        let trace: Vec<String> = self.trace.iter().map(|(times, line)| line.repeat(*times)).collect();
        (super::bytes(&program), super::bytes(&trace.concat()))
    }
}

const fn run(steps: &'static str, trace: &'static [(usize, &'static str)], answer: &'static str) -> KnownReplay {
    KnownReplay { program: Program::Steps(steps), trace, answer }
}

const fn sheet(sheet: &'static str, answer: &'static str) -> KnownReplay {
    KnownReplay { program: Program::Sheet(sheet), trace: &[(1, "x")], answer }
}

const fn calls(sheet: &'static str, trace: &'static [(usize, &'static str)], answer: &'static str) -> KnownReplay {
    KnownReplay { program: Program::Sheet(sheet), trace, answer }
}

/// Figure 2 (a): a cell, a spawned reader and a writer. ref, let, newtid, spawn, let: after the fifth step
/// the first thread is about to write.
const FIGURE_2A: &str = "let,0|ref,0|int,0|let,1|spawn,0|newtid,0|read,0|var,0|write,0|var,0|int,1";
/// A procedure that calls itself for ever, in tail place.
const FOR_EVER: &str = "P2,4,1|proc,0|call,0|var,0|call,0|int,0|";
/// Procedures whose bodies are values at once, called in a loop: four steps a round.
const AT_ONCE: &str = "P2,5,2|proc,0|int,7|proc,1|var,1|while,0|call,0|int,1|";
const ARGUMENT_AT_ONCE: &str = "P2,5,2|proc,0|int,7|proc,1|var,1|while,0|call,1|int,1|";
/// A procedure that calls itself or gives a value, called twice: a call and its choice, over and over.
const WITH_A_WAY_OUT: &str = "P2,9,1|proc,0|if,0|call,0|var,0|int,3|let,9|call,0|int,1|call,0|int,1|";
/// Two threads that call for ever, each with calls of its own. The third step is the let behind the spawn.
const BOTH_FOR_EVER: &str = "P2,9,1|proc,0|call,0|var,0|let,1|spawn,0|newtid,0|call,0|int,0|call,0|int,0|";
/// Two threads that call a procedure which writes to its argument.
const WRITING: &str =
    "P2,13,1|proc,0|write,0|var,0|int,1|let,1|ref,0|int,0|let,2|spawn,0|newtid,0|call,0|var,1|call,0|var,1|";
/// Two readers and then a writer.
const READERS: &str = "let,0|ref,0|int,0|let,1|spawn,0|newtid,0|read,0|var,0|let,2|spawn,0|newtid,0|read,0|var,0|\
                       write,0|var,0|int,1";
/// Two readers and then a spawned writer.
const WRITER_LAST: &str = "let,0|ref,0|int,0|let,1|spawn,0|newtid,0|read,0|var,0|let,2|spawn,0|newtid,0|read,0|var,0|\
                           let,3|spawn,0|newtid,0|write,0|var,0|int,1|int,9";
/// newtid, let, spawn, let, then a join of thread 1, which is finished at once, and no second one.
const JOINED: &str = "let,0|newtid,0|let,1|spawn,0|var,0|int,7|let,2|join,0|var,0|join,0|var,0";
/// A loop that spawns a thread each round and joins it: six steps a round.
const JOINING: &str = "let,0|newtid,0|while,0|let,1|spawn,0|var,0|int,0|join,0|var,0";
/// A loop that spawns a thread each round: four steps a round.
const SPAWNING: &str = "let,0|newtid,0|while,0|spawn,0|var,0|int,0";
/// Two finished threads of one identifier, and one that still runs.
const TWO_FINISHED: &str = "let,0|newtid,0|let,1|spawn,0|var,0|newtid,0|let,2|spawn,0|var,0|int,1|\
                            let,3|spawn,0|var,0|int,2|let,4|join,0|var,0|join,0|var,0";

pub const REPLAYS: &[KnownReplay] = &[
    // An empty trace has no steps, and is no line that is wrong.
    run("int,0", &[], "RAN,0"),
    run(FIGURE_2A, &[], "RAN,0"),
    // The first state with a race, and what comes after it.
    run(FIGURE_2A, &[(4, "0,0|")], "RAN,4"),
    run(FIGURE_2A, &[(5, "0,0|")], "RACE,5,5,0,1"),
    run(FIGURE_2A, &[(5, "0,0|"), (1, "1,0|0,0|")], "RACE,7,5,0,1"),
    run(FIGURE_2A, &[(4, "0,0|"), (1, "1,0|0,0|0,0|")], "RAN,7"),
    run(FIGURE_2A, &[(5, "0,0|"), (2, "1,0|")], "REFUSE,47,7,0,0,6,RACE,5,0,1"),
    run(FIGURE_2A, &[(5, "0,0|"), (1, "x")], "REFUSE,46,6,0,0,5,RACE,5,0,1"),
    // The lowest pair: threads 1 and 2 only read.
    run(READERS, &[(8, "0,0|")], "RACE,8,8,0,1"),
    run(WRITER_LAST, &[(10, "0,0|")], "RACE,10,10,1,3"),
    run(WRITER_LAST, &[(8, "0,0|"), (1, "1,0|0,0|0,0|")], "RACE,11,11,2,3"),
    // Lines of another form. An unclosed last line is one, an empty line too.
    run("newtid,0", &[(1, "0,0")], "REFUSE,46,1,0,0,0"),
    run("newtid,0", &[(1, "|")], "REFUSE,46,1,0,0,0"),
    run("newtid,0", &[(1, "0,0||")], "REFUSE,46,2,0,0,1"),
    run("newtid,0", &[(1, "0|")], "REFUSE,46,1,0,0,0"),
    run("newtid,0", &[(1, "0,|")], "REFUSE,46,1,0,0,0"),
    run("newtid,0", &[(1, ",0|")], "REFUSE,46,1,0,0,0"),
    run("newtid,0", &[(1, "0,0,0|")], "REFUSE,46,1,0,0,0"),
    run("newtid,0", &[(1, "0,0 |")], "REFUSE,46,1,0,0,0"),
    run("newtid,0", &[(1, "0,0\r|")], "REFUSE,46,1,0,0,0"),
    run("newtid,0", &[(1, "00,0|")], "REFUSE,46,1,0,0,0"),
    run("newtid,0", &[(1, "0,01|")], "REFUSE,46,1,0,0,0"),
    run("newtid,0", &[(1, "-0,0|")], "REFUSE,46,1,0,0,0"),
    run("newtid,0", &[(1, "10000000000,0|")], "REFUSE,46,1,0,0,0"),
    run("newtid,0", &[(1, "0,10000000000|")], "REFUSE,46,1,0,0,0"),
    // Form comes before what a thread can do, also when the thread is not there.
    run("newtid,0", &[(1, "7,0")], "REFUSE,46,1,0,0,0"),
    // Numbers of up to ten digits are numbers, and no thread or choice has them.
    run("newtid,0", &[(1, "4294967296,0|")], "REFUSE,47,1,0,0,0"),
    run("newtid,0", &[(1, "4294967295,0|")], "REFUSE,47,1,0,0,0"),
    run("newtid,0", &[(1, "0,4294967296|")], "REFUSE,47,1,0,0,0"),
    run("newtid,0", &[(1, "9999999999,9999999999|")], "REFUSE,47,1,0,0,0"),
    // No such thread, choices elsewhere than at an if, a third choice, a thread that has finished.
    run("newtid,0", &[(1, "1,0|")], "REFUSE,47,1,0,0,0"),
    run("newtid,0", &[(1, "0,1|")], "REFUSE,47,1,0,0,0"),
    run("newtid,0", &[(1, "0,2|")], "REFUSE,47,1,0,0,0"),
    run("if,0|int,1|int,2", &[(1, "0,2|")], "REFUSE,47,1,0,0,0"),
    run("if,0|int,1|int,2", &[(1, "0,1|")], "RAN,1"),
    run("if,0|int,1|newtid,0", &[(1, "0,0|0,0|")], "REFUSE,47,2,0,0,1"),
    run("if,0|int,1|newtid,0", &[(1, "0,1|0,0|")], "RAN,2"),
    run("int,0", &[(1, "0,0|")], "REFUSE,47,1,0,0,0"),
    run("newtid,0", &[(2, "0,0|")], "REFUSE,47,2,0,0,1"),
    // Values of the wrong kind, and waits.
    run("read,0|int,0", &[(1, "0,0|")], "REFUSE,47,1,0,0,0"),
    run("join,0|newtid,0", &[(2, "0,0|")], "REFUSE,47,2,0,0,1"),
    run("wait,0|newsem,0", &[(2, "0,0|")], "REFUSE,47,2,0,0,1"),
    run("rdunlock,0|newrwlock,1", &[(2, "0,0|")], "REFUSE,47,2,0,0,1"),
    run("let,0|newlock,0|let,1|lock,0|var,0|lock,0|var,0", &[(5, "0,0|")], "REFUSE,47,5,0,0,4"),
    run("unlock,0|newlock,0", &[(2, "0,0|")], "RAN,2"),
    // A write asks for its cell first, then for its value.
    run("write,0|ref,0|int,0|newtid,0", &[(3, "0,0|")], "RAN,3"),
    run("write,0|int,0|newtid,0", &[(2, "0,0|")], "REFUSE,47,2,0,0,1"),
    // A loop is two steps: to the if, with choice 0, and the choice. A round goes on with a let.
    run("while,0|newtid,0", &[(1, "0,0|0,1|")], "RAN,2"),
    run("while,0|newtid,0", &[(1, "0,1|")], "REFUSE,47,1,0,0,0"),
    run("while,0|newtid,0", &[(5, "0,0|"), (1, "0,1|")], "RAN,6"),
    // A joined thread is gone, and a thread that has finished takes no step.
    run(JOINED, &[(6, "0,0|")], "RAN,6"),
    run(JOINED, &[(7, "0,0|")], "REFUSE,47,7,0,0,6"),
    run(JOINED, &[(3, "0,0|"), (1, "1,0|")], "REFUSE,47,4,0,0,3"),
    run(JOINED, &[(5, "0,0|"), (1, "1,0|")], "REFUSE,47,6,0,0,5"),
    // Threads keep their numbers: thread 2 is joined, thread 1 still goes on.
    run(TWO_FINISHED, &[(9, "0,0|"), (1, "1,0|0,0|0,0|")], "RAN,12"),
    run(TWO_FINISHED, &[(11, "0,0|"), (1, "1,0|")], "RAN,12"),
    run(TWO_FINISHED, &[(11, "0,0|"), (1, "2,0|")], "REFUSE,47,12,0,0,11"),
    // The last of a kind is fine. A loop round something new makes it in its third step of four.
    run("while,0|newtid,0", &[(258, "0,0|")], "RAN,258"),
    run("while,0|newtid,0", &[(259, "0,0|")], "REFUSE,48,259,0,0,258"),
    run("while,0|newlock,0", &[(258, "0,0|")], "RAN,258"),
    run("while,0|newlock,0", &[(259, "0,0|")], "REFUSE,48,259,0,0,258"),
    run("while,0|newsem,0", &[(258, "0,0|")], "RAN,258"),
    run("while,0|newsem,0", &[(259, "0,0|")], "REFUSE,48,259,0,0,258"),
    run("while,0|newrwlock,1", &[(258, "0,0|")], "RAN,258"),
    run("while,0|newrwlock,1", &[(259, "0,0|")], "REFUSE,48,259,0,0,258"),
    run("while,0|ref,0|int,0", &[(258, "0,0|")], "RAN,258"),
    run("while,0|ref,0|int,0", &[(259, "0,0|")], "REFUSE,48,259,0,0,258"),
    run(SPAWNING, &[(64, "0,0|")], "RAN,64"),
    run(SPAWNING, &[(65, "0,0|")], "REFUSE,48,65,0,0,64"),
    // Each kind is counted by itself: six steps a round, a lock in the third and a cell in the fifth.
    run("while,0|let,0|newlock,0|ref,0|int,0", &[(386, "0,0|")], "RAN,386"),
    run("while,0|let,0|newlock,0|ref,0|int,0", &[(387, "0,0|")], "REFUSE,48,387,0,0,386"),
    // Joined threads count too. A step that cannot be taken is 47 at a limit as anywhere.
    run(JOINING, &[(94, "0,0|")], "RAN,94"),
    run(JOINING, &[(95, "0,0|")], "REFUSE,48,95,0,0,94"),
    run(JOINING, &[(94, "0,0|"), (1, "0,1|")], "REFUSE,47,95,0,0,94"),
    // Open calls are counted in the state after the step, thread by thread. A body that is a value at once is never open.
    calls(FOR_EVER, &[(64, "0,0|")], "RAN,64"),
    calls(FOR_EVER, &[(70, "0,0|")], "REFUSE,48,65,0,0,64"),
    calls(AT_ONCE, &[(600, "0,0|")], "RAN,600"),
    calls(ARGUMENT_AT_ONCE, &[(600, "0,0|")], "RAN,600"),
    calls(AT_ONCE, &[(2, "0,0|"), (1, "0,1|")], "REFUSE,47,3,0,0,2"),
    calls(BOTH_FOR_EVER, &[(67, "0,0|"), (64, "1,0|")], "RAN,131"),
    calls(BOTH_FOR_EVER, &[(67, "0,0|"), (65, "1,0|")], "REFUSE,48,132,0,0,131"),
    calls(BOTH_FOR_EVER, &[(3, "0,0|"), (64, "1,0|"), (65, "0,0|")], "REFUSE,48,132,0,0,131"),
    // When the innermost body becomes a value, all calls that end with it close at once.
    calls(WITH_A_WAY_OUT, &[(127, "0,0|"), (1, "0,1|"), (128, "0,0|"), (1, "0,1|")], "RAN,257"),
    calls(WITH_A_WAY_OUT, &[(130, "0,0|")], "REFUSE,48,129,0,0,128"),
    calls(WITH_A_WAY_OUT, &[(127, "0,0|"), (1, "0,1|"), (131, "0,0|")], "REFUSE,48,258,0,0,257"),
    // Called bodies race as any others.
    calls(WRITING, &[(6, "0,0|")], "RAN,6"),
    calls(WRITING, &[(6, "0,0|"), (1, "1,0|")], "RACE,7,7,0,1"),
    // The program sheet is judged before the trace is looked at, and then there is no report.
    sheet("", "REFUSE,11,1,0,0,0"),
    sheet("P,1|var,0|", "REFUSE,14,2,0,0,0"),
    sheet("P,2|int,0|int,0|", "REFUSE,13,3,0,0,0"),
    sheet("P,2|freelock,0|newlock,0|", "REFUSE,45,2,0,0,0"),
    sheet("P,4294967297|int,0|", "REFUSE,12,1,0,0,0"),
    sheet("P2,2,0|call,0|int,0|", "REFUSE,49,2,0,0,0"),
    sheet("P,1|int,0|", "REFUSE,46,1,0,0,0"),
];
