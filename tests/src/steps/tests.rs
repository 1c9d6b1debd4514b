//! The points of the steps where Figure 4 and document 01 are easy to misread.

use super::claims::{fault, waits};
use super::expression::{Program, Value};
use super::state::{LockState, Move, State};

fn start(steps: &str) -> State {
    let sheet = format!("P,{}|{steps}|", steps.split('|').count()).replace('|', "\n");
    State::start(&Program::listed(sheet.as_bytes()).expect("the program is well formed"))
}

/// The first thread goes on, taking first parts and first finished threads, until it cannot.
fn run_first_thread(mut state: State) -> State {
    while let Some(next) = state.moves(0).into_iter().find_map(|step| state.reduced(step)) {
        state = next;
    }
    state
}

fn first_value(state: &State) -> Option<Value> {
    state.threads[0].expression.value()
}

#[test]
fn the_start_identifier_is_used() {
    let state = start("newtid,0");
    assert_eq!(state.reduced(Move { thread: 0, part: 0, finished: 0, name: 0 }), None);
    assert_eq!(first_value(&run_first_thread(state)), Some(Value::Identifier(1)));
}

#[test]
fn unlock_goes_ahead_on_any_lock() {
    for before in ["newlock,0", "let,5|newlock,0|let,6|lock,0|var,5|var,5"] {
        let state = run_first_thread(start(&format!("unlock,0|{before}")));
        assert_eq!(first_value(&state), Some(Value::Constant(0)), "{before}");
        assert_eq!(state.locks[&1], LockState::Open, "{before}");
    }
}

#[test]
fn lock_waits_for_an_open_lock() {
    let state = run_first_thread(start("let,0|newlock,0|let,1|lock,0|var,0|lock,0|var,0"));
    assert_eq!(state.locks[&1], LockState::Closed);
    assert!(waits(&state, 0) && fault(&state).is_none());
}

#[test]
fn join_takes_one_finished_thread_with_the_identifier() {
    let spawned = "let,1|spawn,0|var,0|int,7|let,2|spawn,0|var,0|int,8|let,3|spawn,0|newtid,0|int,9";
    let mut state = start(&format!("let,0|newtid,0|{spawned}|join,0|var,0"));
    while state.threads.len() < 4 || state.moves(0).len() == 1 {
        state = state.moves(0).into_iter().find_map(|step| state.reduced(step)).expect("nothing waits yet");
    }
    let joins: Vec<Option<State>> = state.moves(0).into_iter().map(|step| state.reduced(step)).collect();
    let taken: Vec<bool> = joins.iter().map(Option::is_some).collect();
    assert_eq!(taken, [false, true, true, false]);
    assert!(joins.into_iter().flatten().all(|next| next.threads.len() == 3));
}

#[test]
fn a_semaphore_counts_posts_and_waits() {
    let posts = "let,0|newsem,0|let,1|post,0|var,0|let,2|post,0|var,0";
    let both = run_first_thread(start(&format!("{posts}|let,3|wait,0|var,0|wait,0|var,0")));
    assert_eq!((first_value(&both), both.semaphores[&1]), (Some(Value::Constant(0)), 0));
    let third = run_first_thread(start(&format!("{posts}|let,3|wait,0|var,0|let,4|wait,0|var,0|wait,0|var,0")));
    assert_eq!((first_value(&third), third.semaphores[&1]), (None, 0));
    assert!(waits(&third, 0) && fault(&third).is_none());
}

#[test]
fn a_new_semaphore_counts_0() {
    let state = run_first_thread(start("wait,0|newsem,0"));
    assert!(waits(&state, 0) && fault(&state).is_none());
    assert_eq!(state.reduced(Move { thread: 0, part: 0, finished: 0, name: 2 }), None);
}

/// A read-write lock of two places after these words of its one thread; whether all of them went ahead.
fn went_ahead(words: &[&str]) -> bool {
    let lets: Vec<String> =
        (0..words.len()).map(|place| format!("let,{}|{},0|var,0", place + 1, words[place])).collect();
    let state = run_first_thread(start(&format!("let,0|newrwlock,2|{}|int,7", lets.join("|"))));
    assert!(fault(&state).is_none());
    let done = first_value(&state) == Some(Value::Constant(7));
    assert_eq!(waits(&state, 0), !done);
    done
}

#[test]
fn readers_have_places_and_writers_want_all() {
    assert!(went_ahead(&["rdlock", "rdlock"]) && !went_ahead(&["rdlock", "rdlock", "rdlock"]));
    assert!(!went_ahead(&["rdlock", "wrlock"]) && !went_ahead(&["wrlock", "rdlock"]));
    assert!(!went_ahead(&["wrlock", "wrlock"]) && went_ahead(&["wrlock", "wrunlock", "wrlock"]));
    assert!(went_ahead(&["rdlock", "rdlock", "rdunlock", "rdlock"]));
    assert!(!went_ahead(&["rdlock", "rdlock", "rdunlock", "wrlock"]));
    assert!(went_ahead(&["rdlock", "rdunlock", "wrlock"]));
}

#[test]
fn a_hold_is_given_back_only_if_there_is_one_of_its_kind() {
    assert!(!went_ahead(&["rdunlock"]) && !went_ahead(&["wrunlock"]));
    assert!(!went_ahead(&["rdlock", "wrunlock"]) && !went_ahead(&["wrlock", "rdunlock"]));
    assert!(!went_ahead(&["rdlock", "rdunlock", "rdunlock"]));
}

#[test]
fn a_loop_may_end_at_once_or_go_round() {
    let state = start("while,0|newtid,0");
    let unrolled = state.reduced(state.moves(0)[0]).expect("a loop unrolls");
    let ends: Vec<State> = unrolled.moves(0).into_iter().filter_map(|step| unrolled.reduced(step)).collect();
    assert_eq!(ends.len(), 2);
    assert_eq!(first_value(&ends[1]), Some(Value::Constant(0)));
    let around = ends[0].reduced(ends[0].moves(0)[0]).expect("the part goes on");
    let again = around.reduced(around.moves(0)[0]).expect("the let goes on");
    assert_eq!(again.threads[0].expression, state.threads[0].expression);
}

#[test]
fn write_has_its_cell_before_its_value() {
    let state = start("write,0|ref,0|int,1|ref,0|int,2");
    let first = state.reduced(state.moves(0)[0]).expect("the cell comes first");
    assert_eq!(first.cells[&1], Value::Constant(1));
    assert_eq!(run_first_thread(state).cells[&1], Value::Cell(2));
}
