"""What each answer means and what usually helps, as tables. docs/REFUSALS.md says the same words, which a test holds it to.

A new refusal is a row of REFUSALS.
"""
from typing import NamedTuple

from common.files import PROGRAM, SPLIT, TRACE


class Refusal(NamedTuple):
    found: str  # what was found wrong
    owner: str  # who looks first
    sheet: str  # the file that the line named belongs to; None if no line is named
    helps: str  # what usually helps


ACCEPTED = "Both sheets are well formed, and the split shows the job safe."
UNREAD = "A file could not be read. Nothing was judged."
RAN = "Every line of the order was done, and no state on the way has a race."
RACE = "Every line of the order was done. It has a race."
FILLED = "The after-maps are found; `fill` writes the sheet. racecheck accepts every sheet that is filled."
# What the first word of an answer means, where it is no refusal.
MEANINGS = {"ACCEPT": ACCEPTED, "FILLED": FILLED, "RAN": RAN, "RACE": RACE, "UNREAD": UNREAD}

REFUSALS = {
    1: Refusal(
        "too little work space", "caller of the library", None,
        "lend at least 16,384 numbers of 32 bits, to a replay at least 542,960"),
    10: Refusal(
        "program sheet too long", "owner of the program", None,
        "look whether the right file was copied"),
    11: Refusal(
        "a line of the program sheet is not of its form", "owner of the program", PROGRAM,
        "write the line as `word,v` (line 1 as `P,n` or `P2,n,k`): no spaces, no capitals, no leading zeros, byte 10 at its end"),
    12: Refusal(
        "a number of the program sheet is out of range", "owner of the program", PROGRAM,
        "keep to the ranges: steps 1 to 256, variables 0 to 255, constants 0 to 65,535, reading places 1 to 64, procedures 0 to"
        " 16, a called one 0 to 15; on every word but `var`, `int`, `let`, `newrwlock`, `call` and `proc` the number must be 0"),
    13: Refusal(
        "lines of the program sheet are missing or spare", "owner of the program", PROGRAM,
        "count the lines against line 1, and the parts of each word; look for an empty line at the end of the file"),
    14: Refusal(
        "a variable is used where it is not bound", "owner of the program", PROGRAM,
        "bind it by a `let` and use it in that `let`'s second part only; a procedure's body uses the variable of its `proc` line and"
        " those of its own `let`s, no others"),
    15: Refusal(
        "a variable is bound twice", "owner of the program", PROGRAM,
        "give the later `let` or `proc` a number of its own"),
    20: Refusal(
        "split sheet too long", "owner of the solver", None,
        "write each map once; 512 maps of 16 locations fit only if their numbers are short"),
    21: Refusal(
        "a line of the split sheet is not of its form", "owner of the solver", SPLIT,
        "look whether the split was made for this version of the job; then at the form of the line"),
    22: Refusal(
        "a number of the split sheet is out of range", "owner of the solver", SPLIT,
        "look whether the split was made for this version of the job; then at the counts on line 1"),
    23: Refusal(
        "lines of the split sheet are missing or spare", "owner of the solver", SPLIT,
        "look whether the split was made for this version of the job; it needs 1 + T + M + n lines,"
        " and one for each procedure"),
    30: Refusal(
        "the job starts with more than one whole of a location", "owner of the solver", PROGRAM,
        "make the starting map smaller: no number of it may be over D"),
    31: Refusal(
        "a type is wrong", "owner of the solver, then of the program", PROGRAM,
        "look at the type number in the row, which is most often wrong; if the rows are as meant, look at the job, which uses one"
        " kind of thing as another, say it joins a lock or writes to a number"),
    32: Refusal(
        "rights do not add up", "owner of the solver, then of the program", PROGRAM,
        "work out that one step by hand from its row and the rows of its parts"),
    33: Refusal(
        "a cell is touched without enough right to it", "owner of the program, then of the solver", PROGRAM,
        "ask what keeps the other threads away from the cell here: a join that comes too late, a lock not taken, a thread never"
        " joined"),
    38: Refusal(
        "an output buffer is shorter than its text", "caller of the library", None,
        "lend buffers of 1,725 and 1,613 bytes, which are always enough"),
    40: Refusal(
        "a spawn does not say what its thread starts with", "owner of the solver", SPLIT,
        "write the map that the new thread starts with in the last field of that row: 0 for map 0"),
    41: Refusal(
        "no after-maps pass", "owner of the solver, then of the program", None,
        "follow each location from the start: every step moves what its type or start says; at the first one that takes more than"
        " there is, or touches its cell with too little, a load or a start is wrong, or the job is"),
    42: Refusal(
        "the filled sheet would be too large", "owner of the solver", None,
        "divide D and all numbers of the maps by a number that goes into all of them, or leave out maps that nothing names"),
    43: Refusal(
        "too many maps to fill in more", "owner of the solver", None,
        "leave out the maps that nothing names: a sheet for filling needs the start, those in types, those of"
        " procedures, those that spawns hand on and those that calls keep back"),
    44: Refusal(
        "a lock takes less than it gives", "owner of the solver", SPLIT,
        "write a map for out, the last field of that line, that has at least as much as the map for in of every location"),
    45: Refusal(
        "the word `freelock`, which is no step of the machines", "owner of the program", PROGRAM,
        "write `lock` in its place; the row in the split can stay as it is"),
    46: Refusal(
        "a line of the trace is not of its form", "bench staff", TRACE,
        "write the line as `thread,choice`: two numbers, no spaces, no leading zeros, byte 10 at its end"),
    47: Refusal(
        "a line of the trace names no thread, or a step or choice that the thread cannot take", "bench staff", TRACE,
        "look whether the order was recorded on this version of the job; then whether a line is missing above it, such as the"
        " second of the two that each round of a loop begins with"),
    48: Refusal(
        "a step of the trace goes past what a replay can hold", "bench staff", TRACE,
        "cut the order before that line, or record a shorter one: fewer rounds of the loop that makes new things,"
        " or fewer calls inside calls"),
    49: Refusal(
        "a call to a procedure that is not there", "owner of the program", PROGRAM,
        "count the `proc` lines: procedures are numbered from 0 in the order of their lines"),
    50: Refusal(
        "a call does not say what is kept back", "owner of the solver", SPLIT,
        "write the map that the caller keeps back in the last field of that row: a map of zeros if it keeps nothing"),
}

# What only a caller of the library sees: no pair of sheets leads to these.
FOR_CALLERS = {1, 38}
# What only racefill answers.
OF_FILLING = {41, 42, 43}
# What only racereplay answers.
OF_REPLAYING = {46, 47, 48}
# What racecheck answers.
OF_CHECKING = set(REFUSALS) - FOR_CALLERS - OF_FILLING - OF_REPLAYING

# What a false condition of a word usually means, beyond its refusal's own line: by word and condition.
_EARLIER = "a take or give is missing before it: the row counts with a right that no step on the way has moved"
_REPEATS = "the row does not repeat what its part leaves; a step of this word moves no rights"
_ADDS = "the row's map is not the sum: it needs a map that holds what was there plus what comes in"
_GUARDED = "two locks guard the same location, and the right was given to the first one already"
_BRANCH = (
    "one branch ends with less than the row says, say a lock is given back in that branch only; after may be at most the smaller of"
    " the two")

USUALLY = {
    ("var", 1):
        "the row's type does not agree with that of what the `let` bound; of a lock it may show no more in and no less out",
    ("var", 2): _EARLIER,
    ("int", 2): _EARLIER,
    ("newtid", 2): _EARLIER,
    ("newsem", 2): _EARLIER,
    ("let", 2): _REPEATS,
    ("ref", 2): _REPEATS,
    ("read", 3): _REPEATS,
    ("write", 4): _REPEATS,
    ("if", 3): _BRANCH,
    ("if", 4): _BRANCH,
    ("while", 2): "the loop claims more after it than there is before it",
    ("while", 3): "a round of the loop ends with less than it began with, say a join is missing in the loop",
    ("spawn", 3):
        "the thread ends without the right that a join on it would hand over, say it left that right in a lock, or gave it to a"
        " thread of its own and did not join that one",
    ("spawn", 4): "what the body starts with was not taken from what is here, or more was taken than that",
    ("join", 3): _ADDS,
    ("lock", 3): _ADDS,
    ("wait", 3): _ADDS,
    ("rdlock", 3): _ADDS,
    ("wrlock", 3): _ADDS,
    ("newlock", 2): _GUARDED,
    ("newrwlock", 2): "the reading places together would hold more than a writer: r is too great, or there are too many places",
    ("newrwlock", 3): _GUARDED,
    ("unlock", 3):
        "the thread does not hold what the lock takes, say it unlocks twice, or the lock is shown as a looser one, which takes more"
        " than it gave",
    ("post", 3): "the thread does not hold what a post puts in, say it posts once more than it has something to hand on",
    ("rdunlock", 3): "the thread does not hold a reader's share, say it gives its place back twice",
    ("wrunlock", 3): "the thread does not hold a writer's share, say it took a reading place or gives back twice",
    ("read", 4): "the thread has nothing of the cell's location here: it was not handed any, or gave it away before",
    ("call", 3):
        "what is there is not what the procedure starts with plus what is kept back: another map is to be kept back, or a take or"
        " give is missing before it",
    ("call", 4): "the row's map is not the sum: it needs a map that holds what the procedure leaves plus what is kept back",
    ("proc", 2): "a way through the body ends with less than the procedure's line in the split says it leaves",
    ("write", 5): "another thread, a lock, a semaphore or an identifier still holds some of the cell's location here",
}
