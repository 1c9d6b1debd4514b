/* racecheck for callers in C: a proved checker of race freedom, practice pairs for it, the filling in of splits, and the replay
 * of recorded orders.
 *
 * Built by `./build entries` as target/staticlib/libentries.a, installed by tools/install as libracecheck.a and, linked
 * anew, as libracecheck.so; `pkg-config --cflags --libs racecheck` has the words for the compiler, docs/PYTHON.md the module for
 * Python. It is for x86-64 and needs nothing but the C library's memset and memcpy. What each call promises is proved; the
 * promises stand in full in crates/entries/src/lib.rt and are told in docs/PROMISES.md.
 *
 * For every call:
 * - A text is so many bytes, as in the files program.txt, split.txt and trace.txt (docs/FORMATS.md); no byte 0 ends it.
 * - No pointer is NULL, also where the length is 0. Numbers of 32 bits are aligned to 4 bytes, those of 64 bits to 8.
 * - The buffers and the places for numbers are apart from one another. The two given texts may be the same.
 * - Any lengths and any bytes are taken; there is no other precondition. Given texts are not written to.
 * - Nothing is allocated, and nothing is kept between calls but what a replay in pieces keeps in the buffers that are lent to it:
 *   calls may run at once, each with buffers of its own.
 * - The number returned is 0, or that of a refusal (docs/REFUSALS.md).
 * - Stack: a check needs 35 KB, a replay 45 KB, a filling 81 KB, a drill less. RACECHECK_STACK_BYTES is enough for all.
 */
#ifndef RACECHECK_H
#define RACECHECK_H

#include <stddef.h>
#include <stdint.h>

#ifdef __cplusplus
extern "C" {
#endif

/* The work space that a check or a filling wants, and the space that a replay wants, in numbers of 32 bits. With less the answer
 * is 1,0,0,0. */
#define RACECHECK_WORK 16384
#define RACECHECK_REPLAY_SPACE 542960
/* What a replay in pieces keeps beside its space: its job, in numbers of 32 bits, and its run, in numbers of 64 bits. */
#define RACECHECK_REPLAY_JOB 2449
#define RACECHECK_REPLAY_RUN 43
/* What a replay stores where there is no race. */
#define RACECHECK_NO_STATE UINT64_MAX
#define RACECHECK_NO_THREAD UINT32_MAX
/* The longest texts that are read or written. */
#define RACECHECK_PROGRAM_BYTES 16384
#define RACECHECK_SPLIT_BYTES 65536
/* Buffers that hold every practice pair. */
#define RACECHECK_DRILL_PROGRAM_BYTES 1725
#define RACECHECK_DRILL_SPLIT_BYTES 1613
/* A stack on which every call can run. */
#define RACECHECK_STACK_BYTES 98304

/* Judges a pair. 0 is ACCEPT: the job never races, in whatever order its threads run. Else the number of the refusal, with its
 * line, condition and location stored. Afterwards the first RACECHECK_WORK numbers of `work` are 0 and the rest is as it was;
 * if `work` was too short, all of it is as it was. */
uint32_t racecheck_check(
    const uint8_t *program, size_t program_len,
    const uint8_t *split, size_t split_len,
    uint32_t *work, size_t work_len,
    uint32_t *line,
    uint32_t *condition,
    uint32_t *location);

/* Makes the practice pair of a seed: both texts, each in front of its buffer, and the rest of the buffer as it was. Returns 0
 * and stores the seed of the next pair and the lengths of the texts; every such pair is accepted. If a text is longer than its
 * buffer it returns 38, stores three zeros, and leaves both buffers as they were. */
uint32_t racecheck_drill(
    uint32_t seed,
    uint8_t *program, size_t program_len,
    uint8_t *split, size_t split_len,
    uint32_t *next,
    uint32_t *program_length,
    uint32_t *split_length);

/* Fills in the after-maps of a split with the greatest that pass. Returns 0 with the text in front of `out`, its length in
 * `length_or_line` and two zeros; a check accepts it. Else the number of the refusal, with its line, condition and location
 * stored, and `out` as it was: 41 if there are no such maps, 42 if the text would be too large, also for `out`. `work` as in a
 * check. */
uint32_t racecheck_fill(
    const uint8_t *program, size_t program_len,
    const uint8_t *split, size_t split_len,
    uint32_t *work, size_t work_len,
    uint8_t *out, size_t out_len,
    uint32_t *length_or_line,
    uint32_t *condition,
    uint32_t *location);

/* Runs a job in a recorded order (docs/REPLAY.md). Returns 0 if every line of the trace was done, else the number of the refusal,
 * with its line, condition and location stored; 0 stands where there is none. Stores the steps done, and the first state with a
 * race among them with its two threads, or RACECHECK_NO_STATE and two times RACECHECK_NO_THREAD. A trace may have any length.
 * Afterwards anything may stand in the first RACECHECK_REPLAY_SPACE numbers of `space`, and the rest is as it was; if `space` was
 * too short, all of it is as it was. */
uint32_t racecheck_replay(
    const uint8_t *program, size_t program_len,
    const uint8_t *trace, size_t trace_len,
    uint32_t *space, size_t space_len,
    uint64_t *line,
    uint32_t *condition,
    uint32_t *location,
    uint64_t *steps,
    uint64_t *state,
    uint32_t *first,
    uint32_t *second);

/* The same of a trace that comes in pieces. It begins with the program, goes on with any number of pieces, and tells, behind any
 * of them, what racecheck_replay tells of the program and of all the pieces as one text:
 *
 *     static uint32_t job[RACECHECK_REPLAY_JOB], space[RACECHECK_REPLAY_SPACE];
 *     uint64_t run[RACECHECK_REPLAY_RUN];
 *     racecheck_replay_begin(program, program_len, job, RACECHECK_REPLAY_JOB, space, RACECHECK_REPLAY_SPACE, run, RACECHECK_REPLAY_RUN);
 *     while ((length = next_lines(piece)) > 0)
 *         racecheck_replay_more(job, RACECHECK_REPLAY_JOB, space, RACECHECK_REPLAY_SPACE, run, RACECHECK_REPLAY_RUN, piece, length);
 *     number = racecheck_replay_told(run, RACECHECK_REPLAY_RUN, &line, &condition, &location, &steps, &state, &first, &second);
 *
 * - A piece may have any length and ends with a line, byte 10; one that does not is the last.
 * - Job, space and run are the replay's from its beginning to its last call: what the next call finds there is what the last one
 *   left, in these buffers or in copies of them. With anything else in them a call is as safe as any other, and promises nothing of
 *   its answer. Behind the numbers that a replay needs each buffer stays as it was.
 * - All the pieces together have less than 2^64 bytes.
 *
 * Begins. Returns the number of the answer so far: 0, or that of a refusal of the program; the run has then stopped. With a space
 * that is too short the run has stopped with 1, and the space is as it was. With a job or a run that is too short it returns 1 and
 * writes nothing. */
uint32_t racecheck_replay_begin(
    const uint8_t *program, size_t program_len,
    uint32_t *job, size_t job_len,
    uint32_t *space, size_t space_len,
    uint64_t *run, size_t run_len);

/* Goes on with a piece. Returns the number of the answer so far: 0 as long as every line is done. A run that has stopped stays as
 * it is, so that a caller may leave the rest of the trace unread. With a job or a run that is too short it returns 1 and writes
 * nothing. */
uint32_t racecheck_replay_more(
    const uint32_t *job, size_t job_len,
    uint32_t *space, size_t space_len,
    uint64_t *run, size_t run_len,
    const uint8_t *piece, size_t piece_len);

/* Tells what has become of the run so far, as racecheck_replay does, and leaves it as it is. Of a run that is too short it tells
 * what is told of a space that is: 1, no steps and no race. */
uint32_t racecheck_replay_told(
    const uint64_t *run, size_t run_len,
    uint64_t *line,
    uint32_t *condition,
    uint32_t *location,
    uint64_t *steps,
    uint64_t *state,
    uint32_t *first,
    uint32_t *second);

#ifdef __cplusplus
}
#endif

#endif
