/* Calls every entry through include/racecheck.h: what each returns and stores, at once in two threads, and how much stack. */
#define _POSIX_C_SOURCE 200809L
#include <pthread.h>
#include <stdio.h>
#include <string.h>

#include "racecheck.h"

#define MARK 0xa5
#define THREADS 2
#define ROUNDS 200

static const char PROGRAM[] = "P,5\nlet,0\nref,0\nint,0\nread,0\nvar,0\n";
static const char SPLIT[] = "C2,1,1,2,1,0\nint,0,0\nref,0,0\n1\n0,0,\n1,0,\n0,0,\n0,0,\n1,0,\n";
static const char NOTHING[] = "C2,1,1,2,1,0\nint,0,0\nref,0,0\n0\n0,0,\n1,0,\n0,0,\n0,0,\n1,0,\n";
static const char TO_FILL[] = "C2,1,1,2,1,0\nint,0,0\nref,0,0\n1\n0,,\n1,,\n0,,\n0,,\n1,,\n";
static const char FILLED[] = "C2,1,1,2,6,0\nint,0,0\nref,0,0\n1\n1\n1\n1\n1\n1\n0,1,\n1,2,\n0,3,\n0,4,\n1,5,\n";

/* A thread reads the cell that the first one writes; and the order that leads there. */
static const char RACING[] =
    "P,13\nlet,0\nref,0\nint,0\nlet,1\nnewtid,0\nlet,2\nspawn,0\nvar,1\nread,0\nvar,0\nwrite,0\nvar,0\nint,1\n";
static const char ORDER[] = "0,0\n0,0\n0,0\n0,0\n0,0\n0,0\n";

/* A procedure makes a cell, which is read; and one that calls itself for ever, with more lines than calls may be open. */
static const char CALLING[] = "P2,5,1\nproc,0\nref,0\nvar,0\nread,0\ncall,0\nint,7\n";
static const char ENDLESS[] = "P2,4,1\nproc,0\ncall,0\nvar,0\ncall,0\nint,0\n";
#define TEN_LINES "0,0\n0,0\n0,0\n0,0\n0,0\n0,0\n0,0\n0,0\n0,0\n0,0\n"
static const char NESTED[] = TEN_LINES TEN_LINES TEN_LINES TEN_LINES TEN_LINES TEN_LINES TEN_LINES;

/* The buffers of one caller. */
struct desk {
    uint32_t work[RACECHECK_WORK];
    uint32_t space[RACECHECK_REPLAY_SPACE];
    uint32_t job[RACECHECK_REPLAY_JOB + 1];
    uint64_t run[RACECHECK_REPLAY_RUN + 1];
    uint8_t out[RACECHECK_SPLIT_BYTES];
    uint8_t program[RACECHECK_DRILL_PROGRAM_BYTES];
    uint8_t split[RACECHECK_DRILL_SPLIT_BYTES];
    uint8_t deep_program[3072];
    uint8_t deep_split[3072];
    const char *wrong;
};

static void want(struct desk *desk, int holds, const char *what)
{
    if (!holds && desk->wrong == NULL)
        desk->wrong = what;
}

static uint32_t check(struct desk *desk, const void *program, size_t n, const void *split, size_t m, uint32_t numbers[3])
{
    return racecheck_check(program, n, split, m, desk->work, RACECHECK_WORK, &numbers[0], &numbers[1], &numbers[2]);
}

static void call_check(struct desk *desk)
{
    uint32_t n[3] = {7, 7, 7};
    want(desk, check(desk, PROGRAM, strlen(PROGRAM), SPLIT, strlen(SPLIT), n) == 0, "a pair is accepted");
    want(desk, n[0] == 0 && n[1] == 0 && n[2] == 0, "an accepted pair stores three zeros");
    want(desk, check(desk, PROGRAM, strlen(PROGRAM), NOTHING, strlen(NOTHING), n) == 33, "a read with nothing is refused");
    want(desk, n[0] == 5 && n[1] == 4 && n[2] == 0, "a refusal stores its line, condition and location");
    want(desk, check(desk, PROGRAM, 0, SPLIT, 0, n) == 11 && n[0] == 1, "an empty text is refused");
    want(desk, racecheck_check((const uint8_t *)PROGRAM, 1, (const uint8_t *)SPLIT, 1, desk->work, RACECHECK_WORK - 1, &n[0], &n[1], &n[2]) == 1,
         "too little work space is told");
}

static void call_drill(struct desk *desk, uint32_t seed)
{
    uint32_t next, program, split, n[3];
    memset(desk->program, MARK, sizeof desk->program);
    want(desk, racecheck_drill(seed, desk->program, sizeof desk->program, desk->split, sizeof desk->split, &next, &program, &split) == 0,
         "a practice pair is made");
    want(desk, program == sizeof desk->program || desk->program[program] == MARK, "behind a practice pair all is as it was");
    want(desk, check(desk, desk->program, program, desk->split, split, n) == 0, "a practice pair is accepted");
    want(desk, racecheck_drill(seed, desk->program, 0, desk->split, 0, &next, &program, &split) == 38 && next + program + split == 0,
         "a short buffer is told");
}

static void call_fill(struct desk *desk)
{
    uint32_t length, n[3];
    memset(desk->out, MARK, sizeof desk->out);
    want(desk, racecheck_fill((const uint8_t *)PROGRAM, strlen(PROGRAM), (const uint8_t *)TO_FILL, strlen(TO_FILL), desk->work, RACECHECK_WORK,
         desk->out, sizeof desk->out, &length, &n[1], &n[2]) == 0, "a split is filled");
    want(desk, length == strlen(FILLED) && memcmp(desk->out, FILLED, length) == 0, "the filled split is as it should be");
    want(desk, desk->out[length] == MARK, "behind the filled split all is as it was");
    want(desk, check(desk, PROGRAM, strlen(PROGRAM), desk->out, length, n) == 0, "the filled split is accepted");
    want(desk, racecheck_fill((const uint8_t *)PROGRAM, strlen(PROGRAM), (const uint8_t *)TO_FILL, strlen(TO_FILL), desk->work, RACECHECK_WORK,
         desk->out, 0, &length, &n[1], &n[2]) == 42, "an output buffer that is too short is told");
}

/* What a replay returns and stores. */
struct replayed {
    uint64_t line, steps, state;
    uint32_t number, condition, location, first, second;
};

static struct replayed replay(struct desk *desk, const char *program, const void *trace, size_t length, size_t space)
{
    struct replayed r = {7, 7, 7, 7, 7, 7, 7, 7};
    r.number = racecheck_replay((const uint8_t *)program, strlen(program), trace, length, desk->space, space,
        &r.line, &r.condition, &r.location, &r.steps, &r.state, &r.first, &r.second);
    want(desk, r.condition == 0 && r.location == 0, "a replay stores no condition and no location");
    return r;
}

static void call_replay(struct desk *desk)
{
    struct replayed r = replay(desk, PROGRAM, "0,0\n0,0\n0,0\n", 12, RACECHECK_REPLAY_SPACE);
    want(desk, r.number == 0 && r.line == 0 && r.steps == 3, "an order is done");
    want(desk, r.state == RACECHECK_NO_STATE && r.first == RACECHECK_NO_THREAD && r.second == RACECHECK_NO_THREAD,
         "an order without a race stores none");
    r = replay(desk, RACING, ORDER, strlen(ORDER), RACECHECK_REPLAY_SPACE);
    want(desk, r.number == 0 && r.steps == 6, "an order with a race is done");
    want(desk, r.state == 6 && r.first == 0 && r.second == 1, "a race is stored with its state and threads");
    r = replay(desk, RACING, ORDER, strlen(ORDER) - 1, RACECHECK_REPLAY_SPACE);
    want(desk, r.number == 46 && r.line == 6 && r.steps == 5, "a line that is not closed is refused");
    want(desk, r.state == RACECHECK_NO_STATE, "a race behind a refused line is not stored");
    r = replay(desk, "", ORDER, 0, RACECHECK_REPLAY_SPACE);
    want(desk, r.number == 11 && r.line == 1 && r.steps == 0, "a program that is not well formed is refused");
    r = replay(desk, CALLING, "0,0\n0,0\n0,0\n", 12, RACECHECK_REPLAY_SPACE);
    want(desk, r.number == 0 && r.steps == 3, "an order with a call is done");
    r = replay(desk, ENDLESS, NESTED, strlen(NESTED), RACECHECK_REPLAY_SPACE);
    want(desk, r.number == 48 && r.line == 65 && r.steps == 64, "the 65th open call is refused");
    desk->space[0] = MARK;
    r = replay(desk, PROGRAM, ORDER, 0, RACECHECK_REPLAY_SPACE - 1);
    want(desk, r.number == 1 && r.line == 0 && desk->space[0] == MARK, "too little space is told, and left as it was");
}

static uint32_t begin(struct desk *desk, const char *program, size_t job, size_t run)
{
    return racecheck_replay_begin((const uint8_t *)program, strlen(program), desk->job, job, desk->space, RACECHECK_REPLAY_SPACE, desk->run, run);
}

static uint32_t more(struct desk *desk, const char *piece, size_t length)
{
    return racecheck_replay_more(desk->job, RACECHECK_REPLAY_JOB, desk->space, RACECHECK_REPLAY_SPACE, desk->run, RACECHECK_REPLAY_RUN,
        (const uint8_t *)piece, length);
}

static struct replayed told(struct desk *desk, size_t run)
{
    struct replayed r = {7, 7, 7, 7, 7, 7, 7, 7};
    r.number = racecheck_replay_told(desk->run, run, &r.line, &r.condition, &r.location, &r.steps, &r.state, &r.first, &r.second);
    want(desk, r.condition == 0 && r.location == 0, "a replay in pieces stores no condition and no location");
    return r;
}

static void call_pieces(struct desk *desk)
{
    struct replayed r;
    size_t line;
    desk->job[RACECHECK_REPLAY_JOB] = desk->run[RACECHECK_REPLAY_RUN] = MARK;
    want(desk, begin(desk, RACING, RACECHECK_REPLAY_JOB + 1, RACECHECK_REPLAY_RUN + 1) == 0, "a replay in pieces is begun");
    for (line = 0; line < strlen(ORDER); line += 4)
        want(desk, more(desk, ORDER + line, 4) == 0, "a piece is done");
    want(desk, desk->job[RACECHECK_REPLAY_JOB] == MARK && desk->run[RACECHECK_REPLAY_RUN] == MARK, "behind job and run all is as it was");
    r = told(desk, RACECHECK_REPLAY_RUN);
    want(desk, r.number == 0 && r.line == 0 && r.steps == 6, "an order in pieces is done");
    want(desk, r.state == 6 && r.first == 0 && r.second == 1, "a race in pieces is stored with its state and threads");
    want(desk, more(desk, "9,0\n", 4) == 47 && more(desk, "0,0\n", 4) == 47, "a line that cannot be done stops the run");
    r = told(desk, RACECHECK_REPLAY_RUN);
    want(desk, r.number == 47 && r.line == 7 && r.steps == 6 && r.state == 6, "a stopped run is told with its race");
    want(desk, begin(desk, "", RACECHECK_REPLAY_JOB, RACECHECK_REPLAY_RUN) == 11 && more(desk, ORDER, 4) == 11, "a refused program stays so");
    want(desk, begin(desk, PROGRAM, RACECHECK_REPLAY_JOB - 1, RACECHECK_REPLAY_RUN) == 1, "a short job is told");
    want(desk, begin(desk, PROGRAM, RACECHECK_REPLAY_JOB, RACECHECK_REPLAY_RUN - 1) == 1, "a short run is told");
    want(desk, told(desk, RACECHECK_REPLAY_RUN).number == 11, "a short buffer is left as it was");
    r = told(desk, RACECHECK_REPLAY_RUN - 1);
    want(desk, r.number == 1 && r.steps == 0 && r.state == RACECHECK_NO_STATE, "a short run is told by 1");
}

/* Appends a line as often as is said, and returns the new length. */
static size_t lines(uint8_t *text, size_t length, const char *line, int times)
{
    for (; times > 0; times--, length += strlen(line))
        memcpy(text + length, line, strlen(line));
    return length;
}

/* The deepest job there is, 255 loops one inside the other: it takes the most stack. */
static void call_deepest(struct desk *desk)
{
    static const char HEAD[] = "C2,1,1,1,1,0\nint,0,0\n1\n";
    uint8_t *program = desk->deep_program, *split = desk->deep_split;
    uint32_t n[4];
    uint64_t at[3];
    size_t steps = lines(program, lines(program, lines(program, 0, "P,256\n", 1), "while,0\n", 255), "int,0\n", 1);
    size_t rows = lines(split, lines(split, 0, HEAD, 1), "0,0,\n", 256);
    want(desk, check(desk, program, steps, split, rows, n) == 0, "the deepest job is accepted");
    want(desk, racecheck_replay(program, steps, (const uint8_t *)"0,0\n0,0\n", 8, desk->space, RACECHECK_REPLAY_SPACE,
         &at[0], &n[0], &n[1], &at[1], &at[2], &n[2], &n[3]) == 0, "the deepest job is replayed");
    rows = lines(split, lines(split, 0, HEAD, 1), "0,,\n", 256);
    want(desk, racecheck_fill(program, steps, split, rows, desk->work, RACECHECK_WORK, desk->out, sizeof desk->out, &n[0], &n[1], &n[2])
         == 0, "the deepest job is filled");
}

static struct desk desks[THREADS];

static void *caller(void *own)
{
    uint32_t round;
    for (round = 0; round < ROUNDS; round++) {
        call_check(own);
        call_drill(own, round * 2654435761u);
        call_fill(own);
        call_replay(own);
        call_pieces(own);
    }
    call_deepest(own);
    return NULL;
}

/* Runs a caller on a stack of its own and says how many bytes of it were ever written. */
static unsigned char stacks[THREADS][RACECHECK_STACK_BYTES + 16384] __attribute__((aligned(4096)));

int main(void)
{
    pthread_t threads[THREADS];
    int number, wrong = 0;
    memset(stacks, MARK, sizeof stacks);
    for (number = 0; number < THREADS; number++) {
        pthread_attr_t how;
        if (pthread_attr_init(&how) || pthread_attr_setstack(&how, stacks[number], sizeof stacks[number])
            || pthread_create(&threads[number], &how, caller, &desks[number])) {
            puts("no thread could be started");
            return 1;
        }
    }
    for (number = 0; number < THREADS; number++) {
        size_t free_bytes = 0;
        pthread_join(threads[number], NULL);
        while (stacks[number][free_bytes] == MARK)
            free_bytes++;
        printf("stack %zu\n", sizeof stacks[number] - free_bytes);
        if (desks[number].wrong != NULL) {
            printf("wrong: %s\n", desks[number].wrong);
            wrong = 1;
        }
    }
    return wrong;
}
