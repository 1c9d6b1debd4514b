/* The practice job of K readers (docs/DRILLS.md) for SPIN, a process a thread: the job makes a cell, spawns K threads that
   read it, joins JOINS of them and writes the cell. What a thread does by itself goes with its step before. */

byte cell = 0;
byte reading = 0;      /* how many threads are about to read the cell: each from its spawn on */
bool writing = false;  /* whether the job is about to write it */
chan finished = [0] of { bit };  /* a thread that has finished waits here until some join takes it */

proctype reader()
{
    byte value;

    d_step { value = cell; reading-- };
    finished!0
}

init
{
    byte count = 0;

    do
    :: count < K -> atomic { reading++; run reader(); count++ }
    :: else -> break
    od;
    count = 0;
    do
    :: count < JOINS -> atomic { finished?_; count++ }
    :: else -> break
    od;
    writing = true;
    d_step { cell = 1; writing = false }
}

/* Asked of every state: a race is that two threads are about to touch the cell, one of them to write it. */
never no_race
{
    do
    :: assert(!(writing && reading > 0))
    od
}
