"""Instructions and allocations of a step, counted by valgrind as the difference of two lengths of a run; needs valgrind."""
import jobs
import loops
from common import folder, written
from valgrind import allocations, instructions

# The turns of the shorter run; the longer one has twice as many.
TURNS = 2_000
ROWS = 200

ELIDE, RUN = ["elide"], ["run", "1"]


def compared(here, name, way, job, turns, steps):
    """Prints what a turn of a job takes, by runs of so many turns and of twice as many."""
    short = written(here, "short", [job(turns)])
    long = written(here, "long", [job(2 * turns)])
    step = (instructions(here, way, long) - instructions(here, way, short)) / (turns * steps)
    made = allocations(here, way, long) - allocations(here, way, short)
    print(f"{' '.join(way):6} {name:30} {step:8.1f} instructions a step, {made} allocations in {turns * steps} steps")


with folder() as here:
    for name, job, steps in [
        ("int arithmetic", loops.ints, loops.INT_STEPS),
        ("text", loops.texts, loops.TEXT_STEPS),
        ("queues", loops.queues, loops.QUEUE_STEPS),
    ]:
        compared(here, name, ELIDE, job, TURNS, steps)
    for name, job, steps in [
        ("spawn, its child's end, sync", jobs.spawns, 3 * jobs.ROW),
        ("push and pop", jobs.pushes, 2 * jobs.ROW),
        ("read and write", jobs.reads, 2 * jobs.ROW),
    ]:
        for way in (RUN, ELIDE):
            compared(here, name, way, job, ROWS, steps)
