"""What several workers gain and what they cost, by the clock: the speed-up on tasks that work alone, and what a spawned task takes
with two workers as a ratio to one.

A machine that is shared gives four threads what four processors would give at some times alone. So the speed-up is told by what four runs
by one worker each, which share nothing, get of it right before and right after.
"""
import os
from statistics import median

import jobs
from common import ROOT, clock, folder, run, written

FUEL = 10_000_000

# Tasks that work alone, and the turns of each, which have five steps.
TASKS, TURNS = 32, 60_000

# The least speed-up from one worker to four, where four processors are there: where four runs at once get so many of them.
SPEED_UP, FREE = 3, 3.5

# How often the two are measured in turns.
ROUNDS = 80

# Items that go through five stages, and items that come in bursts.
ITEMS = 50_000

# Tasks that end at once, and what one of them may take with two workers at most of what it takes with one.
CHILDREN = 300_000
COST = 3


def rounds(job, numbers, times=5):
    """The least seconds by the clock with each of these numbers of workers, in turns, so that all meet the same machine."""
    runs = [[clock(["run", workers, FUEL, job]) for workers in numbers] for _ in range(times)]
    return [min(column) for column in zip(*runs)]


def shares(job):
    """In each round, how many processors four runs at once get, and how many times as fast four workers are as one."""
    one, four = (["run", workers, FUEL, job] for workers in (1, 4))
    for _ in range(ROUNDS):
        before, alone = clock(one, 4), clock(one)
        by_four = clock(four)
        alone, after = (alone + clock(one)) / 2, clock(one, 4)
        yield 4 * alone / ((before + after) / 2), alone / by_four


def by_shares(found, bounds=(0, 2, 2.5, 3, FREE, 5)):
    """Prints the speed-ups by what four runs at once got."""
    for least, below in zip(bounds, bounds[1:]):
        gains = [gain for share, gain in found if least <= share < below]
        if gains:
            aim = f", aim of tasks that work alone at least {SPEED_UP}" if least == FREE else ""
            print(f"  where four runs at once got {least} to {below} processors, {len(gains)} of {len(found)} rounds: {median(gains):.2f} times as fast{aim}")


def spent(job, workers, times=3):
    """The least seconds of processors."""
    return min(run(["run", workers, FUEL, job])[0] for _ in range(times))


with folder() as here:
    print(f"{len(os.sched_getaffinity(0))} processors")
    empty = written(here, "empty", ["swan 1\ntask main\n  do\nend\n"])
    numbers = (1, 2, 3, 4, 8)
    start = rounds(empty, numbers)

    coarse = written(here, "works", [jobs.works(TASKS, TURNS)])
    taken = [seconds - base for seconds, base in zip(rounds(coarse, numbers), start)]
    for workers, seconds in zip(numbers, taken):
        print(f"{TASKS} tasks of {5 * TURNS} steps of work with {workers} workers: {seconds:.3g} s, {taken[0] / seconds:.2f} times as fast")
    for name, job in [("these tasks", coarse), ("examples/quarters.swan", ROOT / "examples" / "quarters.swan")]:
        print(f"{name} with 4 workers, by the median of rounds")
        by_shares(list(shares(job)))

    for name, text in [("items through five stages", jobs.pipeline(ITEMS)), ("items in bursts", jobs.bursts(ITEMS))]:
        handed = written(here, "handed", [text])
        taken = [seconds - base for seconds, base in zip(rounds(handed, numbers), start)]
        for workers, seconds in zip(numbers, taken):
            print(f"{ITEMS} {name} with {workers} workers: {seconds:.3g} s, {seconds / taken[0]:.2f} of one")

    children = written(here, "children", [jobs.children(CHILDREN)])
    taken = [(seconds - base) / CHILDREN for seconds, base in zip(rounds(children, numbers), start)]
    for workers, each in zip(numbers, taken):
        own = spent(children, workers) / CHILDREN
        aim = f", aim at most {COST}" if workers == 2 else ""
        print(f"a spawned task with {workers} workers: {each * 1e9:.0f} ns by the clock and {own * 1e9:.0f} of processors, {each / taken[0]:.2f} of one{aim}")
