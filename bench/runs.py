"""The processor time and the memory of `run 1` as ratios to `elide` of the same jobs, and the time of a step of the core."""
import subprocess

import jobs
import loops
from common import SWAN, folder, run, written

FUEL = 10_000_000


def texts_are_the_same(job):
    """Ends the script where the two ways to run a job write other texts."""
    texts = [subprocess.run([str(SWAN), *words, str(FUEL), job], capture_output=True) for words in (["run", "1"], ["elide"])]
    if (texts[0].stdout, texts[0].stderr) != (texts[1].stdout, texts[1].stderr):
        raise SystemExit(f"{job}: other texts")


def both(job, times=5):
    """The least seconds and the least memory by the runtime and by the elision, in turns, so that both meet the same machine."""
    runs = [(run(["run", 1, FUEL, job]), run(["elide", FUEL, job])) for _ in range(times)]
    return [[min(pair[way][what] for pair in runs) for what in (0, 1)] for way in (0, 1)]


with folder() as here:
    empty = both(written(here, "empty", ["swan 1\ntask main\n  do\nend\n"]))
    for name, text, steps in [
        ("spawn, its child's end, sync", jobs.spawns(20_000), 3 * jobs.ROW * 20_000),
        ("push and pop", jobs.pushes(20_000), 2 * jobs.ROW * 20_000),
        ("read and write", jobs.reads(20_000), 2 * jobs.ROW * 20_000),
    ]:
        job = written(here, "steps", [text])
        texts_are_the_same(job)
        ran, elided = both(job)
        own, other = ran[0] - empty[0][0], elided[0] - empty[1][0]
        print(f"{name:34} {own / steps * 1e9:7.1f} ns a step, {own / other:6.2f} of elide")

    for name, text, aim in [
        ("a queue for each child", jobs.queues_of_children(200_000), 4),
        ("a chain of inout children", jobs.chain(200_000), 4),
        ("readers and a writer", jobs.readers(200_000), 4),
        ("producers and a consumer", jobs.producers(200_000), 4),
        ("five stages of a pipeline", jobs.pipeline(200_000), 4),
        ("dives", jobs.dives(10_000), 4),
        ("queues and other steps", loops.queues(100_000), 4),
        ("int arithmetic", loops.ints(1_500_000), 1.2),
        ("text", loops.texts(750_000), 1.2),
    ]:
        job = written(here, "job", [text])
        texts_are_the_same(job)
        ran, elided = both(job)
        print(f"{name:34} {ran[0]:7.3g} s, {ran[0] / elided[0]:6.2f} of elide, aim at most {aim}")

    ran, elided = both(written(here, "children", [jobs.children(1_000_000)]), 3)
    print(f"a root that spawns 1,000,000 children: {ran[0] / elided[0]:.2f} of the time and {ran[1] / elided[1]:.2f} of the memory of elide, aim at most 2")
