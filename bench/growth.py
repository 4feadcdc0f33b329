"""How time and memory grow with inputs, with texts, with tasks, with the lines of a job and with its names, and with tasks that
wait for each other, by four workers; and how the instructions grow of a record that a task adds to, which needs valgrind."""
from itertools import repeat

import jobs
from common import clock, folder, growth, least, written
from valgrind import instructions

# What several workers may take at most of what one takes, where tasks wait for each other.
AIM = 5

# What a byte of a record of 4n bytes may take at most of what one of n bytes takes.
RECORD_AIM = 1.1

COPY = """swan 1
input lines
output page bytes
task main
  var line bytes
  var none int
  var more int
  do
  empty none lines
  more = not none
  while more
    pop line lines
    push page line
    empty none lines
    more = not none
  end
end
"""


def text(count):
    """Lines of which each has a word that no other one has, and others that come again."""
    for i in range(count):
        yield f"Line{i} {i * 7919 % 30011}, the-{i % 101}TH\n"


def lines_job(count):
    body = "".join(f"  v = add v {i % 10}\n" for i in range(count))
    return f"swan 1\ntask main\n  var v int\n  do\n{body}end\n"


def names_job(count):
    names = "".join(f"  var v{i} int\n" for i in range(count))
    return f"swan 1\ntask main\n{names}  do\n  v0 = set 1\nend\n"


def notes_job(count):
    notes = "# a note\n" * count
    return f"swan 1\ntask main\n{notes}  do\nend\n"


def tasks_job(count):
    tasks = "".join(f"task t{i}\n  do\nend\n" for i in range(count))
    return f"swan 1\n{tasks}task main\n  do\n  spawn 1 t0\nend\n"


def record_job(size):
    """A task that grows a record to so many bytes, 16 at a time."""
    return f"""swan 1
output size int
task main
  var line bytes
  var long int
  var more int
  do
  more = lt long {size}
  while more
    line = cat line "0123456789abcdef"
    long = len line
    more = lt long {size}
  end
  push size long
end
"""


with folder() as here:
    def series(name, words):
        measures = [(times, *least(words(times), 3)) for times in (1, 2, 4)]
        growth(f"{name}: seconds", [(times, seconds) for times, seconds, _ in measures])
        growth(f"{name}: bytes", [(times, memory) for times, _, memory in measures])

    copy = written(here, "copy", [COPY])
    inputs = {times: written(here, f"in{times}", repeat("some text of a line\n", 250_000 * times)) for times in (1, 2, 4)}
    series("elide over n lines", lambda times: ["elide", 10_000_000, copy, inputs[times]])
    texts = {times: written(here, f"text{times}", text(250_000 * times)) for times in (1, 2, 4)}
    series("index of n lines", lambda times: ["index", 1, texts[times]])
    series("convert of n lines", lambda times: ["convert", 1, inputs[times]])
    series("bulk of n lines", lambda times: ["bulk", 7, 75_000 * times, 1])

    made = {times: written(here, f"queues{times}", [jobs.queues_of_children(200_000 * times)]) for times in (1, 2, 4)}
    series("elide of n spawned tasks", lambda times: ["elide", 10_000_000, made[times]])

    def runs(workers, name, job, count):
        """The growth of runs of a job by so many workers. The answer is the longest job."""
        made = {times: written(here, f"run{times}", [job(count * times)]) for times in (1, 2, 4)}
        series(f"run {workers} of {name}", lambda times: ["run", workers, 10_000_000, made[times]])
        return made[4]

    for name, job, count in [
        ("n spawned tasks", jobs.queues_of_children, 100_000),
        ("n inout children", jobs.chain, 100_000),
        ("n readers and a writer", jobs.readers, 100_000),
        ("n producers and a consumer", jobs.producers, 100_000),
        ("n items through five stages", jobs.pipeline, 50_000),
        ("n dives of 60 tasks", jobs.dives, 2_500),
    ]:
        runs(1, name, job, count)

    for name, job, count in [
        ("n inout children", jobs.chain, 50_000),
        ("n poppers of one queue", jobs.poppers, 50_000),
        ("n readers and a writer", jobs.readers, 50_000),
        ("n items through 20 queues with a consumer each", jobs.consumers, 50_000),
    ]:
        longest = runs(4, name, job, count)
        # in turns, so that both meet the same machine
        clocks = [[clock(["run", workers, 10_000_000, longest]) for workers in (1, 4)] for _ in range(3)]
        ratio = min(four for _, four in clocks) / min(one for one, _ in clocks)
        print(f"run 4 of {name}: {ratio:.2f} of run 1 by the clock, aim at most {AIM}")

    for name, text in [
        ("lines", lines_job),
        ("names", names_job),
        ("tasks", lambda n: tasks_job(n // 3)),
        ("notes", notes_job),
    ]:
        made = {times: written(here, f"{name}{times}", [text(4_800 * times)]) for times in (1, 2, 4)}
        series(f"check of a job of n {name}", lambda times: ["check", made[times]])
        series(f"elide of a job of n {name}", lambda times: ["elide", 10_000_000, made[times]])

    sizes = [(times, 262_144 * times) for times in (1, 2, 4)]
    counts = [(times, instructions(here, ["elide"], written(here, f"record{times}", [record_job(size)]))) for times, size in sizes]
    growth("elide of a record of n bytes: instructions", counts)
    print(f"elide of a record of n bytes: aim at most {RECORD_AIM} of linear")
