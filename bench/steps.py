"""The processor time of a step: lines of int arithmetic, of text and of queues, as ratios to the like loop in python3."""
import time
from collections import deque

import loops
from common import folder, least, run, written

TURNS = 1_500_000
TEXT_TURNS = 750_000
QUEUE_TURNS = 100_000

EMPTY = "swan 1\ntask main\n  do\nend\n"


def ints():
    i = s = 0
    more = i < TURNS
    while more:
        i = i + 1
        s = s + i
        more = i < TURNS
    return s


def texts():
    i = 0
    line = b"some text with a few words in it"
    more = i < TEXT_TURNS
    while more:
        at = line.find(119, 0)
        part = line[at:14]
        at = line.find(102, at)
        part = line[at:20]
        at = line.find(119, at)
        part = line[at:26]
        at = line.find(105, at)
        part = line[at:29]
        i = i + 1
        more = i < TEXT_TURNS
    return len(part)


def queues():
    i = s = 0
    q = deque()
    more = i < QUEUE_TURNS
    while more:
        k = 8
        while k:
            q.append(k)
            k = k - 1
        none = not q
        more = not none
        while more:
            k = q.popleft()
            s = s + k
            none = not q
            more = not none
        i = i + 1
        more = i < QUEUE_TURNS
    return s


def seconds_of(function):
    """The processor seconds of one call."""
    began = time.process_time()
    function()
    return time.process_time() - began


with folder() as here:
    start, _ = least(["elide", 10, written(here, "empty", [EMPTY])])
    for name, text, function, steps in [
        ("int arithmetic", loops.ints(TURNS), ints, loops.INT_STEPS * TURNS),
        ("text", loops.texts(TEXT_TURNS), texts, loops.TEXT_STEPS * TEXT_TURNS),
        ("queues", loops.queues(QUEUE_TURNS), queues, loops.QUEUE_STEPS * QUEUE_TURNS),
    ]:
        job = written(here, name.split()[0], [text])
        # in turns, so that both meet the same machine
        runs = [(run(["elide", 10_000_000, job])[0], seconds_of(function)) for _ in range(5)]
        seconds = min(mine for mine, _ in runs) - start
        other = min(theirs for _, theirs in runs)
        print(f"{name:16} {seconds / steps * 1e9:6.1f} ns a step, {seconds / other:5.2f} of the loop in python3")
