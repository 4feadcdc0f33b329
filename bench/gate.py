"""What the gate costs, by crate.

    python3 bench/gate.py --whole [LOG]  runs the whole gate from nothing, and nothing is taken of an earlier run
    python3 bench/gate.py [CRATE..]      runs `rt ci CRATE` for each, the lowest first; all crates where none is named

The whole from nothing is `rt ci --anew`, or plain `rt ci` with a kit that doesn't know that word, since such a kit keeps nothing
of a gate. It takes no crate's name either, and then there is nothing by crate to run.

Of the whole gate it prints when each part was done, in minutes from the start, and then what it took by the clock and of
processors; begin it with `taskset -c 0,1` for what it takes on two of them. All lines of that run go to LOG, which lies outside
the repository, or to a file in a new temporary folder, whose path it prints first. Before each line stand two numbers: the
minutes from the start, and the minutes of processors of all checks, tests and programs that had ended. `bench/dearest.py LOG`
reads it.

Of crates it prints a line each as it ends: the minutes of processors that its run took, those by the clock, and what the run
said last. Such a run takes what the gate kept of an earlier one, so the first figures of a text are those from nothing; a crate
that is kept costs what its tests and programs take. Processor time depends less on what else the machine does than the clock,
but a loaded machine can double it too.
"""
import pathlib
import resource
import subprocess
import sys
import tempfile
import time

from common import taken

ROOT = pathlib.Path(__file__).resolve().parent.parent


def crates():
    """The libraries that each crate stands on, by its name."""
    found = {}
    for line in (ROOT / "crates.txt").read_text().splitlines():
        head, _, below = line.partition(":")
        if head and not head.startswith("#"):
            found[head.split()[0]] = below.split()
    return found


def lowest_first(below):
    """The names of all crates, each after those that it stands on."""
    order = []

    def visit(name):
        if name in below and name not in order:
            for other in below[name]:
                visit(other)
            order.append(name)

    for name in below:
        visit(name)
    return order


def spent():
    """The seconds of processors that all ended children took."""
    usage = resource.getrusage(resource.RUSAGE_CHILDREN)
    return usage.ru_utime + usage.ru_stime


def from_nothing():
    """The words by which the kit's gate proves all from nothing. Where there are no crates a kit says at once whether it knows them."""
    words = ["rt", "ci", "--anew"]
    with tempfile.TemporaryDirectory(prefix="swan-gate-") as nowhere:
        said = subprocess.run(words, cwd=nowhere, stdout=subprocess.PIPE, stderr=subprocess.STDOUT, text=True).stdout
    return words[:2] if said.startswith("usage: ") else words


def whole(path):
    """Runs the whole gate from nothing, writes each of its lines with its two numbers to the log, and answers its status."""
    print(f"its log is {path}", flush=True)
    began = time.monotonic()
    with open(path, "w", buffering=1) as log, subprocess.Popen(
        from_nothing(), cwd=ROOT, stdout=subprocess.PIPE, stderr=subprocess.STDOUT, text=True, errors="replace"
    ) as run:
        for line in run.stdout:
            minutes = (time.monotonic() - began) / 60
            log.write(f"{minutes:7.2f} {taken(run.pid)[1] / 60:7.2f} {line}")
            if line.startswith("rt: ") or "must-fail" in line or " passed, " in line:
                print(f"{minutes:7.1f}  {line.rstrip()}", flush=True)
    print(f"{(time.monotonic() - began) / 60:.1f} minutes by the clock, {spent() / 60:.1f} of processors, status {run.returncode}")
    return run.returncode


def main(words):
    if words[:1] == ["--whole"] and len(words) <= 2:
        sys.exit(whole(words[1] if len(words) > 1 else f"{tempfile.mkdtemp(prefix='swan-gate-')}/log"))
    if from_nothing() == ["rt", "ci"]:
        sys.exit("the gate of this kit takes no crate's name: python3 bench/gate.py --whole")
    order = lowest_first(crates())
    unknown = [word for word in words if word not in order]
    if unknown:
        sys.exit(f"no such crate: {' '.join(unknown)}")
    failed = False
    for name in [name for name in order if not words or name in words]:
        before, began = spent(), time.monotonic()
        run = subprocess.run(["rt", "ci", name], cwd=ROOT, stdout=subprocess.PIPE, stderr=subprocess.STDOUT, text=True)
        last = run.stdout.strip().splitlines()[-1:] or [""]
        minutes, clock = (spent() - before) / 60, (time.monotonic() - began) / 60
        print(f"{name:18} {minutes:7.1f} {clock:7.1f}  {last[0]}", flush=True)
        if run.returncode != 0:
            failed = True
            print(run.stdout[-4000:], flush=True)
    sys.exit(1 if failed else 0)


if __name__ == "__main__":
    main(sys.argv[1:])
