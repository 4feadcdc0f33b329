"""Instructions and allocations of a run of the built program, as valgrind counts them; needs valgrind."""
import re
import subprocess

from common import SWAN

# More fuel than any of these runs takes.
FUEL = 10_000_000


def said(here, tool, way, job):
    """What valgrind says of a run under one of its tools."""
    report = f"{here}/report"
    words = ["valgrind", f"--tool={tool}", f"--log-file={report}"]
    if tool == "callgrind":
        words.append(f"--callgrind-out-file={here}/profile")
    subprocess.run([*words, str(SWAN), *way, str(FUEL), job], check=True, stdout=subprocess.DEVNULL)
    with open(report, encoding="utf-8") as file:
        return file.read()


def counted(pattern, text):
    """The number that stands after a word of what valgrind says."""
    return int(re.search(pattern, text).group(1).replace(",", ""))


def instructions(here, way, job):
    """The instructions of a run."""
    return counted(r"Collected : ([0-9]+)", said(here, "callgrind", way, job))


def allocations(here, way, job):
    """The allocations of a run."""
    return counted(r"total heap usage: ([0-9,]+) allocs", said(here, "memcheck", way, job))
