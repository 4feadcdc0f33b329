"""What the scripts share: they run the built program and take the least of several times, and read what a process took."""
import os
import pathlib
import subprocess
import tempfile
import time
from concurrent.futures import ThreadPoolExecutor

ROOT = pathlib.Path(__file__).resolve().parent.parent
SWAN = ROOT / "crates" / "swan" / "out" / "swan"
TICKS = os.sysconf("SC_CLK_TCK")


def folder():
    return tempfile.TemporaryDirectory(prefix="swan-bench-")


def written(here, name, pieces):
    """The path of a new file of these pieces of ASCII in the folder."""
    path = f"{here}/{name}"
    with open(path, "w", encoding="ascii") as file:
        file.writelines(pieces)
    return path


def run(words, status=0):
    """The processor seconds and the peak memory in bytes of one run."""
    with tempfile.TemporaryFile() as report:
        child = subprocess.Popen([str(SWAN), *map(str, words)], stdout=subprocess.DEVNULL, stderr=report)
        _, ended, usage = os.wait4(child.pid, 0)
        seconds = usage.ru_utime + usage.ru_stime
        child.returncode = os.waitstatus_to_exitcode(ended)
        if child.returncode != status:
            report.seek(0)
            raise SystemExit(f"swan {words} ended with {child.returncode}: {report.read(200)!r}")
    return seconds, usage.ru_maxrss * 1024


def taken(process):
    """The seconds of processors that the process of this number took so far, and those of its children that have ended."""
    fields = pathlib.Path(f"/proc/{process}/stat").read_text().rpartition(")")[2].split()
    return sum(map(int, fields[11:13])) / TICKS, sum(map(int, fields[13:15])) / TICKS


def clock(words, number=1):
    """The seconds by the clock that so many runs take that begin at once."""
    with ThreadPoolExecutor(number) as pool:
        began = time.monotonic()
        for _ in pool.map(run, [words] * number):
            pass
        return time.monotonic() - began


def least(words, times=5):
    """The least seconds and the least peak memory of several runs."""
    runs = [run(words) for _ in range(times)]
    return min(seconds for seconds, _ in runs), min(memory for _, memory in runs)


def growth(name, measures):
    """Prints the measures of n, 2n and 4n, and their ratios to linear growth from n on."""
    first = measures[0][1]
    for times, measure in measures:
        ratio = measure / (first * times)
        print(f"{name:34} {times}n  {measure:12.4g}  {ratio:5.2f} of linear")
