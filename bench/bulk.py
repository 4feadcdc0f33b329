"""The processor time of `bulk` as a ratio to `elide` of the same job and input."""
import re
import subprocess

from common import ROOT, SWAN, folder, run, written

SIZE = 200_000
AIM = 1.2


def job():
    """The generated job, as its definition has it."""
    with open(ROOT / "crates/bulk_workload/specs/Bulk.antt", encoding="utf-8") as file:
        lines = re.findall(r'^ +(?:∷ )?codes "(.*)"$', file.read(), re.M)
    lines = [line.replace('\\"', '"') for line in lines]
    return "\n".join(lines + [f"  spawn {7 * SIZE + 8} fold nums total count summary", "end", ""])


def numbers():
    number = 7
    for _ in range(SIZE):
        yield f"{number}\n"
        number = (21 * number + 7) % 1000


def texts_of(words):
    """What a run writes to standard output and to standard error."""
    ran = subprocess.run([str(SWAN), *map(str, words)], capture_output=True, check=True)
    return ran.stdout, ran.stderr


with folder() as here:
    elided = ["elide", 30 * SIZE + 2000, written(here, "job", [job()]), written(here, "input", numbers())]
    generated = ["bulk", 7, SIZE, 1]
    same = "the same texts" if texts_of(elided) == texts_of(generated) else "OTHER TEXTS"
    # in turns, so that both meet the same machine
    runs = [(run(elided)[0], run(generated)[0]) for _ in range(5)]
    own = min(seconds for _, seconds in runs)
    ratio = own / min(seconds for seconds, _ in runs)
    print(f"bulk of {SIZE} lines: {own:.3g} s, {ratio:.2f} of its elision, {same}; aim: at most {AIM}")
