"""Which functions, tests and wrong bodies of a crate take longest to check.

    python3 bench/dearest.py CRATE [NUMBER]           runs the check of the crate with its tests, one job
    rt .. | python3 bench/dearest.py - [NUMBER]       reads what such a command writes
    python3 bench/dearest.py --modules CRATE [NUMBER] reads when the last check of the crate wrote each of its modules
    python3 bench/dearest.py --again CRATE [NUMBER [FUNCTION ..]]
                                                      checks the longest of the last check and each FUNCTION once more, and reads that
    python3 bench/dearest.py --edits CRATE [NUMBER]   tries each wrong body of the crate by a check of a copy, one job
    python3 bench/dearest.py LOG [NUMBER]             reads the log of a whole gate, as `bench/gate.py --whole LOG` writes it

Prints the NUMBER longest, ten where none is said, and one more for each FUNCTION. Of functions and tests it tells seconds of processors, from one
line of the check to the next: they grow on a machine that does other work too, but less than those by the clock, which it tells of lines from a pipe.
What an earlier check kept isn't checked again, also one in another checkout on this machine: where all is to be measured, no checkout may have an
`out/` of the crate.

What a function stands on is read when the first function needs it, and counts with that one. A large crate is checked some functions at a time,
each time in a new process, which reads again; so does the gate for what wrong bodies begin with, but it proves a crate in one process.

What a function takes itself is told better by its modules, of which a check writes some fifteen for each function, and one for each file
of `specs/` and `proofs/`. Of each that the last check wrote it tells the seconds by the clock since the one before: first by function, the
NUMBER longest, and then by module; and last the kilobytes of the NUMBER largest of all that are kept, which no other work of the machine
changes. Let the check go by one job, and from nothing, without the crate's `out/`, where all is to be told. What a
new process reads counts with the first module that it writes. The module `Lts` holds the ways through the code, and grows with each place in
which an owned value may end; `Proof` and `Tie` grow with what is left to show. So the check of a function gets shorter where what ends
in several places is given up by `drop`, and where what is asserted of one row is a function of its own.

What a function takes itself is told better still by `--again`: the NUMBER functions that took longest in the last check, by their modules, are
checked once more with one job, some forty of them in one process. What they stand on is read when the first of them needs it, most of it in that
one's `Tie` and `Code.Mir`. So one that takes long there, and alone is given some large type, is checked once more together with a FUNCTION that is
given the same and is checked before it, as those are that it calls: by its name in the first of the lists, and no more than those forty in all. The
first test of a crate also makes what all its tests are given, in the module `Instances`.

Of wrong bodies it tells seconds of processors, and first those of a check in which nothing has changed: each wrong body costs that at least. The
crate has to be proved before, since they begin with what its check kept.

The log of a gate can't tell what a function, a test or a wrong body takes. The gate writes the lines of a crate in one piece, once it is
proved, those of its tests in another, and of functions no more than that they are proved; what became of each wrong body it writes once all
are tried. So of a log it tells by crate when the proof, that of its tests and its wrong bodies were done, and the seconds of processors of
all that ended since the piece before: the whole check, however long ago it began. Where wrong bodies of other crates, or the checks that they
begin with, ended meanwhile, these are counted there too, and of wrong bodies the gate says only when the first of a crate is begun: theirs
is what ended from there until the first of the next. Tests and programs run alone at the end, so theirs are exact. Of a log whose lines have
the minutes from the start alone it tells seconds by the clock, which say little of checks side by side.
"""
import collections
import pathlib
import re
import resource
import shutil
import subprocess
import sys
import tempfile
import time

from common import taken

ROOT = pathlib.Path(__file__).resolve().parent.parent
CHECKED = re.compile(r"checked (\S+), \d+ of \d+")
STARTS = re.compile(r"(?:library|statements|crate|so far: 0 of) ")
STAMPED = re.compile(r"((?: *\d+\.\d\d)+) (?:==|rt:) (.*)")
TRIES = re.compile(r"(\S+): trying its must-fail edits ")
PART = re.compile(
    r"(?:\+run)?\.(?:Answers|Carried|Code|Given|Goals|Instances|Invariants|Key|Kinds|Layout|Lts|Met|Mir|Named|Proof|Reads|Statement|Symbol"
    r"|The[A-Z]\w*|Tie|decls)\b.*|\+run$"
)
CHECK = ["rt", "check", "--jobs", "1"]


def of_all(process):
    """The seconds of processors that a process and all that it began took so far."""
    try:
        seconds = sum(taken(process))
        below = [path.read_text() for path in pathlib.Path(f"/proc/{process}/task").glob("*/children")]
    except OSError:
        return 0.0
    return seconds + sum(map(of_all, " ".join(below).split()))


def timed(lines, so_far):
    """The seconds that each function and test took, by name, where the call tells the seconds so far."""
    last = so_far()
    for line in lines:
        now = so_far()
        found = CHECKED.search(line)
        if found:
            yield now - last, found[1]
        if found or STARTS.match(line):
            last = now


def of_crate(crate):
    """The seconds of processors that each function and test of a crate took, by name."""
    with subprocess.Popen([*CHECK, "--test"], cwd=ROOT / "crates" / crate, stdout=subprocess.PIPE, stderr=subprocess.STDOUT, text=True) as child:
        yield from timed(child.stdout, lambda: of_all(child.pid))


def of_gate(lines):
    """The seconds that ended with each piece of a gate's log, by what the piece is of."""
    last, bodies = 0.0, None
    for line in lines:
        found = STAMPED.match(line)
        if found:
            stamps, what = [float(stamp) for stamp in found[1].split()], found[2]
            tries = TRIES.match(what)
            if tries or what.startswith("must-fail "):
                what, bodies = bodies, tries and f"{tries[1]}: its wrong bodies"
            if what and stamps[-1] > last:
                yield (stamps[-1] - last) * 60, f"{what}, after {stamps[0]:.1f} minutes"
                last = stamps[-1]


def of_module(crate, path):
    """The name of the module of a crate that this file keeps, without what all of them begin with."""
    return re.sub(rf"^Rattle-{crate}-(?:proofs|specs)\.(?:contracts\.)?", "", path.stem)


def written_by(crate):
    """The seconds between the modules that the last check of a crate wrote, by function, and then by module; and the kilobytes of all, by module."""
    own = ROOT / "crates" / crate
    if not own.is_dir():
        raise SystemExit(f"there is no crate {crate}")
    kept = [path for path in (own / "out" / "incremental").glob("*/*") if path.suffix == ".oantt" or path.name == "rattle-last-used"]
    times = {path: path.stat().st_mtime for path in kept}
    begun = max((at for path, at in times.items() if path.name == "rattle-last-used"), default=None)
    if begun is None:
        raise SystemExit(f"no check of {crate} has kept anything")
    functions, modules, sizes, last = collections.Counter(), collections.Counter(), collections.Counter(), begun
    for at, path in sorted((at, path) for path, at in times.items() if path.suffix == ".oantt"):
        name = of_module(crate, path)
        sizes[name] = path.stat().st_size / 1000
        if at >= begun:
            functions[PART.sub("", name)] += at - last
            modules[name] += at - last
            last = at
    return (functions, "s"), (modules, "s"), (sizes, "kB")


def forget(crate, most, others):
    """Removes what is kept of the functions that took longest in the last check of a crate, and of these others."""
    (functions, _), _, (sizes, _) = written_by(crate)
    kept = {PART.sub("", module) for module in sizes}
    for name in others:
        if name not in kept:
            raise SystemExit(f"no check of {crate} has kept a {name}")
    names = {name for name, _ in functions.most_common(most)}.union(others)
    for path in (ROOT / "crates" / crate / "out" / "incremental").rglob("*.oantt"):
        if PART.sub("", of_module(crate, path)) in names:
            path.unlink()


def copied(here, crate):
    """The crate's folder in a copy of the repository there. The others' files are shared, since no check of it writes them."""
    for name in ("crates.txt", "HANDLES"):
        shutil.copy(ROOT / name, here)
    (here / ".git").mkdir()
    (here / "crates").mkdir()
    for folder in sorted((ROOT / "crates").iterdir()):
        subprocess.run(["cp", "-a" if folder.name == crate else "-al", folder, here / "crates"], check=True)
    return here / "crates" / crate


def changed(edit, own):
    """The texts of the files that a wrong body changes, by their paths."""
    texts, path, old = {}, None, None
    for line in edit.read_text().split("\n"):
        if line.startswith("file: "):
            path = own / line[len("file: "):].strip()
        elif line.startswith("old: "):
            old = line[len("old: "):]
        elif line.startswith("new:"):
            texts.setdefault(path, path.read_text())
            if texts[path].count(old) != 1:
                raise SystemExit(f"{edit.name}: what it changes isn't there exactly once")
            texts[path] = texts[path].replace(old, line[len("new:"):].removeprefix(" "))
    return texts


def spent(own):
    """The seconds of processors of a check in this folder, and its status."""
    before = resource.getrusage(resource.RUSAGE_CHILDREN)
    status = subprocess.run(CHECK, cwd=own, stdout=subprocess.DEVNULL, stderr=subprocess.DEVNULL).returncode
    after = resource.getrusage(resource.RUSAGE_CHILDREN)
    return after.ru_utime + after.ru_stime - before.ru_utime - before.ru_stime, status


def tried(crate):
    """The seconds that each wrong body of a crate takes, by name."""
    with tempfile.TemporaryDirectory(prefix="swan-edits-", dir=ROOT.parent) as folder:
        own = copied(pathlib.Path(folder), crate)
        if spent(own)[1]:
            raise SystemExit(f"{crate} isn't proved")
        print(f"{spent(own)[0]:8.1f} s  where nothing has changed")
        kept = own.parent.parent / "kept"
        subprocess.run(["cp", "-a", own / "out", kept], check=True)
        for edit in sorted((own / "must-fail").glob("*.edit")):
            texts = changed(edit, own)
            was = {path: path.read_text() for path in texts}
            for path, text in texts.items():
                path.write_text(text)
            seconds, status = spent(own)
            yield seconds, edit.stem + ("" if status else ", which is NOT refused")
            for path, text in was.items():
                path.write_text(text)
            shutil.rmtree(own / "out")
            subprocess.run(["cp", "-a", kept, own / "out"], check=True)


def main(words):
    """Prints the longest of what the words name."""
    option = words.pop(0) if words[:1] in (["--again"], ["--edits"], ["--modules"]) else None
    if not words:
        raise SystemExit(__doc__)
    number, others = words[1] if len(words) > 1 else "10", words[2:]
    if not number.isdigit() or (others and option != "--again"):
        raise SystemExit(__doc__)
    most = int(number)
    if option == "--again":
        forget(words[0], most, others)
        most += len(others)
        subprocess.run([*CHECK, "--test"], cwd=ROOT / "crates" / words[0], stdout=subprocess.DEVNULL, check=True)
    if option in ("--again", "--modules"):
        lists = ["\n".join(f"{much:8.1f} {unit}  {name}" for name, much in part.most_common(most)) for part, unit in written_by(words[0])]
        print("\n\n".join(lists))
        return
    if option == "--edits":
        found = tried(words[0])
    elif words[0] == "-":
        found = timed(sys.stdin, time.monotonic)
    elif pathlib.Path(words[0]).is_file():
        found = of_gate(pathlib.Path(words[0]).read_text(errors="replace").splitlines())
    else:
        found = of_crate(words[0])
    for seconds, name in sorted(found, reverse=True)[:most]:
        print(f"{seconds:8.1f} s  {name}")


if __name__ == "__main__":
    main(sys.argv[1:])
