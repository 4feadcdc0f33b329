"""What the scripts that run the documents share: the built program, the page of the language and its tables, and a count
of what was as it should be."""
import os
import re
import shutil
import subprocess
import tempfile

ROOT = os.path.realpath(os.path.join(os.path.dirname(os.path.abspath(__file__)), ".."))
SWAN = os.path.join(ROOT, "crates/swan/out/swan")
PAGE = os.path.join(ROOT, "docs/LANGUAGE.md")
EXAMPLES = os.path.join(ROOT, "examples")

passed = 0
failed = 0


def want(what, got, wanted):
    global passed, failed
    if got == wanted:
        passed += 1
    else:
        failed += 1
        print(f"FAILED {what}: {got!r} in place of {wanted!r}")


def swan(*words):
    """The code, standard output and standard error of the program."""
    ran = subprocess.run([SWAN, *words], capture_output=True)
    return ran.returncode, ran.stdout, ran.stderr.decode()


def said_of(text):
    """What the check says of a job: `checked`, or the line and the kind."""
    with open("job", "wb") as file:
        file.write(text if isinstance(text, bytes) else text.encode())
    report = swan("check", "job")[2].strip()
    return report.removeprefix("refused ")


# The page: its tables, each with the job that stands above it.


def code_of(cell):
    """The first code of a cell."""
    found = re.match(r"(?:.*?)`(.*?)`", cell)
    return found.group(1) if found else None


def tables_of(lines):
    """Each table as its head, its rows and the last job above it."""
    tables, block, job, table = [], None, None, None
    for line in lines:
        if line.startswith("```"):
            if block is not None and block[:1] in (["swan 1"], ["swan 2"]):
                job = block
            block = [] if block is None else None
            table = None
        elif block is not None:
            block.append(line)
        elif line.startswith("|") and table is None:
            table = ([cell.strip() for cell in line.strip("|").split("|")], [], job)
            tables.append(table)
        elif line.startswith("|") and not line.startswith("|--"):
            table[1].append([cell.strip() for cell in line.strip("|").split("|")])
        elif not line.startswith("|"):
            table = None
    return tables


def text_of(*names):
    """The text of a file of the repository."""
    with open(os.path.join(ROOT, *names)) as file:
        return file.read()


def tables_of_the_page():
    return tables_of(text_of(PAGE).splitlines())


def counted(name, work):
    """Does the work in a folder of its own, and answers whether something failed."""
    here = tempfile.mkdtemp()
    os.chdir(here)
    try:
        work()
    finally:
        os.chdir("/")
        shutil.rmtree(here)
    print(f"{name}: {passed} passed, {failed} failed")
    return failed != 0
