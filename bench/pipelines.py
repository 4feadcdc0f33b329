"""The processor time of the index and the conversion, as ratios to pipelines of sort, mawk and perl that write the same."""
import os
import resource
import shutil
import subprocess

from common import SWAN, folder, written

LINES = 200_000

WORDS = "{ n = split(tolower($0), w, /[^a-z0-9]+/); for (i = 1; i <= n; i++) if (w[i] != \"\") print w[i], NR }"
UNIQUE = "sort -u -k 1,1 -k 2,2n"
NETSTRINGS = "{ s = \"\"; for (i = 1; i <= NF; i++) s = s length($i) \":\" $i \",\"; print s }"
PERL_WORDS = "for my $w (map { lc } /[A-Za-z0-9]+/g) { $s{$w}{$.} = 1 } END { for my $w (sort keys %s) { print \"$w $_\\n\" for sort { $a <=> $b } keys %{$s{$w}} } }"
PERL_NETSTRINGS = "chomp; print map({ length . \":$_,\" } split /\\t/, $_, -1), \"\\n\""


def text():
    for i in range(LINES):
        yield f"Word{i % 9973} {i * 7919 % 30011}, the-{i % 101}TH and some more of it\n"


def table():
    for i in range(LINES):
        yield f"{i}\t{i * 7919 % 30011}\t{'x' * (i % 17)}\tand some more of it\n"


def seconds(command):
    """The processor seconds of a command of a shell and all that it starts, and what it writes, which is read through a pipe."""
    before = resource.getrusage(resource.RUSAGE_CHILDREN)
    out = subprocess.run(["bash", "-c", command], env=dict(os.environ, LC_ALL="C"), stdout=subprocess.PIPE, stderr=subprocess.DEVNULL, check=True).stdout
    after = resource.getrusage(resource.RUSAGE_CHILDREN)
    return after.ru_utime + after.ru_stime - before.ru_utime - before.ru_stime, out


def compared(command, path, others):
    """Prints the ratios of a command's processor time to those of the others, all run in turns and in the same way."""
    lines = {"swan": f"{SWAN} {command} 1 {path}"} | {tool: line.format(path) for tool, line in others if shutil.which(tool)}
    least, outs = {}, {}
    for _ in range(3):
        for tool, line in lines.items():
            time, outs[tool] = seconds(line)
            least[tool] = min(time, least.get(tool, time))
    print(f"{command}: {least['swan']:.3g} s for {os.path.getsize(path)} bytes")
    for tool in lines:
        if tool != "swan":
            same = "the same" if outs[tool] == outs["swan"] else "OTHER BYTES"
            print(f"{command} to {tool:12} {least['swan'] / least[tool]:6.2f}  {same}")


with folder() as here:
    compared("index", written(here, "text", text()), [
        ("mawk", f"mawk '{WORDS.replace('{', '{{').replace('}', '}}')}' {{}} | {UNIQUE}"),
        ("perl", f"perl -ne '{PERL_WORDS.replace('{', '{{').replace('}', '}}')}' {{}}"),
    ])
    compared("convert", written(here, "table", table()), [
        ("mawk", f"mawk -F '\\t' '{NETSTRINGS.replace('{', '{{').replace('}', '}}')}' {{}}"),
        ("perl", f"perl -ne '{PERL_NETSTRINGS.replace('{', '{{').replace('}', '}}')}' {{}}"),
    ])
