"""Programs of benches that use crates of the repository: built by `rt run`, or tried by `rt try`.

The crates are those of the repository that this file is in, or of the one that the environment
variable BENCH_ROOT names.
"""
import os, re, shutil, subprocess, sys, tempfile
from pathlib import Path
from typing import NamedTuple
from measured import SMOKE

ROOT = Path(os.environ.get("BENCH_ROOT") or Path(__file__).resolve().parent.parent)
EMPTY = "unitadm-inventory 1\nend\n"


class Program(NamedTuple):
    """The program of a bench: the name of its crate, the text of its src/main.rt, and the crates
    that this text names, of the repository and of the kit.

    The text is kept in the bench, since the merge gate refuses .rt files outside of crates.
    """

    name: str
    source: str
    crates: list


def listed():
    """The lines of crates.txt, each under the name of its crate, and the crates that it uses."""
    lines = {}
    for line in (ROOT / "crates.txt").read_text().splitlines():
        head, _, uses = line.partition("#")[0].partition(":")
        if head.strip():
            # After the name there may be words such as may_wait=2, which rt reads.
            lines[head.split()[0]] = line, re.split(r"[\s,]+", uses.strip())
    return lines


def closure(names, lines):
    """The crates of the repository among these, and all crates of the repository below them."""
    found, left = set(), list(names)
    while left:
        name = left.pop()
        if name in lines and name not in found:
            found.add(name)
            left += lines[name][1]
    return [name for name in lines if name in found]


def share(file, to):
    """Links a file that was built, or copies it to another disk. A crate has gigabytes of them, and
    the toolchain writes a new file instead of changing one."""
    try:
        os.link(file, to)
    except OSError:
        shutil.copy2(file, to)


def lay_out(folder, program, with_out):
    """Makes a repository of the program and copies of the crates that it needs, with or without
    what was built of them, and returns the folder of the program's crate."""
    lines, crates = listed(), Path(folder, "crates")
    needed = closure(program.crates, lines)
    for name in needed:
        crate, out = ROOT / "crates" / name, ROOT / "crates" / name / "out"
        shutil.copytree(crate, crates / name, ignore=shutil.ignore_patterns("out"))
        if with_out and out.is_dir():
            shutil.copytree(out, crates / name / "out", copy_function=share)
    rows = [lines[name][0] for name in needed] + [f"{program.name}: {' '.join(program.crates)}"]
    Path(folder, "crates.txt").write_text("".join(f"{row}\n" for row in rows))
    crate = crates / program.name
    (crate / "src").mkdir(parents=True)
    (crate / "src" / "main.rt").write_text(program.source)
    return crate


def build(folder, program):
    """Proves, builds and links the program in the folder, and returns its path. What is built of
    the repository's crates is taken as it is, so that they aren't proved again."""
    crate = lay_out(folder, program, with_out=True)
    ran = subprocess.run(["rt", "run"], cwd=crate, input=EMPTY, text=True, capture_output=True)
    if ran.returncode != 0:
        sys.exit(f"{ran.stdout}{ran.stderr}{program.name} wasn't built: status {ran.returncode}")
    return str(crate / "out" / program.name)


def try_runs(crate, given, runs):
    """What the program of this crate prints in each of these runs on one input; a run is the words
    that the program is given. `rt try` compiles it once, with checks and without any proof."""
    with tempfile.TemporaryDirectory() as cases:
        for n, words in enumerate(runs):
            Path(cases, str(n)).write_text(given)
            Path(cases, f"{n}.args").write_text("".join(f"{word}\n" for word in words))
        how = {"stdin": subprocess.DEVNULL, "text": True, "capture_output": True}
        ran = subprocess.run(["rt", "try", "--cases", cases], cwd=crate, **how)
    printed = dict(re.findall(r"^== (\d+)\n(.*\n)", ran.stdout, re.M))
    well = re.findall(r"^case=\d+ run=ended status=0 ", ran.stderr, re.M)
    if ran.returncode != 0 or not len(printed) == len(well) == len(runs):
        sys.exit(f"{ran.stdout}{ran.stderr}rt try failed: status {ran.returncode}")
    return [printed[str(n)] for n in range(len(runs))]


def runner(folder, program):
    """A function of an input and of several runs on it, each a list of words for the program: it
    returns what the program prints in each. In a full run the program is built, in a smoke run it
    is tried."""
    if SMOKE:
        crate = lay_out(folder, program, with_out=False)
        return lambda given, runs: try_runs(crate, given, runs)
    path = build(folder, program)

    def outputs(given, runs):
        how = {"input": given, "text": True, "stdout": subprocess.PIPE, "check": True}
        return [subprocess.run([path, *map(str, words)], **how).stdout for words in runs]

    return outputs
