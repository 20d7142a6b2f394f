"""What the benches share: arguments, sizes, lines of results, and runs whose time and memory are
measured."""
import argparse, fcntl, os, re, select, struct, subprocess, sys, tempfile, termios, time
from typing import NamedTuple

# A smoke run shows whether a bench still works: one turn on the smallest size. This is read before
# the arguments are parsed, since the benches choose their sizes with it when they are loaded.
SMOKE = "--smoke" in sys.argv[1:]
# A line of results says what was measured, and after a colon the numbers.
RESULT = re.compile(r".*: .*\d")


def sized(full, smoke):
    """A size, a number of turns or a list of these: that of a full run, or that of a smoke run."""
    return smoke if SMOKE else full


RUNS = sized(5, smoke=1)
ENOUGH = 10


def arguments(doc, **positionals):
    """The arguments of a bench: --smoke, and those named here, with their options for argparse."""
    parser = argparse.ArgumentParser(
        description=doc, formatter_class=argparse.RawDescriptionHelpFormatter, allow_abbrev=False
    )
    parser.add_argument("--smoke", action="store_true", help="one turn on the smallest size")
    for name, options in positionals.items():
        parser.add_argument(name, **{"metavar": name.upper(), **options})
    return parser.parse_args()


reported = []


def report(line):
    """Prints a line of results. Without a number in it the bench fails."""
    print(line, flush=True)
    if not RESULT.match(line):
        sys.exit("this line has no number")
    reported.append(line)


def run_bench(main):
    """Runs the main function of a bench, which fails if it reports nothing."""
    main()
    if not reported:
        sys.exit("nothing was measured")


def stop_if_refused(written):
    """Ends the bench if the program refused a call: then the times are those of something else."""
    at = written.find(b" refused: ")
    if at >= 0:
        row = written[written.rfind(b"\n", 0, at) + 1:written.find(b"\n", at)]
        sys.exit(f"a call was refused: {row.decode()}")


def peak_of(child):
    """The peak of memory of a running program, in bytes."""
    with open(f"/proc/{child.pid}/status") as lines:
        sizes = (int(line.split()[1]) * 1024 for line in lines if line.startswith("VmHWM:"))
        return next(sizes, 0)


def peak_of_reading(words, given):
    """The peak of memory once a program has read all of its input and waits for more. That it
    complains in the end, since no more comes, isn't shown."""
    quiet = {"stdout": subprocess.DEVNULL, "stderr": subprocess.DEVNULL}
    env = dict(os.environ, LC_ALL="C")
    child = subprocess.Popen(words, stdin=subprocess.PIPE, env=env, **quiet)
    with open(given, "rb") as stdin:
        child.stdin.write(stdin.read())
        child.stdin.flush()
    while struct.unpack("i", fcntl.ioctl(child.stdin, termios.FIONREAD, b"\0" * 4))[0] > 0:
        time.sleep(0.01)
    time.sleep(0.2)
    peak = peak_of(child)
    child.communicate()
    return peak


class Run(NamedTuple):
    """A run: its wall time and its processor time in seconds, its peak of memory in bytes, and what
    it wrote."""

    taken: float
    worked: float
    peak: int
    written: bytes


def run(words, given):
    """Runs the program on the input.

    The peak of memory is read when the first bytes of output arrive: by then the program has
    allocated all of its memory, and it waits until its other output is read, unless that is short.
    The peak that the system reports for a program that has ended is of no use, since it includes
    the memory of the parent at the time of the fork.
    """
    with open(given, "rb") as stdin:
        start = time.perf_counter()
        child = subprocess.Popen(
            words,
            stdin=stdin,
            stdout=subprocess.PIPE,
            pipesize=4096,
            env=dict(os.environ, LC_ALL="C"),
        )
        select.select([child.stdout], [], [])
        peak = peak_of(child)
        written = child.stdout.read()
        _, status, usage = os.wait4(child.pid, 0)
        taken = time.perf_counter() - start
    child.returncode = os.waitstatus_to_exitcode(status)
    if child.returncode != 0:
        sys.exit(f"{words}: status {child.returncode}")
    return Run(taken, usage.ru_utime + usage.ru_stime, peak, written)


def time_of(words, given):
    """The wall time in seconds of a run that writes to a file. With a pipe half of the time would
    be waiting, which varies a lot."""
    with open(given, "rb") as stdin, tempfile.TemporaryFile() as stdout:
        start = time.perf_counter()
        env = dict(os.environ, LC_ALL="C")
        subprocess.run(words, stdin=stdin, stdout=stdout, env=env, check=True)
        return time.perf_counter() - start


def runs_of(words, given):
    """Five runs, or as many as end within ten seconds; in a smoke run only one."""
    runs = []
    while len(runs) < RUNS and sum(one.taken for one in runs) < ENOUGH:
        runs.append(run(words, given))
    return runs


def least_work(words, given):
    """The run of these that took the least processor time."""
    return min(runs_of(words, given), key=lambda one: one.worked)
