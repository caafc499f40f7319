#!/usr/bin/env python3
"""Runs the parts of the tests or of the gate, and adds up what they count.

usage: .ci/parts.py test|gate|run

test is what `make test` runs, gate what `make gate` runs, and run is both, for .ci/run. docs/develop/README.md says what each part shows.

A part is a command. What it counts is its last line `[NAME: ]N passed, M failed[, K skipped]`, or what rt counts of a crate's tests; without such a line, or if
it fails though it counts no failure, it counts as one failed. The last line adds up the counts, and the status is 0 where none failed. Whatever ends this script,
all processes that it has started end with it, and its folder goes. Before the last line come the lines that name what failed, since CI shows the end alone.
"""
import contextlib
import ctypes
import glob
import itertools
import os
import re
import shlex
import shutil
import signal
import subprocess
import sys
import tempfile
import threading
import time

TOP = os.path.dirname(os.path.dirname(os.path.realpath(__file__)))
COUNTS = re.compile(r"^(?:[a-z. ]+: |test result: .*\. )?(\d+) passed[,;] (\d+) failed(?:, (\d+) skipped$|;.*$|$)", re.MULTILINE)
# The lines that name a failure, by part.sh, unittest, Node, cargo, the mutants and rt, and the line below which this script repeats them.
NAMES_FAILURE = re.compile(r"failed: |(FAIL|ERROR|FAILED)\b|\s*not ok |\s*✖ |(mutant|test) .*(NOT REFUSED|BAD EDIT|FAILED)|.*(not proved|open goal)")
REPEATED = "What failed:"
LEFT_OUT = shutil.ignore_patterns(".git", "out", "target", "dist", "environment", "__pycache__")
# The parts of the tests, in the order in which they start, two at a time: the longest first, and the pages, which show what others build, last.
TESTS = (".ci/javascript.sh --quick", ".ci/cargo.sh --quick", ".ci/c_library.sh --quick", ".ci/python_package.sh --quick", ".ci/postgres.sh --quick",
         ".ci/sqlite.sh --quick", ".ci/scaling.sh", ".ci/pictures.sh", "python3 .ci/pages.py --quick")
# The parts of the gate that rest on no proof, and those after the proofs. The tests of the C library move what is built, so others run after them, in three
# lanes, each in about the time of the first.
WITHOUT_PROOFS = ("python3 .ci/test_ci.py", "scripts/widths.sh --check")
C_LIBRARY = ".ci/c_library.sh"
LANES = ((".ci/elsewhere.sh",),
         (".ci/cargo.sh --rest", ".ci/sqlite.sh", ".ci/qgis.sh", ".ci/long_tests.sh", "python3 .ci/refusals.py", ".ci/scaling.sh", ".ci/pictures.sh"),
         (".ci/python_package.sh", ".ci/postgres.sh", ".ci/javascript.sh", ".ci/dist.sh", "python3 .ci/pages.py"))
AFTER_PROOFS = (C_LIBRARY, *itertools.chain(*LANES))
# The mutants of the core, below which there is no library, are tried beside rt ci, over what it has proved as it begins to try those in must-fail/. Those of
# the other crates are tried over the libraries that rt ci has built, beside the parts after the proofs, once the C library is built over them too, since its
# mutants are tried over what its build keeps.
TRIES_CORE = "rt: i_shape_core: trying its must-fail edits"
MUTANTS_OF_CORE = "nice -n 10 python3 .ci/wrong.py --quick --lanes 1 --only i_shape_core"
BUILDS_C = "sh -c 'python3 .ci/mark_proved.py; bash bindings/c/build.sh && echo make c: 1 passed, 0 failed'"
OTHER_MUTANTS = "nice -n 5 python3 .ci/wrong.py --quick --except i_shape_core"


def counts_of(said, status):
    """How many tests a part passed, failed and skipped that said this and ended with this status, and what is wrong with its counts, if something is."""
    *_, last = [None, *COUNTS.findall(said)]
    if not last:
        return (0, 1, 0), "no count was given by"
    passed, failed, skipped = (int(count or 0) for count in last)
    if status and not failed:
        return (passed, 1, skipped), "it counts no failure, but fails"
    return (passed, failed, skipped), None


def failures_in(said):
    """The lines of what a part said that name a failure: those that it repeats itself, or the first six, or the last three if none is seen to."""
    lines = said.splitlines()
    if REPEATED in lines:
        return list(itertools.takewhile(lambda line: not COUNTS.match(line), lines[len(lines) - lines[::-1].index(REPEATED):]))
    return [line for line in dict.fromkeys(lines) if NAMES_FAILURE.match(line)][:6] or lines[-4:-1]


def sum_line(counts):
    passed, failed, skipped = (sum(column) for column in zip((0, 0, 0), *counts))
    return f"{passed} passed, {failed} failed" + (f", {skipped} skipped" if skipped else "")


def running_below(top):
    """The processes that this one has started, and those that these have, but for those that have ended."""
    parents = {}
    for name in filter(str.isdigit, os.listdir("/proc")):
        with contextlib.suppress(OSError), open(f"/proc/{name}/stat", encoding="utf-8", errors="replace") as stat:
            state, parent = stat.read().rpartition(")")[2].split()[:2]
            if state != "Z":
                parents[int(name)] = int(parent)
    below = {top}
    while more := {pid for pid, parent in parents.items() if parent in below} - below:
        below |= more
    return below - {top}


class Parts:
    """A run of parts, with what they count and a folder, which rt's programs and tests reach as nobody."""

    def __init__(self):
        self.counts, self.failures, self.is_over, self.lock = [], [], False, threading.RLock()
        # set when rt ci begins to try the edits of the core, or ends
        self.tries_core = threading.Event()
        # PR_SET_CHILD_SUBREAPER: what a part leaves behind stays below this process.
        ctypes.CDLL(None).prctl(36, 1)
        self.take_signals(lambda *_: sys.exit(130))
        self.work = tempfile.mkdtemp()
        os.chmod(self.work, 0o755)
        os.environ["TMPDIR"] = self.work

    @staticmethod
    def take_signals(handler):
        for number in (signal.SIGHUP, signal.SIGINT, signal.SIGTERM):
            signal.signal(number, handler)

    def run(self, command, folder):
        """Runs a part in a folder, and prints what it says."""
        lines = []

        def listen(said):
            try:
                for line in said:
                    lines.append(line)
                    print(line, end="", flush=True)
                    if line.startswith(TRIES_CORE):
                        self.tries_core.set()
            except OSError:
                # the reader of the output has gone
                os.kill(os.getpid(), signal.SIGTERM)

        how = {"stdin": subprocess.DEVNULL, "stdout": subprocess.PIPE, "stderr": subprocess.STDOUT, "text": True, "errors": "replace"}
        try:
            with self.lock:
                part = sys.exit() if self.is_over else subprocess.Popen(shlex.split(command), cwd=folder, **how)
        except OSError as error:
            return self.add(command, (0, 1, 0), f"it doesn't start, {error}")
        listener = threading.Thread(target=listen, args=[part.stdout], daemon=True)
        listener.start()
        _, part.returncode, used = os.wait4(part.pid, 0)
        # a process that it has left behind may hold its output open
        listener.join(10)
        print(f"processor minutes: {(used.ru_utime + used.ru_stime) / 60:.1f} ({command})", flush=True)
        said = "".join(lines)
        self.add(command, *counts_of(said, part.returncode), failures_in(said))

    def run_all(self, commands, folder):
        for command in commands:
            self.run(command, folder)

    def add(self, what, counts, fault=None, failures=()):
        if fault:
            print(f"{fault}: {what}", flush=True)
        self.counts.append(counts)
        if counts[1]:
            self.failures += [f"{what}: {fault or f'{counts[1]} failed'}", *failures]

    def attempt(self, function, *words):
        """Runs a function. What stops it counts as one failed."""
        try:
            function(self, *words)
        except OSError as error:
            self.add(function.__name__, (0, 1, 0), f"it stopped, {error}")

    def beside(self, *words):
        """Runs a function beside what follows, in the thread that is returned."""
        thread = threading.Thread(target=self.attempt, args=words, daemon=True)
        thread.start()
        return thread

    def end(self):
        """Ends all that was started: by a signal first, so that it can tidy up, and then whatever it does."""
        self.take_signals(signal.SIG_IGN)
        with self.lock:
            self.is_over = True
        for turn in range(20):
            # twice, since a process changes its parent while it is looked for where that one ends
            running = running_below(os.getpid()) or running_below(os.getpid())
            if not running:
                break
            for pid in running if turn in (0, 10, 15) else []:
                with contextlib.suppress(ProcessLookupError):
                    os.kill(pid, signal.SIGKILL if turn else signal.SIGTERM)
            time.sleep(0.1)
        shutil.rmtree(self.work, ignore_errors=True)


def run_tests(parts):
    left = iter(TESTS)
    for lane in [parts.beside(Parts.run_all, left, TOP) for _ in range(2)]:
        lane.join()


def run_beside_proofs(parts, copy):
    """In a copy of the crates, since rt ci moves what other commands keep in its checkout out of the way."""
    shutil.copytree(TOP, copy, symlinks=True, ignore=LEFT_OUT)
    parts.run_all(WITHOUT_PROOFS, copy)
    parts.tries_core.wait()
    # Without that folder, as where rt ci has tried the edits before, the mutants prove the core themselves.
    for seed in glob.glob(f"{parts.work}/rt-edits-*/seed"):
        with contextlib.suppress(OSError, shutil.Error):
            shutil.copytree(seed, f"{copy}/crates/i_shape_core/out/incremental", symlinks=True, copy_function=link_or_copy)
    parts.run(MUTANTS_OF_CORE, copy)


def link_or_copy(one, other):
    """Gives a file of proved work, which is replaced but never changed, a second name, and copies any other file."""
    return os.link(one, other) if one.endswith(".oantt") else shutil.copy2(one, other)


def run_gate(parts):
    """All in copies of the checkout, so that what is built in the checkout stays as it is."""
    checkout, mutants = f"{parts.work}/checkout", f"{parts.work}/mutants"
    shutil.copytree(TOP, checkout, symlinks=True, ignore=LEFT_OUT)
    beside = parts.beside(run_beside_proofs, f"{parts.work}/copy")
    parts.run("rt ci", checkout)
    parts.tries_core.set()
    parts.run(BUILDS_C, checkout)
    shutil.copytree(checkout, mutants, symlinks=True, copy_function=link_or_copy)
    beside_others = parts.beside(Parts.run, OTHER_MUTANTS, mutants)
    parts.run(C_LIBRARY, checkout)
    for thread in [*(parts.beside(Parts.run_all, commands, checkout) for commands in LANES), beside_others, beside]:
        thread.join()


def run_both(parts):
    """What the tests skip because it isn't built the gate runs."""
    parts.run("make -s test", TOP)
    parts.counts = [(passed, failed, 0) for passed, failed, _ in parts.counts]
    parts.run("make -s gate", TOP)


def main():
    runs = {"test": run_tests, "gate": run_gate, "run": run_both}
    if sys.argv[1:] not in [[name] for name in runs]:
        sys.exit("usage: .ci/parts.py test|gate|run")
    sys.stdout.reconfigure(errors="replace")
    parts = Parts()
    try:
        try:
            parts.attempt(runs[sys.argv[1]])
        finally:
            # also where a signal ends this
            if parts.failures:
                print(REPEATED, *parts.failures, sep="\n", flush=True)
        print(sum_line(parts.counts), flush=True)
        return any(failed for _, failed, _ in parts.counts)
    finally:
        parts.end()


if __name__ == "__main__":
    sys.exit(main())
