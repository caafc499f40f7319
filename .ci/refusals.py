#!/usr/bin/env python3
"""Refuses the growths of memory of the calls in crates/refusals one by one.

Runs each test with its growth of number N refused, for N = 1, 2, .. up to the first run in which none is. A test prints 'NAME begins' before a call, and behind it
'NAME done' or 'NAME refused'. growths.txt there lists how many growths a call makes: it passes where it was refused at so many, and done in the last run. Faults are
a run that fails or leaves a block of memory, a call that is done though a growth was refused in it, or refused though none was, and one that isn't listed once. A
call that does without memory prints 'NAME answered' either way, and counts as refused where a growth was refused in it.
"""
import collections
import os
import re
import subprocess
import sys
import tempfile

TOP = os.path.dirname(os.path.dirname(os.path.realpath(__file__)))
CRATE = f"{TOP}/crates/refusals"
PROGRAM = f"{CRATE}/out/refusals_tests"


def build(library):
    """Builds the tests, where they aren't built or older than the crates, and the library that refuses a growth."""
    changed = "crates crates.txt ( -name out -o -name wrong -o -name must-fail -o -name growths.txt ) -prune -o -type f -newer crates/refusals/out/refusals_tests -print -quit"
    if not os.access(PROGRAM, os.X_OK) or subprocess.run(["find", *changed.split()], cwd=TOP, stdout=subprocess.PIPE, check=True).stdout:
        subprocess.run(["rt", "test"], cwd=CRATE, check=True)
    subprocess.run([os.environ.get("CC", "cc"), "-D_GNU_SOURCE", "-shared", "-fPIC", "-fno-builtin", "-o", library, f"{TOP}/.ci/refuse_growth.c"], check=True)


class Run:
    """A run of a test with one growth refused: the calls that it printed as done and as refused, and its faults."""

    def __init__(self, library, test, growth):
        told = {**os.environ, "LD_PRELOAD": library, "REFUSED_GROWTH": str(growth)}
        ran = subprocess.run([PROGRAM, test], env=told, stdout=subprocess.PIPE, stderr=subprocess.STDOUT, text=True, timeout=60, check=False)
        self.done, self.refused, self.faults, self.has_refused = [], [], [], False
        call, within = None, False
        for line in map(str.strip, ran.stdout.splitlines()):
            what = re.fullmatch(r"(.*) (begins|done|refused|answered)", line)
            if line == "growth refused":
                self.has_refused = within = True
            elif what and what[2] == "begins":
                call, within = what[1], False
            elif what and what[2] == "answered":
                (self.refused if within else self.done).append(what[1])
                call, within = None, False
            elif what:
                # one that doesn't print that it begins is alone in its test
                if (what[2] == "refused") != within and (call == what[1] or what[2] == "refused" or self.has_refused):
                    self.faults.append(f"{line}, with a growth refused within it" if within else line)
                getattr(self, what[2]).append(what[1])
                call, within = None, False
        if ran.returncode or "test result: ok" not in ran.stdout or "blocks left: 0" not in ran.stdout:
            self.faults.append(ran.stdout)


def compare(done, refused):
    """The faults of the calls, and how many calls are as they are listed."""
    faults, listed = [], collections.Counter()
    with open(f"{CRATE}/growths.txt", encoding="utf-8") as rows:
        for growths, call in (row.strip().split(" ", 1) for row in rows if row[:1].isdigit()):
            listed[call] += 1
            if (done[call], refused[call]) != (1, int(growths)):
                faults.append(f"{call}: done {done[call]} times, and refused at {refused[call]} growths, and not at {growths}")
    faults += [f"{call}: listed twice" for call, times in listed.items() if times > 1]
    faults += [f"{call}: not listed" for call in done.keys() - listed.keys()]
    return faults, len(listed) - len(faults)


def main():
    done, refused, faults = collections.Counter(), collections.Counter(), []
    with tempfile.TemporaryDirectory() as work:
        library = f"{work}/refuse_growth.so"
        build(library)
        tests = subprocess.run([PROGRAM, "--list"], stdout=subprocess.PIPE, text=True, check=True).stdout
        for test in re.findall(r"^(\S+): test$", tests, re.M):
            for growth in range(1, 200):
                run = Run(library, test, growth)
                faults += [f"{test}, growth {growth}: {fault}" for fault in run.faults]
                refused.update(run.refused)
                if run.faults or not run.has_refused:
                    break
            done.update(run.done)
    more, passed = compare(done, refused)
    faults += more
    print(*(f"failed: {fault}" for fault in faults), f"growths refused within the calls: {refused.total()}", sep="\n")
    print(f"refusals: {max(passed, 0)} passed, {len(faults)} failed")
    return bool(faults)


if __name__ == "__main__":
    sys.exit(main())
