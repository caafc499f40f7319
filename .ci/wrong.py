#!/usr/bin/env python3
"""Tries the mutants in crates/NAME/wrong/: the prover must refuse each at the function that it changes.

docs/develop/README.md says what a mutant is. Edits are put into copies of their crate, at most one for each function, and checked together, over what earlier
checks kept. An edit passes where the prover leaves a goal of its own function open, and one of these is of the clause that the edit names: the goal
'returns-clause-NAME', say, or the goal NAME itself, which may be one of a loop or of a call. A fault of a function that it calls, or a text that cannot be read,
is not enough. Rounds go on until each edit is judged. The libraries below a crate whose edits are tried are proved first, where they aren't.

An edit lists in its line 'goals' those that were open when it was written. With --quick, these are given the answer `search rules` in the copy, where the
function has none. Rattle's own attempt at such a goal fails three times as slowly, and is made again to print what is open. But it proves more, so a right body
may pass by the weaker search. Therefore --quick judges so only the edits of a crate that .ci/judged.txt lists, and those of another crate in full. That file has
a sum for each crate whose edits all passed in full: of the kit, this script, the edits, and the crate with those below it. --write writes it. What passes by
the weaker search isn't noted.

An edit that passed is noted in ~/.cache/raspochre, or below $XDG_CACHE_HOME, by a sum of what it was judged by: the kit, this script, the edit, its crate's line
in crates.txt, the code, contracts and proofs of its crate, and what the libraries below state. While none of these changes, it passes again without a check, in
any clone.
"""
import argparse
import contextlib
import glob
import hashlib
import os
import re
import shutil
import subprocess
import sys
import tempfile
import threading
from concurrent.futures import ThreadPoolExecutor

sys.dont_write_bytecode = True
# the module of the command rt that composes the words of a check
sys.path.insert(0, os.path.dirname(os.path.realpath(shutil.which("rt") or sys.exit("wrong.py: there is no rt on the path"))))
import rtlib as KIT  # noqa: E402

NOTES = f"{os.environ.get('XDG_CACHE_HOME') or os.path.expanduser('~/.cache')}/raspochre/mutants"
# for each so many mutants a crate that is proved gets one more copy, up to the number of lanes
MOST = 40
# two copies of a crate may write into one file of mutants
WRITING = threading.Lock()
# a mutant in the file of its source's mutants
FORM = re.compile(r"mutant: (.+)\nrefused: (.+)\n(?:clause: (.+)\n)?(?:goals: (.+)\n)?((?:old: .+\nnew:.*\n)+)")
# what an error says of a name that is no longer there, or of a proof that rests on one that was refused
GONE = r"has no field|is not in scope|has no `|was not admitted"
# an error of code that could not be read: it names no goal, or says so
UNREAD = (r"(?:\./)?(src/\S+?):\d+:\d+: error: "
          r"(?:(?!`[^`]*`: )|.*(?:is not in scope|has no field|is no name|operand is missing|expected the end|cannot continue))")


def read(file):
    with open(file, encoding="utf-8") as text:
        return text.read()


class Edit:
    """A mutant, as a block of the file of its source's mutants has it."""

    def __init__(self, file, text):
        self.file, self.text, self.goals = file, text, None
        self.crate, _, source = file.partition("/crates/")[2].split("/", 2)
        self.path = f"src/{source.removesuffix('.edit')}.rt"
        form = FORM.fullmatch(text)
        self.name, self.function, self.clause, goals, pairs = form.groups("") if form else (text.partition("\n")[0], "", "", "", "")
        self.open, self.pairs = goals.split(), re.findall("old: (.+)\nnew: ?(.*)\n", pairs)
        # the functions beside whose edits it is not tried, and whether it is tried beside none
        self.apart_from, self.is_alone = set(), False

    def fault(self, folder):
        """Returns what keeps it from being tried on the crate in this folder, or None."""
        if not self.pairs:
            return "its lines are not 'mutant:', 'refused:', 'clause:', 'goals:', and then pairs of 'old:' and 'new:'"
        if not os.path.isfile(f"{folder}/{self.path}"):
            return f"there is no file {self.path} of code"
        # behind the first word of a clause, and before the body or the end of the method
        in_contract = re.compile(r"^ *(?:requires|ensures)\b(?:(?!^ *\{$|;$).)*\Z", re.M | re.S)
        return self.edited(folder)[1] or ("it changes a contract" if any(map(in_contract.search, self.above(folder))) else None)

    def above(self, folder):
        """Returns of each old text what comes before its end."""
        text = read(f"{folder}/{self.path}")
        return [text.partition(old)[0] + old for old, _ in self.pairs]

    def edited(self, folder):
        """Returns the edited source, and why there is none where an old text doesn't occur in it once."""
        text = read(f"{folder}/{self.path}")
        for old, new in self.pairs:
            if text.count(old) != 1:
                return None, f"its old text occurs in {self.path} {text.count(old)} times, and not once"
            text = text.replace(old, new)
        return text, None

    def is_excluded_by(self, goal):
        """Whether the goal is of the clause that the edit names, and not of what a call requires, or the edit names none."""
        return self.clause in ("", goal) or goal.endswith(f"-clause-{self.clause}") and "-requires-" not in goal

    def write_goals(self, goals):
        """Writes into its file which goals were open, and, where it names no clause, that of the first at which the function returns, or of the first."""
        at_return = next((it for it in goals if it.startswith("returns")), None)
        self.open, self.clause = goals, self.clause or (at_return.rpartition("-clause-")[2] if at_return else goals[0])
        before, bare = self.text, re.sub(r"^(clause|goals):.*\n", "", self.text, flags=re.M)
        self.text = re.sub(r"^(refused:.*\n)", rf"\1clause: {self.clause}\ngoals: {' '.join(goals)}\n", bare, count=1, flags=re.M)
        with WRITING:
            whole = read(self.file).replace(before, self.text)
            with open(self.file, "w", encoding="utf-8") as out:
                out.write(whole)

    def answer(self, room):
        """Answers the goals that it lists and that have no answer in this copy of its crate."""
        place = f"{room}/proofs/{self.function.replace('::', '/')}/Answers.antt"
        answers = read(place) if os.path.isfile(place) else ""
        lacking = [it for it in self.open if not re.search(rf"^(?:pub )?{re.escape(it)} :", answers, re.M)]
        if lacking:
            os.makedirs(os.path.dirname(place), exist_ok=True)
            goals = f"Rattle.{self.crate}.proofs.{self.function.replace('::', '.')}.Goals"
            # a file brings a module in under one name
            named = re.search(rf"^use {re.escape(goals)} as (\S+)$", answers, re.M)
            uses = "" if named else f"use {goals} as goal\n"
            uses += "" if re.search(r"\brules\b", answers) else "use Rattle.std.proofs.Common.{rules}\n"
            name = named[1] if named else "goal"
            with open(place, "w", encoding="utf-8") as out:
                out.write(uses + answers + "".join(f"\npub {it} : {name}.{it}\n{it} = search rules\n" for it in lacking))

    def stays_inside(self, folder):
        """Whether each old text lies in the function itself, so that it can change no other. A constant can, where others read it."""
        for above in self.above(folder):
            items = re.findall(r'^ *(?:[\w()"]+ )*(fn|ghost|const|static|struct|enum|type|trait|impl|mod|macro_rules!|use)\b ?(\w*)', above, re.M)
            if items[-1:] != [("fn", self.function.rpartition("::")[2])]:
                return False
        return True


class Found:
    """What a check said of a copy of a crate with some edits in it."""

    def __init__(self, crate, said):
        # a long message goes on in lines that begin with blanks
        self.lines = re.sub(r"\n +", " ", said).splitlines()
        # the goals that a search left open come before the line of their function, also where an answer of it fails
        self.noted, noted = {}, []
        for line in self.lines:
            if at := re.match(r"note: src/\S+: it is not proved that .*? \(`([^`]+)`\)", line):
                noted.append(at[1])
            elif at := re.match(rf"\w+ {crate}::(\S+): ", line):
                self.noted[at[1]], noted = noted, []
        self.verdicts = dict(re.findall(rf"^fn {crate}::(\S+): (.*)$", said, re.M))
        self.has_ended = bool(re.search(r"^only=\d+ proved=\d+$", said, re.M))
        self.at_fault = {name for name, what in self.verdicts.items() if self.is_at_fault(name, what)}

    def is_at_fault(self, function, what):
        """Whether a goal of the function's own is open. A function that calls one at fault has a line too, but no errors of its own."""
        if "it calls" not in what:
            return bool(re.match(r"not proved|no proof", what))
        return "`search` did not prove" in what or any(not re.search(GONE, it) for it in self.errors_of(function))

    def errors_of(self, function):
        """Returns what the errors in the function's own proof say."""
        own = rf"(?:\./)?proofs/{re.escape(function.replace('::', '/'))}/\w+\.antt:\d+:\d+: error: (.*)"
        return [at[1] for at in (re.match(own, line) for line in self.lines) if at]

    def goals_of(self, function):
        """Returns the goals of the function's own that are open, but for those whose answers name what is gone."""
        answered = [it for it in self.errors_of(function) if not re.search(GONE, it)]
        named = [it[1] for it in (re.match(r"`([^`]+)`:", it) for it in answered) if it]
        return list(dict.fromkeys([*self.noted.get(function, []), *named]))

    def unread(self, path):
        """Returns a line that says that the code in this file could not be read, or None."""
        return next((line for line in self.lines if (at := re.match(UNREAD, line)) and at[1] == path), None)

    def names_what_is_gone(self, function):
        """Whether the function's proof fails only because it names what the edit took away."""
        errors = self.errors_of(function)
        return bool(errors) and all(re.search(GONE, it) for it in errors)


def link_or_copy(one, other):
    """Gives a file of proved work, which a check replaces but never changes, a second name, where it can, and copies any other file."""
    with contextlib.suppress(OSError):
        if one.endswith(".oantt"):
            return os.link(one, other)
    return shutil.copy2(one, other)


def report(edit, what):
    print(f"mutant {edit.crate}/{edit.name}: {what}", flush=True)


def stamp_of(crate):
    """Returns a sum of what a check of the crate reads: its files, and the statements of the libraries below it, which are built."""
    folders = [f"{below.rlib}/{part}" for below in crate.below() for part in ("interface", "lang")]
    stated = [f"{at}/{name}" for folder in folders for at, _, names in os.walk(folder) for name in names]
    total = hashlib.sha256(repr((crate.said, crate.has_c, read(f"{KIT.KIT}/WHAT"))).encode())
    for file in [*KIT.files_of(crate.folder), *sorted(stated)]:
        with open(file, "rb") as it:
            total.update(repr((os.path.relpath(file), it.read())).encode())
    return total.hexdigest()


class Judged:
    """The crates whose edits were all refused in full as they are, by .ci/judged.txt: lines of a crate's name and a sum."""

    FILE = ".ci/judged.txt"

    def __init__(self):
        self.sums = dict(line.split() for line in read(self.FILE).splitlines()) if os.path.isfile(self.FILE) else {}

    @staticmethod
    def sum_of(crate, edits):
        judges = read(os.path.realpath(__file__)), read(KIT.__file__), crate.stamp(), [(it.path, it.text) for it in edits]
        return hashlib.sha256(repr(judges).encode()).hexdigest()

    def has(self, crate, edits):
        return self.sums.get(crate.name) == self.sum_of(crate, edits)

    def add(self, crate, edits):
        self.sums[crate.name] = self.sum_of(crate, edits)
        with open(self.FILE, "w", encoding="utf-8") as out:
            out.writelines(f"{name} {total}\n" for name, total in sorted(self.sums.items()))


class Notes:
    """The mutants of one crate that passed on this machine: a file for each, named for the sum of all that it was judged by."""

    def __init__(self, crate):
        self.crate, self.stamp = crate, stamp_of(crate)

    def place(self, edit):
        judges = read(os.path.realpath(__file__)), read(KIT.__file__), self.stamp, edit.path, edit.text
        return f"{NOTES}/{hashlib.sha256(repr(judges).encode()).hexdigest()}"

    def goals_of(self, edit):
        """Returns the goals at which the edit was refused, or None where it isn't noted."""
        with contextlib.suppress(OSError):
            os.utime(self.place(edit))
            return read(self.place(edit)).split()

    def add(self, edits):
        """Notes that these passed, unless the crate has changed since the run began, or there is no room for a note."""
        if edits and self.stamp == stamp_of(self.crate):
            with contextlib.suppress(OSError):
                os.makedirs(NOTES, exist_ok=True)
                for edit in edits:
                    with open(self.place(edit), "w", encoding="utf-8") as note:
                        note.write("\n".join(edit.goals))


def parts_of(crate, edits, lanes):
    """Divides a crate's edits by lanes, unless each lane would have to prove the crate by itself. Those of one function come into different parts, since no two
    are tried together."""
    number = min(lanes if os.path.isdir(f"{crate.folder}/out/incremental") else 1, -(-len(edits) // MOST))
    in_order = sorted(edits, key=lambda it: it.function)
    return [in_order[at::number] for at in range(number)]


class Trial:
    """Mutants of one crate, tried in rounds on one copy of it."""

    def __init__(self, crate, edits, writes, is_quick):
        self.crate, self.left, self.notes, self.writes, self.is_quick, self.passed = crate, edits, Notes(crate), writes, is_quick, []
        self.stamp = crate.stamp()

    def sort_out(self, is_anew):
        """Judges the edits that can't be tried, and those that are noted unless all are tried anew, and marks which of the others are tried alone."""
        for edit in list(self.left):
            if fault := edit.fault(self.crate.folder):
                self.judge(edit, f"BAD EDIT: {fault}")
            elif not is_anew and (goals := self.notes.goals_of(edit)) is not None:
                self.refuse(edit, goals, " by an earlier run")
                self.notes.add([edit] if self.writes else [])
            elif not edit.stays_inside(self.crate.folder):
                edit.is_alone = True
        return self

    def run(self):
        with tempfile.TemporaryDirectory(prefix="wrong-") as room:
            while self.left:
                taken = self.lay_round(room)
                for edit in [] if taken else list(self.left):
                    self.judge(edit, "BAD EDIT: its old text no longer occurs once")
                if not taken:
                    break
                found = self.check(taken, room)
                known = len(self.passed)
                for edit in taken:
                    self.look_at(edit, found, len(taken) == 1)
                self.notes.add([] if self.is_quick else self.passed[known:])

    def is_as_it_was(self):
        """Whether its edits were judged in full, and the crate is as it was before the first round."""
        return not self.is_quick and self.stamp == self.crate.stamp()

    def judge(self, edit, why_not):
        self.left.remove(edit)
        with contextlib.suppress(OSError):
            os.remove(self.notes.place(edit))
        report(edit, why_not)

    def refuse(self, edit, goals, when=""):
        """Takes the edit as refused at these goals."""
        self.left.remove(edit)
        self.passed.append(edit)
        edit.goals = goals
        report(edit, f"refused at {edit.function}{when}: {', '.join(goals)}")
        if self.writes and goals and not (edit.clause and edit.open):
            edit.write_goals(goals)

    def lay_round(self, room):
        """Lays a copy of the crate with as many of the edits that are left as can be tried beside one another, and returns those."""
        # a round keeps what it checked of the mutants, and the right bodies would be proved once more beside the next
        for part, to in (*((part, part) for part in KIT.PARTS), ("out/incremental", "kept")):
            if os.path.isdir(f"{self.crate.folder}/{part}"):
                shutil.rmtree(f"{room}/{to}", ignore_errors=True)
                shutil.copytree(f"{self.crate.folder}/{part}", f"{room}/{to}", copy_function=link_or_copy)
        taken = []
        for edit in self.left:
            text, _ = edit.edited(room)
            if text and all(self.can_stand_beside(edit, other) for other in taken):
                taken.append(edit)
                if self.is_quick:
                    edit.answer(room)
                with open(f"{room}/{edit.path}", "w", encoding="utf-8") as out:
                    out.write(text)
        return taken

    def can_stand_beside(self, edit, other):
        is_apart = edit.function in other.apart_from or other.function in edit.apart_from
        return not is_apart and edit.function != other.function and not edit.is_alone and not other.is_alone

    def check(self, taken, room):
        words = [KIT.RATTLE, "check", *self.crate.words(["--jobs", "1"], keeps=False), "--incremental", f"{room}/kept"]
        for edit in taken:
            words += ["--only", edit.function]
        how = {"stdin": subprocess.DEVNULL, "stdout": subprocess.PIPE, "stderr": subprocess.STDOUT, "errors": "replace"}
        return Found(self.crate.name, subprocess.run([*KIT.guarded(), *words], cwd=room, **how).stdout)

    def look_at(self, edit, found, was_alone):
        """Judges the edit by what a check found. Where that may be another edit's doing, it is left for a later round."""
        own, unread = edit.function, found.unread(edit.path)
        is_judged = found.has_ended and not unread and (own in found.at_fault or found.verdicts.get(own) == "proved")
        if not is_judged and not was_alone:
            edit.apart_from |= found.at_fault - {own}
            edit.is_alone = not found.has_ended or bool(unread) or not edit.apart_from
        elif not found.has_ended:
            complaint = next((it for it in found.lines if "error" in it), (found.lines or ["the check said nothing"])[-1])
            self.judge(edit, f"BAD EDIT: it did not reach the prover: {complaint[:200]}")
        elif unread:
            self.judge(edit, f"BAD EDIT: the prover cannot read the edited text: {unread[:200]}")
        elif own not in found.at_fault:
            others = f", but at {', '.join(sorted(found.at_fault))}" if found.at_fault and was_alone else ""
            self.judge(edit, f"NOT REFUSED at {own}{others}")
        elif found.names_what_is_gone(own):
            self.judge(edit, f"NOT REFUSED at a goal of {own}: its proof names what the edit took away")
        elif not any(map(edit.is_excluded_by, found.goals_of(own) or [""])):
            self.judge(edit, f"NOT REFUSED by the clause {edit.clause} of {own}, but at {', '.join(found.goals_of(own))}")
        else:
            self.refuse(edit, found.goals_of(own))


def main():
    processors = len(os.sched_getaffinity(0))
    parser = argparse.ArgumentParser(description=__doc__, formatter_class=argparse.RawDescriptionHelpFormatter)
    parser.add_argument("--lanes", type=int, default=processors, metavar="N", help="try edits on so many copies of crates at once")
    parser.add_argument("--anew", action="store_true", help="try the edits that are noted too")
    parser.add_argument("--write", action="store_true", help="write .ci/judged.txt, and into edits that pass the lines 'clause' and 'goals' that they lack: read them")
    parser.add_argument("--quick", action="store_true", help="try the edits of crates that .ci/judged.txt lists by a weaker search")
    parser.add_argument("--only", nargs="+", default=[], metavar="WORD", help="try the edits of these crates, and those with one of these words in their names")
    parser.add_argument("--except", nargs="+", default=[], metavar="CRATE", dest="left_out", help="try no edit of these crates")
    asked = parser.parse_args()
    root = os.path.dirname(os.path.dirname(os.path.realpath(__file__)))
    os.chdir(root)
    listed = {it.name: it for it in KIT.crates_below(root)}
    files = sorted(glob.glob(f"{root}/crates/*/wrong/**/*.edit", recursive=True))
    every = [Edit(file, f"{text.rstrip()}\n") for file in files for text in read(file).split("\n\n")]
    chosen = [it for it in every if not asked.only or any(word == it.crate or word in it.name for word in asked.only)]
    chosen = [it for it in chosen if it.crate not in asked.left_out]
    for word in asked.left_out:
        if word not in listed:
            parser.error(f"no crate is named {word}")
    for word in asked.only:
        if word not in listed and not any(word in it.name for it in every):
            parser.error(f"no crate and no mutant is named {word}")
    for edit in chosen:
        if edit.crate not in listed:
            report(edit, "BAD EDIT: crates.txt does not list its crate")
    edits, of_crate = ({crate: [it for it in its if it.crate == name] for name, crate in listed.items()} for its in (chosen, every))
    judged = Judged()
    # its first call sets a signal's handler, which only the main thread may
    KIT.guarded()
    trials = []
    libraries = dict.fromkeys(below for crate, its in edits.items() if its for below in crate.below())
    if all(it.build_rlib(["--jobs", str(processors)], anew=False) == 0 for it in libraries):
        quick = {crate for crate in edits if asked.quick and judged.has(crate, of_crate[crate])}
        for crate in (it for it, its in edits.items() if its and asked.quick and it not in quick):
            print(f"{crate.name}: {judged.FILE} doesn't list it as it is, so its mutants are judged in full", flush=True)
        trials = [Trial(crate, part, asked.write, crate in quick).sort_out(asked.anew) for crate, its in edits.items() for part in parts_of(crate, its, asked.lanes)]
        open_ones = sorted((it for it in trials if it.left), key=lambda it: -len(it.left))
        with ThreadPoolExecutor(asked.lanes) as pool:
            list(pool.map(Trial.run, open_ones))
    if asked.write:
        for crate, own in of_crate.items():
            its = [it for it in trials if it.crate is crate]
            if its and sum(len(it.passed) for it in its) == len(own) and all(it.is_as_it_was() for it in its):
                judged.add(crate, own)
    passed = sum(len(it.passed) for it in trials)
    failed = len(chosen) - passed  # with those that were not judged
    # notes that no run has used for sixty days go
    subprocess.run(["find", NOTES, "-type", "f", "-mtime", "+60", "-delete"], stderr=subprocess.DEVNULL, check=False)
    if unnamed := sum(not it.clause for it in chosen):
        print(f"{unnamed} mutants name no clause: --write adds it")
    print(f"mutants: {passed} passed, {failed} failed")
    return failed > 0 or unnamed > 0


if __name__ == "__main__":
    sys.exit(main())
