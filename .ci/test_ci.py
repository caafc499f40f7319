#!/usr/bin/env python3
"""Tests the scripts that test the rest, and how i_shape_tool and the program's build behave, over stand-ins for rt and small texts."""
import os
import re
import shutil
import signal
import subprocess
import sys
import tempfile
import time
import unittest

sys.dont_write_bytecode = True
sys.path.insert(0, os.path.dirname(os.path.realpath(__file__)))
import pages  # noqa: E402
import parts  # noqa: E402

TOP = parts.TOP


def write(file, text):
    os.makedirs(os.path.dirname(file), exist_ok=True)
    with open(file, "w", encoding="utf-8") as out:
        out.write(text)
    os.chmod(file, 0o755)


class Case(unittest.TestCase):
    """A test in a folder of its own, with a folder `bin` before the path, and one for what is temporary, which is empty at the end."""

    def setUp(self):
        self.room = tempfile.mkdtemp()
        os.makedirs(f"{self.room}/tmp")
        self.environment = {**os.environ, "PATH": f"{self.room}/bin:{os.environ['PATH']}", "TMPDIR": f"{self.room}/tmp", "STAND_IN": self.room}

    def tearDown(self):
        self.assertEqual(os.listdir(f"{self.room}/tmp"), [])
        shutil.rmtree(self.room)

    def started(self):
        return pages.read(f"{self.room}/started").split() if os.path.exists(f"{self.room}/started") else []

    def leave_tools(self, *names):
        """Nothing but these is on the path then."""
        os.mkdir(f"{self.room}/tools")
        for name in names:
            os.symlink(shutil.which(name), f"{self.room}/tools/{name}")
        self.environment["PATH"] = f"{self.room}/tools"

    def run_in(self, folder, *words, **how):
        return subprocess.run(words, cwd=folder, env=self.environment, capture_output=True, text=True, check=False, **how)


class ProofTest(Case):
    """What scripts/proof.py prints of a log of rt."""

    LAST = ("fn i_shape_c::b: proved\nfn i_shape_c::a: proved\nfn i_shape_c::a+run: proved\nfn i_shape_c::fn::a::find: proved\naxioms libc: malloc\n"
            "logic=proved functions=2 sum=1 statements=trusted")

    def printed(self, log, crate="i_shape_c"):
        write(f"{self.room}/log", log)
        return self.run_in(TOP, sys.executable, "scripts/proof.py", f"{self.room}/log", crate)

    def test_kept_work(self):
        """The same bytes from nothing and over kept work, whatever crates were proved before; and they name the crate and sources."""
        below = "fn i_shape::c: proved\naxioms libc: free\nlogic=proved functions=1 sum=1\n"
        kept = self.printed(f"so far: 1 of 2 functions\n{self.LAST} incremental=trusted\n").stdout
        self.assertEqual(self.printed(f"{below}{self.LAST}\n").stdout, kept)
        lines = kept.splitlines()
        self.assertEqual([lines[0], *(line.split()[1] for line in lines if line.startswith("sources "))],
                         ["crate i_shape_c", "i_shape_c", "i_shape", "i_shape_contacts", "i_shape_core", "i_shape_touching", "i_shape_source"])
        self.assertEqual(lines[-6:], ["fn i_shape_c::a+run: proved", "fn i_shape_c::a: proved", "fn i_shape_c::b: proved", "fn i_shape_c::fn::a::find: proved",
                                      "axioms libc: malloc", "logic=proved functions=2 sum=1 statements=trusted incremental=trusted"])

    def test_files(self):
        """What was built has its sum, which `sha256sum -c` finds."""
        write(f"{self.room}/built/lib/a", "a")
        write(f"{self.room}/log", self.LAST)
        printed = self.run_in(TOP, sys.executable, "scripts/proof.py", f"{self.room}/log", "i_shape_c", f"{self.room}/built", "lib/a").stdout
        self.assertIn("\nfile lib/a ca978112ca1bbdcafac231b39a23dc4da786eff8147c4e72b9807785afee48bb\nfn i_shape_c::a+run: proved\n", printed)

    RT = """#!/bin/sh
[ "$*" = "all verdict" ] && [ "$(sed 's/[ :].*//' crates.txt | sort)" = "$(ls crates)" ] && [ ! -e "$STAND_IN/fails" ] || exit 1
for crate in $(sed 's/[ :].*//' crates.txt); do
    [ ! -e "crates/$crate/out" ] || exit 1
    printf '== %s\\nfn %s::a: proved\\nlogic=proved functions=1 statements=trusted%s\\n' "$crate" "$crate" "$(cat "$STAND_IN/kept")"
done
echo i_shape_core: ok
"""

    def test_verdicts(self):
        """A release has the verdict of each crate from nothing, or isn't packed."""
        write(f"{self.room}/bin/rt", self.RT)
        self.environment["SOURCE_DATE_EPOCH"] = "1000000000"
        pack = "bash", "scripts/dist.sh", f"{self.room}/dist", "proof"
        write(f"{self.room}/kept", "")
        self.assertEqual(self.run_in(TOP, *pack).returncode, 0)
        version = self.run_in(TOP, "scripts/version.sh").stdout.strip()
        folder = f"i_shape-{version}-proof"
        self.run_in(self.room, "tar", "-xzf", f"dist/{folder}.tar.gz")
        crates = "i_shape", "i_shape_c", "i_shape_c_calls", "i_shape_contacts", "i_shape_core", "i_shape_laws", "i_shape_source", "i_shape_tool", "i_shape_tool_main", "i_shape_touching"
        self.assertEqual(sorted(os.listdir(f"{self.room}/{folder}")), sorted((*crates, "README.md")))
        page = pages.read(f"{self.room}/{folder}/README.md")
        self.assertEqual(sorted({*re.findall("`(i_shape_[a-z]+)`", page)} - {*crates}), [])
        self.assertIn(f"`i_shape-{version}-source.tar.gz`", page)
        for crate in crates:
            lines = pages.read(f"{self.room}/{folder}/{crate}").splitlines()
            self.assertEqual([lines[0], *lines[-2:]], [f"crate {crate}", f"fn {crate}::a: proved", "logic=proved functions=1 statements=trusted"])
        write(f"{self.room}/kept", " incremental=trusted")
        self.assertIn("rests on kept work", self.run_in(TOP, *pack).stderr)
        write(f"{self.room}/fails", "")
        self.assertEqual(self.run_in(TOP, *pack).returncode, 1)

    def test_another_crate(self):
        for log in ("", f"{self.LAST}\nfn i_shape::c: proved\nlogic=proved functions=1\n", "fn i_shape_c::a: proved\n"):
            self.assertEqual((self.printed(log).returncode, self.printed(log).stdout), (1, ""))

    def test_missing_functions(self):
        """A log that names fewer functions than its verdict counts, or more, isn't printed."""
        for functions in ("1", "3", "20", ""):
            ran = self.printed(self.LAST.replace("functions=2", f"functions={functions}"))
            self.assertEqual((ran.returncode, ran.stdout), (1, ""), functions)


class LibraryTest(Case):
    def test_neither_kit_nor_cargo(self):
        """`make c` names what a built library serves for, that of a release too."""
        for name in ("bindings/c/build.sh", "scripts/version.sh", "include/i_shape.h"):
            os.makedirs(os.path.dirname(f"{self.room}/{name}"))
            shutil.copy(f"{TOP}/{name}", f"{self.room}/{name}")
        self.leave_tools("bash", "sh", "dirname", "sed", "find", "head", "mkdir", "flock")
        built = self.run_in(self.room, "bash", "bindings/c/build.sh")
        self.assertEqual(built.returncode, 1)
        for told in ("neither cargo nor rt", "I_SHAPE_C_DIR", "lib of a release", "`make wheel`", "`make postgres`", "`make sqlite`"):
            self.assertIn(told, built.stderr)


class PartsTest(Case):
    def test_counts(self):
        for said, status, counts in (
            ("a b: 2 passed, 0 failed\n", 0, (2, 0, 0)),
            ("1 passed, 0 failed\nc: 4 passed, 1 failed, 3 skipped\nmake: it failed\n", 2, (4, 1, 3)),
            ("2 passed, 0 failed\n", 1, (2, 1, 0)),
            ("no count\n", 0, (0, 1, 0)),
            ("test result: ok. 7 passed; 0 failed; 0 ignored\n", 0, (7, 0, 0)),
        ):
            self.assertEqual(parts.counts_of(said, status)[0], counts, said)
        self.assertEqual(parts.sum_line([(1, 0, 0), (2, 0, 0)]), "3 passed, 0 failed")
        self.assertEqual(parts.sum_line([(1, 0, 0), (2, 1, 4)]), "3 passed, 1 failed, 4 skipped")

    def test_failures(self):
        """The lines that are repeated at the end, also those that `make gate` repeats within .ci/run."""
        for said, lines in (
            ("one\nfailed: a\nfailed: a\nFAIL: test_b (c.D)\nFAILED (failures=1)\n1 passed, 2 failed\n", ["failed: a", "FAIL: test_b (c.D)", "FAILED (failures=1)"]),
            ("mutant c/d: refused\nmutant c/e: NOT REFUSED at f\nmutants: 1 passed, 1 failed\n", ["mutant c/e: NOT REFUSED at f"]),
            ("one\ntwo\nthree\nfour\n1 passed, 1 failed\n", ["two", "three", "four"]),
            ("failed: a\nWhat failed:\na_part: 1 failed\nfailed: a\n2 passed, 1 failed\nmake: it failed\n", ["a_part: 1 failed", "failed: a"]),
            ("no count\n", []),
        ):
            self.assertEqual(parts.failures_in(said), lines, said)

    def test_shell(self):
        """What part.sh counts: each test that fails, and a run of tests that dies, counts nothing, or hides a failure."""
        write(f"{self.room}/.ci/part.sh", pages.read(f"{TOP}/.ci/part.sh"))
        write(f"{self.room}/.ci/a_part.sh", """. "$(dirname "$0")/part.sh"
check right true && check wrong false && prints right 1 echo 1 && prints wrong 1 echo 2 && prints nothing '' true
prints right 1 fails sh -c 'echo 1; exit 1' && prints wrong 1 sh -c 'echo 1; exit 1'
add right echo 'its tests: 10 passed, 0 failed, 2 skipped'
for run in 'echo 0 passed, 0 failed' 'echo 1 passed, 1 failed' 'echo 1 passed, 0 failed; exit 1' 'echo 1; exit 0' 'kill -9 $$'; do add wrong sh -c "$run"; done
has tests no-such-program || has_built tests no-such-script || end_part
""")
        ran = self.run_in("/", "bash", f"{self.room}/.ci/a_part.sh", "--quick")
        self.assertEqual((ran.returncode, ran.stdout.splitlines()[-1]), (1, "a part: 15 passed, 9 failed, 4 skipped"))

    def test_runs(self):
        """A part beside another, one that fails, one that leaves a process behind, and one that doesn't start."""
        script = """import parts, sys
run = parts.Parts()
beside = run.beside(parts.Parts.run, "sh -c 'sleep 0.3; echo 1 passed, 0 failed'", "/")
run.run("sh -c 'echo 2 passed, 0 failed; exit 3'", "/")
run.run("sh -c 'sleep 300 > /dev/null 2>&1 & echo 4 passed, 0 failed'", "/")
run.run("no-such-program", "/")
run.beside(lambda run: parts.os.mkdir("/proc/no")).join()
beside.join()
print(parts.sum_line(run.counts))
run.end()
"""
        ran = self.run_in(f"{TOP}/.ci", sys.executable, "-B", "-c", script, timeout=20)
        self.assertEqual(ran.stdout.splitlines()[-1], "7 passed, 3 failed")

    def in_session(self, leader):
        listed = self.run_in("/", "ps", "-o", "pid=,stat=", "-s", str(leader)).stdout
        return [int(pid) for pid, state in map(str.split, listed.splitlines()) if state[0] != "Z"]

    def test_stops(self):
        """Ctrl-C ends the gate while rt ci and the mutants, over what rt ci has proved, run, and nothing is left of it."""
        checkout = f"{self.room}/checkout"
        write(f"{checkout}/.ci/parts.py", pages.read(f"{TOP}/.ci/parts.py"))
        for name in (".ci/test_ci.py", "scripts/widths.sh"):
            write(f"{checkout}/{name}", "")
        write(f"{checkout}/.ci/wrong.py", "import os, time\nos.system('ls crates/i_shape_core/out/incremental >> $STAND_IN/started')\ntime.sleep(300)\n")
        proves = 'echo started >> "$STAND_IN/started"\nmkdir -p "$TMPDIR/rt-edits-1/seed"\necho > "$TMPDIR/rt-edits-1/seed/kept"\n'
        write(f"{self.room}/bin/rt", f"#!/bin/sh\n{proves}echo '{parts.TRIES_CORE} (2)'\nwhile :; do sleep 300; done\n")
        how = {"env": self.environment, "start_new_session": True, "stdout": subprocess.DEVNULL, "stderr": subprocess.DEVNULL}
        gate = subprocess.Popen([sys.executable, f"{checkout}/.ci/parts.py", "gate"], **how)
        self.addCleanup(lambda: [os.kill(pid, signal.SIGKILL) for pid in self.in_session(gate.pid)])
        deadline = time.time() + 30
        while len(self.started()) < 2 and time.time() < deadline:
            time.sleep(0.1)
        self.assertEqual(self.started(), ["started", "kept"])
        os.killpg(gate.pid, signal.SIGINT)
        self.assertEqual(gate.wait(60), 130)
        self.assertEqual(self.in_session(gate.pid), [])


class ToolTest(Case):
    # rt proves and builds, one at a time.
    RT = """#!/bin/sh
echo "$1" >> "$STAND_IN/started"
[ "$1" != run ] || { printf '#!/bin/sh\\necho proved\\n' > out/i_shape_tool_main && chmod +x out/i_shape_tool_main; }
mkdir "$STAND_IN/one" && sleep 0.1 && rmdir "$STAND_IN/one"
"""
    # cargo builds a program that answers as it is told to.
    CARGO = """#!/bin/sh
[ "$1" != --version ] || { echo 'host: this-machine' && exit; }
echo cargo >> "$STAND_IN/started"
[ -e "$STAND_IN/answer" ] || { echo 'error: no rustc' >&2; exit 101; }
for word; do
    case $before in
    --target) target=$word ;;
    --target-dir) its=$word ;;
    esac
    before=$word
done
its=$its/${target:-$CARGO_BUILD_TARGET}/program
mkdir -p "$its" && cp "$STAND_IN/program" "$its/i_shape_tool"
"""
    PROGRAM = """#!/bin/sh
cat > "$STAND_IN/given"; cat "$STAND_IN/answer"; echo "$1" >&2; exit "$(cat "$STAND_IN/status")"
"""

    def setUp(self):
        super().setUp()
        self.top = f"{self.room}/top"
        for file in ("crates.txt", *(f"crates/i_shape{crate}/src/lib.rt" for crate in ("", "_core", "_source", "_tool", "_tool_main"))):
            write(f"{self.top}/{file}", "")
        shutil.copy(f"{TOP}/i_shape_tool", self.top)
        shutil.copytree(f"{TOP}/scripts", f"{self.top}/scripts")
        for name, text in (("bin/rt", self.RT), ("bin/cargo", self.CARGO), ("program", self.PROGRAM)):
            write(f"{self.room}/{name}", text)

    def tool(self, text="", answer=None, status=0):
        if answer is not None:
            for name, what in (("answer", answer), ("status", str(status))):
                write(f"{self.room}/{name}", what)
        ran = self.run_in("/", f"{self.top}/i_shape_tool", "area", input=text)
        return ran.returncode, ran.stdout, ran.stderr

    def test_by_cargo(self):
        """Where it isn't proved and built, cargo's program runs, and one line says so. Where cargo can't build it, the status is 4."""
        status, answer, told = self.tool("1 2 3\n", "some\n", 1)
        self.assertEqual((status, answer, pages.read(f"{self.room}/given")), (1, "some\n", "1 2 3\n"))
        self.assertRegex(told, r"\Ai_shape_tool: built by cargo, .*`make program` proves and builds it by the Rattle kit\narea\n\Z")
        os.remove(f"{self.room}/answer")
        self.assertEqual(self.tool(), (4, "", told.replace("area\n", "error: no rustc\n")))

    def test_by_cargo_for_another_target(self):
        """The program is built for this machine, whatever cargo builds for otherwise."""
        self.environment["CARGO_BUILD_TARGET"] = "wasm32-unknown-unknown"
        self.assertEqual(self.tool("1 2 3\n", "some\n")[:2], (0, "some\n"))

    def test_wrong_words(self):
        """Without a built program too the usage comes at once: nothing is read or compiled, whatever the input is."""
        for words in ((), ("",), ("simplified",), ("simplify\n",), ("sim.*",), ("simplify", "area")):
            for stdin in (subprocess.PIPE, None):
                program = (f"{self.top}/i_shape_tool", *words)
                how = {"stdin": stdin, "stdout": subprocess.PIPE, "stderr": subprocess.PIPE, "env": self.environment, "text": True}
                ran = subprocess.Popen(program if stdin else ("sh", "-c", 'exec "$@" <&-', "sh", *program), **how)
                status = ran.wait(10)
                self.assertEqual((status, *ran.communicate()), (2, "", "usage: i_shape_tool simplify|despike|area|canonical|compact\n"), words)
        ran = self.run_in("/", f"{self.top}/i_shape_tool", b"\xff")
        self.assertEqual((ran.returncode, ran.stdout, ran.stderr), (4, "", "input or output failed\n"))
        self.assertEqual(self.started(), [])

    def test_built_without_the_kit(self):
        """The error names what runs then; for another machine nothing does."""
        self.leave_tools("bash", "dirname", "find")
        for words, runs in (((), True), (("--target", "aarch64"), False), (("--cpu", "x86-64"), False)):
            built = self.run_in("/", "bash", f"{self.top}/scripts/program/build.sh", *words)
            self.assertEqual((built.returncode, "there is no rt of it" in built.stderr, "./i_shape_tool runs" in built.stderr), (1, True, runs))

    def test_built(self):
        """Of two builds at once one builds. The program of these sources runs then, and one of older sources doesn't."""
        builds = [subprocess.Popen(["bash", f"{self.top}/scripts/program/build.sh"], env=self.environment, stderr=subprocess.DEVNULL) for _ in range(2)]
        self.assertEqual([build.wait(60) for build in builds], [0, 0])
        self.assertEqual(self.started(), ["lib"] * 4 + ["run"])
        self.assertEqual(self.tool(), (0, "proved\n", ""))
        os.utime(f"{self.top}/crates/i_shape_core/src/lib.rt", (time.time() + 5,) * 2)
        self.assertEqual(self.tool(answer="by cargo\n")[:2], (0, "by cargo\n"))


SAMPLE = "use " + pages.read(f"{TOP}/crates/callers/src/corners.rt").partition("use ")[2]
CLAUSE = "    ensures memory { IsOkUnless result ShapeError.OutOfMemory }\n"
RIGHT = f"""# One: two
```rust
{SAMPLE}```
```text
{CLAUSE.replace("result ", "result" + chr(10) + "    ")}```
```c
uint32_t i_shape_version(void);
```
```console
$ mkdir ../mine && cd ../mine
$ basename "$PWD"
mine
```
[a](#one-two) [b](README.md#limits) [c](https://example.org)
"""


def changed(text, old, new, count=-1):
    """The text with each old text replaced, or so many, which it has to hold."""
    assert old in text, old
    return text.replace(old, new, count)


FAULTS = (
    f"```rust\n{changed(SAMPLE, '(2, 0)', '(3, 0)')}```\n",
    f"```rust\n{changed(SAMPLE, '/// Returns the', '/// Returns just the')}```\n",
    f"```rust\nuse std::fmt::Write;\n{SAMPLE}```\n",
    f"```text\n{changed(CLAUSE, 'memory', 'room')}```\n",
    "```antt\nIsZeroTurn a b c = cross a b c ≡ pos 1\n```\n",
    "```cpp\nint nothing(void) {\n```\n",
    "```js\nconsole.log(1);\n```\n",
    "```console\n$ printf 'one\\ntwo\\n'\none\n```\n",
    "```console\n$ echo one\none\n$ false\n```\n",
    "[a](README.md#no-limits)\n",
    "[a](nothing.md)\n",
    ">>>>>>> other\n",
)


class PagesTest(Case):
    def run_pages(self, text, *words):
        shutil.copy(f"{TOP}/README.md", self.room)
        write(f"{self.room}/page.md", text)
        ran = self.run_in(TOP, sys.executable, f"{TOP}/.ci/pages.py", *words, f"{self.room}/page.md")
        return ran.returncode, ran.stdout.splitlines()[-1]

    def test_pages(self):
        self.assertEqual(self.run_pages(RIGHT), (0, "pages: 5 passed, 0 failed"))
        for text in FAULTS:
            status, last = self.run_pages(text)
            self.assertEqual((status, last.split(", ")[1]), (1, "1 failed"), text)

    def test_long(self):
        """A block that takes seconds, and fails, runs without --quick alone."""
        block = "```console long\n$ false\n```\n"
        self.assertEqual(self.run_pages(block), (1, "pages: 1 passed, 1 failed"))
        self.assertEqual(self.run_pages(block, "--quick"), (0, "pages: 1 passed, 0 failed, 1 skipped"))


DOUBLES = """#![tactic(auto)]

ghost use Rattle.std.specs.Prelude.{◌≡◌, ◌+◌, ◌*◌, ◌<◌};

pub fn doubled(number: u32) -> u32
    requires small { number < 1000 }
    ensures twice { result ≡ number + number }
    ensures small { result < 2000 }
{
    number + number
}

pub fn quadrupled(number: u32) -> u32
    requires { number < 500 }
    ensures { result ≡ (number + number) + (number + number) }
{
    doubled(doubled(number))
}

pub fn tripled_by_a_function_with_so_long_a_name_that_messages_are_broken(number: u32) -> u32
    requires { number < 1000 }
    ensures thrice { result ≡ number * 3 }
    ensures small { result < 3000 }
{
    number * 3
}
"""
LONG = "tripled_by_a_function_with_so_long_a_name_that_messages_are_broken"
ANSWERS = f"""use Rattle.std.proofs.Common.{{arith}}
use Rattle.doubles.proofs.{LONG}.Goals as goal

pub returns-clause-thrice : goal.returns-clause-thrice
returns-clause-thrice c = omega arith
"""
SUM = "    number + number"
# Mutants of these: a name, the function, an old and a new text, and what is said of each.
EDITS = (
    ("forgets_half", "doubled", SUM, "    number", "refused at doubled: returns-clause-twice"),
    ("names_a_clause", "doubled\nclause: twice", SUM, "    number", "refused at doubled: returns-clause-twice"),
    ("names_another", "doubled\nclause: small", SUM, "    number", "NOT REFUSED by the clause small of doubled, but at returns-clause-twice"),
    ("fails_an_answer_too", f"{LONG}\nclause: small", "    number * 3", "    number + 3000", f"refused at {LONG}: returns-clause-small, returns-clause-thrice"),
    ("lists_its_goals", "doubled\nclause: twice\ngoals: returns-clause-twice", SUM, "    number", "refused at doubled: returns-clause-twice"),
    ("loses_a_goal", LONG, "    number * 3", "    if number == 0 { 0 } else { number * 3 }", f"NOT REFUSED at a goal of {LONG}: its proof names what the edit took away"),
    ("turns_nothing", "doubled", SUM, "    number.wrapping_add(number)", "NOT REFUSED at doubled"),
    ("names_what_a_call_requires", "quadrupled\nclause: small", "doubled(doubled(number))", "doubled(doubled(number) * 2)", "NOT REFUSED by the clause small of quadrupled, but at "),
    ("changes_a_contract", "doubled", "{ result < 2000 }", "{ result < 2 }", "BAD EDIT: it changes a contract"),
    ("turns_the_callee", "quadrupled", SUM, "    number", "NOT REFUSED at quadrupled, but at doubled"),
    ("text_is_not_there", "doubled", "number * 2", "number * 3", "BAD EDIT: its old text occurs in src/lib.rt 0 times"),
    ("does_not_parse", "doubled", SUM, "    (number + number", "BAD EDIT: it did not reach the prover"),
)


@unittest.skipUnless(shutil.which("rt"), "there is no rt")
class WrongTest(Case):
    def run_wrong(self, *words):
        self.environment["XDG_CACHE_HOME"] = f"{self.room}/cache"
        ran = self.run_in(self.room, sys.executable, f"{self.room}/.ci/wrong.py", *words)
        return ran.returncode, ran.stdout

    def test_wrong(self):
        write(f"{self.room}/crates.txt", "doubles:\n")
        write(f"{self.room}/crates/doubles/src/lib.rt", DOUBLES)
        write(f"{self.room}/crates/doubles/proofs/{LONG}/Answers.antt", ANSWERS)
        # in three copies of the crate, where there are as many processors, over what is proved here
        self.run_in(f"{self.room}/crates/doubles", "rt", "check")
        write(f"{self.room}/.ci/wrong.py", changed(pages.read(f"{TOP}/.ci/wrong.py"), "MOST = 40", "MOST = 4"))
        mutants = [f"mutant: {name}\nrefused: {function}\nold: {old}\nnew: {new}\n" for name, function, old, new, _ in EDITS]
        write(f"{self.room}/crates/doubles/wrong/lib.edit", "\n".join(mutants))
        status, said = self.run_wrong()
        for name, *_, what in EDITS:
            self.assertIn(f"mutant doubles/{name}: {what}", said)
        self.assertEqual((status, said.splitlines()[-1]), (1, "mutants: 4 passed, 8 failed"))
        # What passed is noted, and tried again where something changes that it was judged by.
        note = "mutant doubles/forgets_half: refused at doubled by an earlier run: returns-clause-twice"
        self.assertIn(note, self.run_wrong("--only", "forgets_half", "--write")[1])
        written = changed("\n".join(mutants), "refused: doubled\nold: ", "refused: doubled\nclause: twice\ngoals: returns-clause-twice\nold: ", 1)
        self.assertEqual(pages.read(f"{self.room}/crates/doubles/wrong/lib.edit"), written)
        write(f"{self.room}/crates/doubles/src/lib.rt", f"{DOUBLES}// changed\n")
        status, said = self.run_wrong("--only", "forgets_half")
        self.assertNotIn(note, said)
        self.assertEqual((status, said.splitlines()[-1]), (0, "mutants: 1 passed, 0 failed"))
        # The weaker search judges a crate alone all of whose mutants passed as they are, and what passes by it isn't noted.
        write(f"{self.room}/crates/doubles/wrong/lib.edit", mutants[[name for name, *_ in EDITS].index("lists_its_goals")])
        in_full = "doubles: .ci/judged.txt doesn't list it as it is, so its mutants are judged in full"
        self.assertIn(in_full, self.run_wrong("--quick")[1])
        self.assertEqual(self.run_wrong("--write")[0], 0)
        shutil.rmtree(f"{self.room}/cache")
        status, said = self.run_wrong("--quick")
        self.assertNotIn(in_full, said)
        self.assertEqual((status, said.splitlines()[-1]), (0, "mutants: 1 passed, 0 failed"))
        self.assertFalse(os.path.exists(f"{self.room}/cache"))
        write(f"{self.room}/crates/doubles/src/lib.rt", DOUBLES)
        self.assertIn(in_full, self.run_wrong("--quick")[1])


if __name__ == "__main__":
    result = unittest.TextTestRunner(stream=sys.stdout).run(unittest.defaultTestLoader.loadTestsFromModule(sys.modules["__main__"]))
    failed = len(result.failures) + len(result.errors)
    print(f"tests of the scripts: {parts.sum_line([(result.testsRun - failed - len(result.skipped), failed, len(result.skipped))])}")
    sys.exit(bool(failed))
