#!/usr/bin/env python3
"""Checks what the pages show: README.md, CHANGELOG.md, docs/*.md, docs/develop/*.md and the READMEs of examples.

usage: .ci/pages.py [--quick] [PAGE..]

- a block `rust`: each of its items is in one source of the crates, of the crate for Rust or of the examples, word for word but for clauses, attributes and
  doc lines that the page leaves out; and what the block imports is imported there;
- a block `text` with clauses, or `antt`: each of its lines is in a source of the crates, or in a file of definitions;
- a block `c`, `cpp` or `js`: it is in a file of C or C++, or is a file of JavaScript;
- a block `console`: its commands run in order, as in one shell at the top of a clone named raspochre, each printing what follows it;
- the links within the repository: the page is there, and the heading; and no line of a merge is left;
- docs/develop/README.md has an item for each part of the gate, and names each edit of must-fail/ and no mutant that isn't there;
- the version in CHANGELOG.md, the archive, the packages for Python and JavaScript, the extension of PostgreSQL and the crate for Rust is that of the header.

A block `console` names what has to be there, as in `console library python`, and is skipped where it isn't, and one that is named `long` with --quick. What is skipped
for one reason counts as one.
"""
import functools
import glob
import os
import re
import subprocess
import sys
import tempfile

sys.dont_write_bytecode = True
import parts  # noqa: E402

TOP = parts.TOP
PAGES = ["README.md", "CHANGELOG.md", "docs/*.md", "docs/develop/*.md", "examples/*/README.md"]
RUST = ["crates/*/src/**/*.rt", "rust/**/*.rs", "examples/**/*.rs", "bench/**/*.rs"]
C = ["bindings/c/*.c", "bindings/c/*.cpp", "bindings/c/*.h", "examples/**/*.c", "bench/**/*.c", "include/*.h", "include/*.hpp"]
JAVASCRIPT = ["bindings/js/*.js", "examples/*.mjs"]
CARGO = "cargo metadata --offline --no-deps --format-version 1 --manifest-path rust/Cargo.toml"
# What shows that something is there, and what is said where it isn't.
NEEDED = {
    **{name: (f"{name} --version", f"there is no {name}") for name in ("rt", "parallel", "pkg-config")},
    "long": ("true", "it takes seconds, and `make gate` runs it"),
    # what the three libraries have kept of their proofs, or the C library that was built from it, is newer than they are
    "proof": ("""rt version && test -d crates/i_shape/out/rlib && test -z "$(find crates/i_shape_core crates/i_shape_source crates/i_shape \\
        -name out -prune -o \\( -name '*.rt' -o -name '*.antt' \\) \\
        -newer "$(ls -t crates/i_shape/out/rlib/stamp crates/i_shape_c_calls/out/libi_shape_c_calls.a 2> /dev/null | head -n 1)" -print -quit)\"""",
              "there is no rt, or the libraries aren't proved"),
    "program": (f"bash scripts/program/build.sh --is-built || {CARGO}", "the program isn't built, and there is no cargo from 1.85 on"),
    "library": ("bash bindings/c/build.sh --is-built", "the C library isn't built"),
    "wasm": ("bash bindings/js/build.sh --is-built", "the WebAssembly module isn't built"),
    "node": ("node -e 'process.exit(parseInt(process.versions.node) < 20 ? 1 : 0)'", "there is no Node from 20 on"),
    "clipper": ("test -e /usr/include/polyclipping/clipper.hpp", "there is no clipper"),
    "python": ("/usr/bin/python3 -c 'import numpy.typing, setuptools, wheel, venv, ensurepip'", "Debian's Python has no numpy, setuptools, wheel or venv"),
    "postgres": ("test -n \"$PGHOST\" && psql -Atc 'SELECT 1' && test -w \"$(pg_config --sharedir)/extension\"", "there is no server of PostgreSQL to install into"),
    "sqlite": ("sqlite3 --version && test -e /usr/include/sqlite3ext.h", "there is no sqlite3, or no sqlite3ext.h"),
    "gdal": ("ogr2ogr --version", "there is no GDAL"),
    "cargo": (CARGO, "there is no cargo from 1.85 on"),
}
LONGEST = 600  # seconds that a command of a page may take
LEFT_OUT = re.compile(r"\s*(///|//!|#!?\[|ensures\b|↔|×)|\s*$")


def files(patterns):
    """The files of the repository that the patterns name, but for what is built."""
    found = (name for pattern in patterns for name in glob.glob(os.path.join(TOP, pattern), recursive=True))
    return sorted(name for name in found if not re.search("/(out|target|build)/", name))


def read(name):
    with open(name, encoding="utf-8") as text:
        return text.read()


def blocks(page):
    """The language, the line and the text of each fenced block."""
    for found in re.finditer(r"^```(.*)\n((?:.*\n)*?)```$", page, re.MULTILINE):
        yield found[1], page.count("\n", 0, found.start()) + 1, found[2]


def with_whole_clauses(text):
    """The text with each clause on one line, which may be broken into several."""
    lines = []
    for line in text.splitlines():
        if lines and re.match(r"\s*(requires|ensures|ghost)\b", lines[-1]) and lines[-1].count("{") > lines[-1].count("}"):
            lines[-1] += f" {line.strip()}"
        else:
            lines.append(line)
    return "".join(f"{line}\n" for line in lines)


def bare(text):
    """The lines of a text without clauses that are promised, attributes, doc lines and blank lines."""
    return [line.strip() for line in text.splitlines() if not LEFT_OUT.match(line)]


def imports(text):
    """The names that a text imports, each with its path."""
    found = re.findall(r"^(?:ghost )?use ([^;{]+?)(?:\{([^}]*)\})?;", text, re.MULTILINE)
    return {path + name.strip() for path, several in found for name in several.split(",")}


def items(text):
    """The items of a block of Rattle or Rust, parted by blank lines and by the heads and ends of impls."""
    text = re.sub(r"^(ghost )?use [^;]*;\n", "", with_whole_clauses(text), flags=re.MULTILINE)
    text = re.sub(r"^(impl\b.*\{|\})$", r"\n\1\n", text, flags=re.MULTILINE)
    return [item for item in re.split(r"\n\s*\n", text) if bare(item)]


def holds(source, item):
    """Whether a source has the item, and each clause and doc line that the page shows of it."""
    ours, theirs = bare(item), bare(source)
    lines = {line.strip() for line in source.splitlines()}
    shown = [line.strip() for line in item.splitlines() if line.strip()]
    begins = (place for place, line in enumerate(theirs) if line == ours[0])
    return all(line in lines for line in shown) and any(theirs[place:place + len(ours)] == ours for place in begins)


def fault_of_rust(text):
    """What of a block is in no source; nothing where all is."""
    for name in files(RUST) if items(text) else []:
        source = with_whole_clauses(read(name))
        if all(holds(source, item) for item in items(text)):
            strange = imports(text) - imports(source)
            return f"{name} doesn't import {', '.join(sorted(strange))}" if strange else None
    return "no source has its items"


def first_strange(text, sources):
    """Which line of a text is in none of these sources."""
    known = {line.strip().rstrip(";,") for source in sources for line in source.splitlines()}
    lines = (line.strip() for line in text.splitlines() if not line.startswith("//"))
    return next((f"no source has the line: {line}" for line in lines if line and line.rstrip(";,") not in known), None)


def fault_of_clauses(text):
    """What of a quoted contract is in no source. A block without clauses is no quotation."""
    is_quoted = re.search(r"^\s*(requires|ensures|ghost)\b", text, re.MULTILINE)
    return first_strange(with_whole_clauses(text), (with_whole_clauses(read(name)) for name in files(RUST))) if is_quoted else None


def fault_of_c(text):
    """A file has the whole text, or, of declarations, each of its lines, whatever the space between the words."""
    sources = ["".join(read(name).split()) for name in files(C)]
    pieces = [text] if "{\n" in text else text.splitlines()
    return None if any(all("".join(piece.split()) in source for piece in pieces) for source in sources) else "no file of C or C++ has this text"


@functools.lru_cache
def is_at_hand(needed):
    """Whether what a block needs is there."""
    return subprocess.run(["sh", "-c", NEEDED[needed][0]], cwd=TOP, capture_output=True, check=False).returncode == 0


def top_names():
    """What git keeps at the top of the repository, and not what a reader's commands have left there. Without git all that is there."""
    kept = subprocess.run(["git", "ls-files", "-z"], cwd=TOP, capture_output=True, text=True, check=False).stdout
    names = kept.split("\0") if kept else os.listdir(TOP)
    return {name.split("/")[0] for name in names if name and not name.startswith(".")}


def fault_of_console(text):
    """Runs the commands of a block in a folder with links to what the repository has at its top, each where the one before it has gone."""
    with tempfile.TemporaryDirectory() as work:
        folder = os.path.join(work, "raspochre")
        os.mkdir(folder)
        for name in top_names():
            os.symlink(os.path.join(TOP, name), os.path.join(folder, name))
        for command, wanted in re.findall(r"^\$ (.*)\n((?:(?!\$ ).*\n)*)", text, re.MULTILINE):
            words = ["bash", "-c", f'{command}\nstatus=$?; pwd > "$0"; exit $status', os.path.join(work, "gone_to")]
            try:
                ran = subprocess.run(words, cwd=folder, capture_output=True, text=True, timeout=LONGEST, check=False)
            except subprocess.TimeoutExpired:
                return f"`{command}` took more than {LONGEST} seconds"
            if ran.returncode or (wanted and ran.stdout != wanted):
                return f"`{command}` ended with status {ran.returncode} and printed {ran.stdout + ran.stderr!r}"
            folder = read(os.path.join(work, "gone_to")).rstrip("\n")
    return None


def headings(page):
    """The anchors of a page, as its headings make them."""
    text = re.sub(r"^```.*\n(?:.*\n)*?```$", "", page, flags=re.MULTILINE)
    return {re.sub(r"[^\w\- ]", "", title.lower()).replace(" ", "-") for title in re.findall(r"^#+ (.*)$", text, re.MULTILINE)}


def fault_of_links(name, page):
    for link in re.findall(r"\]\((?![a-z]+:)([^)\s]+)\)", page):
        path, _, anchor = link.partition("#")
        goal = os.path.normpath(os.path.join(os.path.dirname(name), path)) if path else name
        if not os.path.exists(goal) or (anchor and anchor not in headings(read(goal))):
            return f"there is no {link}"
    return "a line of a merge is left" if re.search("^(<{7}|>{7}) ", page, re.MULTILINE) else None


def fault_of_version():
    """The version in each file that says it is that of the header."""
    version = subprocess.run([f"{TOP}/scripts/version.sh"], stdout=subprocess.PIPE, text=True, check=True).stdout.strip()
    major, minor, patch = map(int, version.split("."))
    told = {
        "crates/i_shape_c/src/version.rt": rf"MAJOR: u32 = {major};.*MINOR: u32 = {minor};.*PATCH: u32 = {patch};",
        "rust/Cargo.toml": rf'^version = "{version}"$',
        "rust/i_shape_serde/Cargo.toml": rf'^version = "{version}"$.*^i_shape = .*version = "{version}" }}$',
        "bindings/js/package.json": rf'^ *"version": "{version}",$',
        "bindings/postgres/i_shape.control": rf"^default_version = '{major}\.{minor}'$",
        "bindings/python/src/i_shape/_library.py": rf"^_VERSION = 0x{major:02x}{minor:02x}\b",
        "CHANGELOG.md": rf"\A(?:(?!\n## ).)*\n## {version}\n",
    }
    strange = [name for name, words in told.items() if not re.search(words, read(f"{TOP}/{name}"), re.MULTILINE | re.DOTALL)]
    return f"the header has {version}, and not {', '.join(strange)}" if strange else None


def fault_of_gate():
    """Each part of the gate has an item in docs/develop/README.md, and each script of an item is a part."""
    gate = {command.removeprefix("python3 ").split()[0] for command in parts.WITHOUT_PROOFS + parts.AFTER_PROOFS}
    shown = set(re.findall(r"^- \*\*.*?\*\*, `(\S+?)(?: [^`]*)?`", read(f"{TOP}/docs/develop/README.md"), re.MULTILINE))
    missing = [f"{name} has no item" for name in gate - shown] + [f"{name} is no part" for name in shown - gate if name.endswith(".sh")]
    return "; ".join(sorted(missing)) or None


def fault_of_edits():
    """The table of docs/develop/README.md names each edit of must-fail/, and otherwise only mutants of wrong/."""
    edits = {tuple(name.removesuffix(".edit").split("/")[-3::2]) for name in files(["crates/*/must-fail/*.edit"])}
    blocks = {(file.split("/crates/")[1].split("/")[0], name) for file in files(["crates/*/wrong/**/*.edit"])
              for name in re.findall("^mutant: (.+)$", read(file), re.MULTILINE)}
    rows = re.findall(r"^\| (`\w+`(?:, `\w+`)*) \| (core|source|shape|tool)\b", read(f"{TOP}/docs/develop/README.md"), re.MULTILINE)
    named = {("i_shape" if crate == "shape" else f"i_shape_{crate}", name) for names, crate in rows for name in re.findall(r"`(\w+)`", names)}
    faults = [f"{crate}'s {name} isn't named" for crate, name in edits - named]
    return "; ".join(sorted(faults + [f"{crate} has no mutant {name}" for crate, name in named - edits - blocks])) or None


FAULTS = {
    "rust": fault_of_rust, "text": fault_of_clauses, "c": fault_of_c, "cpp": fault_of_c, "console": fault_of_console,
    "antt": lambda text: first_strange(text, map(read, files(["crates/*/specs/*.antt"]))),
    "js": lambda text: None if text in map(read, files(JAVASCRIPT)) else "no file of JavaScript is this text",
}


def tests_of(name):
    """What is tested of a page: the place, what has to be there, and what looks for a fault."""
    page = read(name)
    for language, line, text in blocks(page):
        kind, *needed = (language or "none").split()
        if kind in FAULTS:
            yield f"{os.path.relpath(name, TOP)}, line {line}", needed, functools.partial(FAULTS[kind], text)
    yield f"{os.path.relpath(name, TOP)}, links", [], lambda: fault_of_links(name, page)


def main():
    names = sys.argv[1:]
    if names[:1] == ["--quick"]:
        NEEDED["long"] = ("false", NEEDED["long"][1])
        del names[0]
    tests = [test for name in map(os.path.abspath, names) for test in tests_of(name)]
    if not tests:
        tests = [test for name in files(PAGES) for test in tests_of(name)] + [("the version", [], fault_of_version), ("the edits", [], fault_of_edits),
                                                                             ("the parts", [], fault_of_gate)]
    passed, failed, skipped = 0, 0, {}
    for place, needed, look in tests:
        if missing := next((name for name in needed if not is_at_hand(name)), None):
            skipped.setdefault(missing, []).append(place)
        elif fault := look():
            failed += 1
            print(f"failed: {place}: {fault}")
        else:
            passed += 1
    for name, places in skipped.items():
        print(f"skipped: {NEEDED[name][1]}: {'; '.join(places)}")
    print(f"pages: {parts.sum_line([(passed, failed, len(skipped))])}")
    return failed > 0


if __name__ == "__main__":
    sys.exit(main())
