#!/usr/bin/env python3
"""Checks erased Rust against its source, by code that it doesn't share with the eraser.

usage: .ci/erased.py FOLDER [BUILD]

FOLDER is what the eraser has written: in `erased` the Rust, in `cuts` what was cut from each file. For each file there are two tests. What was cut, put back, is
the source byte for byte, and each cut is a construct that may be cut, with what may be put in its place (docs/develop/ERASER.md has the table). And token by token
the Rust is the source without its contracts: a second eraser, of tokens, makes the same of both. Each source is that of its file's place, no public import goes, and
of a source without a file the second eraser leaves nothing, unless the build script BUILD leaves its module out."""
import json
import re
import sys
from pathlib import Path

TOP = Path(__file__).resolve().parents[1]
SHIM = "fallible"
CRATES = [line.split(":")[0].split()[0] for line in (TOP / "crates.txt").read_text().splitlines()]
CRATE = "(?:" + "|".join(sorted(CRATES, reverse=True)) + ")"
# The files that are of no source: the modules of all, and what C calls.
WRITTEN = {Path("mod.rs"), Path("lending.rs")}
TOKEN = re.compile(r'//[^\n]*|"(?:[^"\\]|\\.)*"|\'(?:[^\'\\\n]|\\[^\n]{1,9}?)\'|\'\w+|\w+|::|\S', re.S)
CLOSES = {"{": "}", "(": ")", "[": "]"}
OF_CRATE = ["pub", "(", "crate", ")"]
# What the Rust has for words of the source.
WORDS = {
    "std::alloc::": "crate::erased::fallible::alloc::",
    "std::vec::Vec": "$crate::erased::fallible::Vec",
    "str::from_utf8": "core::str::from_utf8",
    "str::from_utf8_unchecked": "core::str::from_utf8_unchecked",
    ".cast_unsigned()": ".to_unsigned()",
    ".read_to_end(": ".fallible_read_to_end(",
    "const HAS_WIDE_PRODUCTS: bool = true;":
        "const HAS_WIDE_PRODUCTS: bool = cfg!(any(target_feature = \"sse4.1\", not(target_arch = \"x86_64\")));",
    "fn fmt<W: fmt::Write>(&self, f: &mut fmt::Formatter<W>)": "fn fmt(&self, f: &mut fmt::Formatter<'_>)",
    # what only tests use
    "std::collections::BTreeSet": "crate::host::BTreeSet",
    "std::env": "crate::host::env",
    "std::process::Abort": "crate::host::Abort",
    "std::test::Fail": "crate::host::Fail",
    "Print": "crate::host::Print",
    "Fail::new(": "Fail::from(",
    ".collect(": ".fallible_collect(",
    ".expect(rt, name)": ".expect(name)",
    ".repeat(": ".fallible_repeat(",
    ".to_vec(": ".fallible_to_vec(",
} | {f"std::{part}": f"core::{part}" for part in ("cmp", "error", "fmt", "iter", "mem", "ops", "slice")}
# What is imported for words of Rattle's prelude.
ADDED = {f"crate::erased::{SHIM}::{name}" for name in ("String", "Unsigned as _", "Vec", "vec")} | {
    f"crate::host::Fallible{name} as _" for name in ("Collect", "Read", "Repeat", "ToVec")}
NAMES = r"(?:\w+(?: as _)?|\{\w+(?: as _)?(?:, \w+(?: as _)?)+\})"
BALANCED = r"\{(?:[^{}]|\{(?:[^{}]|\{(?:[^{}]|\{[^{}]*\})*\})*\})*\}"
COMMENTS = r"(?:[ \t]*//[^\n]*\n)*"
ATTRIBUTES = r"(?:[ \t]*#\[[^\n]*\]\n)*"
HEAD = COMMENTS + ATTRIBUTES + COMMENTS
# How each construct that is cut looks, and what is put in its place.
CUTS = {
    "ghost item": (HEAD + r"[ \t]*(?:pub(?:\(\w+\))? )?ghost .*\n", r""),
    "clauses": (rf"(?:\s+(?:requires|ensures)\*?(?: \w+)? {BALANCED})+\s*", r" ?"),
    "law": (HEAD + rf"[ \t]*(?:pub(?:\(\w+\))? )?fn \w+(?:(?! -> |\bself\b)[^{{}}])*(?:\s+(?:requires|ensures)\*?(?: \w+)? {BALANCED})+\s*\{{\}}\n", r""),
    "attribute": (r"[ \t]*#(?:!?\[tactic\(.*\)\]|\[unsafe\(no_mangle\)\]|\[derive\(Drop\)\]|!\[no_std\]|\[macro_export\])\n", r""),
    "bound by Drop": (r": Drop| \+ Drop|#\[derive\((?:\w+, )+Drop", r"|#\[derive\(\w+(?:, \w+)*"),
    "impl of Model": (HEAD + r"impl(?:<.*>)? Model for .*\n\}\n", r""),
    "extern": (r'extern "C" ', r""),
    "import": (r"use [^;]*;\n|\{[\w, ]*\}", r"|\w+|\{[\w, ]*\}"),
    "module": (r"(?:#\[cfg\(test\)\]\n)?(?:pub )?mod \w+;\n|", r"|pub "),
    "exported macro": (r"", r"_macro|#\[macro_use\]\n|\npub\(crate\) use \{(?:\w+_macro as \w+(?:, )?)+\};"),
    "word of std": ("|".join(map(re.escape, WORDS)), "|".join(map(re.escape, WORDS.values()))),
    "path of a crate": (rf"crate|{CRATE}", r"crate::erased::\w+"),
    "import of the shim": (r"", rf"(?:use crate::(?:erased::{SHIM}|host)::{NAMES};\n)+\n?"),
    "runtime of a test": (r"\s*\w+: HostRuntime,?\s*|", r"|\n    let \w+ = crate::host::HostRuntime::new\(\);"),
    "blank lines": (r"\s+", r""),
}


def fault_of_cut(cut, put):
    """What is wrong with a cut of the eraser, if something is."""
    looks, puts = CUTS.get(cut["what"], (None, None))
    if looks is None or not re.fullmatch(looks, cut["cut"], re.S) or not re.fullmatch(puts, put):
        return f"no cut of the table, {cut['what']}: {cut['cut']!r}, for which there is {put!r}"
    if cut["what"] == "word of std" and WORDS[cut["cut"]] != put:
        return f"{put!r} isn't what Rust has for {cut['cut']!r}"
    return None


def put_back(erased, cuts):
    """The source that the erased bytes and their cuts give, and what is wrong with the cuts."""
    parts, at, faults = [], 0, []
    for cut in cuts:
        put = erased[cut["at"]:cut["at"] + cut["length"]].decode()
        faults.append(fault_of_cut(cut, put))
        parts += [erased[at:cut["at"]], cut["cut"].encode()]
        at = cut["at"] + cut["length"]
    return b"".join(parts + [erased[at:]]), [fault for fault in faults if fault]


def past(words, at):
    """Behind the bracket that opens at `at`."""
    depth = 0
    while True:
        depth += (words[at] in CLOSES) - (words[at] in CLOSES.values())
        at += 1
        if depth == 0:
            return at


def code(words):
    """The words without ghost items, clauses, laws, imports, and attributes that only one of the two texts has."""
    left, at, head, has_clause = [], 0, 0, False
    while at < len(words):
        word, next_word = words[at], words[at + 1] if at + 1 < len(words) else ""
        if word == "ghost":
            left = without_visibility(left)
            while words[at] not in (";", ","):
                at = past(words, at) if words[at] in CLOSES else at + 1
            at += 1
        elif word in ("requires", "ensures"):
            at, has_clause = past(words, words.index("{", at)), True
        elif word == "#" and is_of_one_text(words[at + 1 + (next_word == "!"):]):
            at = past(words, at + 1 + (next_word == "!"))
        elif word == "use" and (not left or left[-1] in ("}", ";", "]", "{", "pub") or left[-4:] == OF_CRATE):
            left = without_visibility(left)
            at = words.index(";", at) + 1
        elif word == "fn":
            head, has_clause, at = len(left), False, at + 1
            left.append(word)
        elif word == "{" and next_word == "}" and has_clause:
            while head and left[head - 1] not in ("}", ";", "{"):
                head -= 1
            left, at, has_clause = left[:head], at + 2, False
        else:
            has_clause = has_clause and word not in ("{", ";")
            left.append(word)
            at += 1
    return left


def is_of_one_text(words):
    """Whether the words begin an attribute that only the source or only the Rust has."""
    return words[:2] == ["[", "tactic"] or words[:4] == ["[", "unsafe", "(", "no_mangle"] or words[:2] in (["[", "no_std"], ["[", "macro_use"])


def without_visibility(left):
    return left[:-1] if left[-1:] == ["pub"] else left[:-4] if left[-4:] == OF_CRATE else left


def without_models(words):
    at = 0
    while at < len(words):
        body = words.index("{", at) if words[at] == "impl" else 0
        if body and "Model" in words[at:body]:
            words[at:past(words, body)] = []
        else:
            at += 1
    return words


def tokens(text):
    """The tokens without comments. The spaces of a text show as their numbers, since others part tokens below."""
    return [re.sub(r"\s", lambda space: f"\\{ord(space[0])}", token) for token in TOKEN.findall(text) if not token.startswith("//")]


def spaced(text):
    return " ".join(tokens(text))


def text_of_source(text, crate, has_module):
    text = " " + " ".join(without_models(code(tokens(text)))) + " "
    for drop in ("# [ derive ( Drop ) ]", ", Drop", ": Drop", "+ Drop", 'extern "C"'):
        text = text.replace(f" {drop} ", " ")
    for source, rust in WORDS.items():
        text = text.replace(f" {spaced(source)} ", f" {spaced(rust)} ")
    text = re.sub(r" (\$ )?crate ::", lambda found: f" {found[1] or ''}crate :: erased :: {crate} ::", text)
    text = re.sub(rf"(?<!::) ({CRATE}) ::", r" crate :: erased :: \1 ::", text)
    for module in ("erased", "host"):
        text = text.replace(f"crate :: erased :: {crate} :: {module} ::", f"crate :: {module} ::")
    text = re.sub(r"(# \[ test \] fn \w+ \() (\w+) : HostRuntime (?:, )?(\)[^{;]*\{)", r"\1 \3 let \2 = crate :: host :: HostRuntime :: new ( ) ;", text)
    text = re.sub(r"# \[ macro_export \] macro_rules ! (\w+)", r"macro_rules ! \1_macro", text)
    # of a library for C the modules are public
    public = "pub " if crate.endswith("_c_calls") else ""
    text = re.sub(r" (# \[ cfg \( test \) \] )?(pub )?mod (\w+) ;",
                  lambda found: f" {found[1] or ''}{public or found[2] or ''}mod {found[3]} ;" if has_module(found[3]) else "", text)
    return text.split()


def text_of_rust(text):
    return code(tokens(text))


def imports(text, crate, visibility=r"(?:pub(?:\(crate\))? )?"):
    """The whole paths that the text imports, as the Rust names them. Groups in groups are none of the source's."""
    text = re.sub(r"//[^\n]*", "", text)
    for head, names in re.findall(rf"^\s*{visibility}use ((?:\w+::)*)(\w+|\*|\{{[^;]*\}});", text, re.M):
        head = re.sub(r"^crate::(?!erased::|host::)", f"crate::erased::{crate}::", re.sub(rf"^{CRATE}::", lambda found: f"crate::erased::{found[0]}", head))
        for name in filter(None, map(str.strip, names.strip("{}").split(","))):
            path = head + name
            for source, rust in WORDS.items():
                if path.startswith(source):
                    path = rust + path[len(source):]
            yield path


def first_difference(source, rust):
    at = next((k for k, (one, other) in enumerate(zip(source, rust)) if one != other), min(len(source), len(rust)))
    return f"source: {' '.join(source[max(0, at - 9):at + 9])}\n  Rust:   {' '.join(rust[max(0, at - 9):at + 9])}"


def sources_of(crate):
    """The sources of a crate, each by the place of its file."""
    folder, ending = (TOP / "rust" / crate / "src", ".rs") if crate == SHIM else (TOP / "crates" / crate / "src", ".rt")
    for path in folder.rglob(f"*{ending}"):
        modules = path.relative_to(folder).with_suffix("")
        yield Path(crate).with_suffix(".rs") if str(modules) in ("lib", "main") else (crate / modules).with_suffix(".rs"), path


def has_module_at(rust_path, is_top):
    """Whether there is a file for a module that the file names."""
    below = rust_path.with_suffix("")
    return lambda name: (below / f"{name}.rs").exists() or (below.parent / f"{name}.rs").exists() and is_top


def test_left_out(place, source_path, folder):
    """What is wrong with a source that has no file."""
    left = text_of_source(source_path.read_text(), place.parts[0], has_module_at(folder / "erased" / place, False))
    return f"there is no file for {' '.join(left[:9])}" if left else None


def test_file(rust_path, folder, sources):
    """What is wrong with an erased file."""
    place = rust_path.relative_to(folder / "erased")
    named, *lines = (folder / "cuts" / place).with_suffix(".json").read_text().splitlines()
    source_path = Path(json.loads(named))
    source, erased, crate = source_path.read_bytes(), rust_path.read_bytes(), place.with_suffix("").parts[0]
    yield None if source_path.resolve() == sources.get(place) else f"it is made of {source_path}"
    back, faults = put_back(erased, [json.loads(line) for line in lines])
    yield None if back == source else "what was cut, put back, isn't the source"
    yield "; ".join(faults) or None
    if source_path.suffix == ".rs":
        return
    ours = text_of_source(source.decode(), crate, has_module_at(rust_path, place.parts[-1] == "lib.rs"))
    theirs = text_of_rust(erased.decode())
    yield None if ours == theirs else first_difference(ours, theirs)
    added = set(imports(erased.decode(), crate)) - set(imports(source.decode(), crate))
    added = {path for path in added - ADDED if not re.fullmatch(r"(\w+)_macro as \1", path)}
    yield f"no import of the source: {sorted(added)}" if added else None
    gone = set(imports(source.decode(), crate, "pub ")) - set(imports(erased.decode(), crate, "pub "))
    yield f"a public import is gone: {sorted(gone)}" if gone else None


def left_out(build):
    """The places of the modules that a build script leaves out."""
    return {Path(*module.split("::")) for module in re.findall(r'"(\w+(?:::\w+)+)"', build.read_text())}


def faults_of(folder, modules):
    """The place of each test, and what is wrong there. Of these modules there is no file."""
    places = {path.relative_to(folder / "erased") for path in (folder / "erased").rglob("*.rs")} - WRITTEN
    sources = dict(source for crate in {place.with_suffix("").parts[0] for place in places} for source in sources_of(crate))
    for place in sorted(places):
        yield from ((place, fault) for fault in test_file(folder / "erased" / place, folder, sources))
    for place in sorted(sources.keys() - places):
        if modules.isdisjoint([place.with_suffix(""), *place.parents]):
            yield place, test_left_out(place, sources[place], folder)
    if not places:
        yield folder, "it has no erased file"


def main():
    folder, *builds = map(Path, sys.argv[1:])
    passed, failed = 0, 0
    for place, fault in faults_of(folder, left_out(*builds) if builds else set()):
        passed, failed = passed + (fault is None), failed + (fault is not None)
        if fault:
            print(f"failed: {place}: {fault}")
    print(f"{passed} passed, {failed} failed")
    return failed > 0


if __name__ == "__main__":
    sys.exit(main())
