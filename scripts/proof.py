#!/usr/bin/env python3
"""Prints the file PROOF of an archive: of which crate, sources and files it is, and what the kit said of their proof. docs/PROOF.md explains it.

usage: proof.py LOG CRATE [FOLDER FILE..]
       proof.py --verdict LOG CRATE

LOG is what `rt` printed as it built the crate. Of several crates in it, the last has to be this one. The files, in the folder, are what it was built into. What is
printed is the same whatever the kit had kept of earlier checks: it is sorted, and the words for kept work are always there. With --verdict LOG is what
`rt all verdict` printed, of this crate and others, and kept work in it is an error.
"""
import argparse
import hashlib
import pathlib
import re
import subprocess
import sys

TOP = pathlib.Path(__file__).resolve().parents[1]
KEPT = "incremental=trusted"


def with_those_below(crate, crates):
    """The crate, and those that it uses, by the lines of crates.txt."""
    below = {name.split()[0]: uses.split() for name, uses in (line.split(":") for line in crates.splitlines() if line)}
    found, left = [], [crate]
    while left:
        if (name := left.pop(0)) not in found:
            found.append(name)
            left += below[name]
    return found


def sum_of(path):
    return hashlib.sha256(path.read_bytes()).hexdigest()


def sum_of_sources(crate):
    """As `sha256sum` prints it of what `sha256sum` prints of the sources, and of the files that say what each crate uses, in the order of their names' bytes."""
    folder = TOP / "crates" / crate
    files = [path.relative_to(folder).as_posix() for part in ("src", "specs", "proofs") for path in (folder / part).rglob("*") if path.is_file()]
    files = sorted([*files, "../../crates.txt", "../../HANDLES"], key=str.encode)
    lines = "".join(f"{sum_of(folder / name)}  {name}\n" for name in files)
    return hashlib.sha256(lines.encode()).hexdigest()


def commit():
    """The commit, which an archive of sources names, and whether files differ from it."""
    if (TOP / "COMMIT").is_file():
        return (TOP / "COMMIT").read_text(encoding="utf-8").strip()

    def git(*words):
        return subprocess.run(["git", "-C", TOP, *words], capture_output=True, text=True, check=False).stdout.strip()
    return (git("rev-parse", "HEAD") + ("-changed" if git("status", "--short", "--untracked-files=no") else "")) or "unknown"


def said_of(log, crate):
    """The part on a crate of what `rt all verdict` printed."""
    return dict(re.findall(r"(?ms)^== (\S+)\n(.*?)(?=^== |\Z)", log)).get(crate, "")


def said_last(log, crate):
    """What the kit printed of the last crate of a log, which must be this one, proved: a line of each function that the verdict counts, and the verdict's words."""
    sections = re.findall(r"(?s)(.*?^logic=proved [^\n]*\n)", log + "\n", re.MULTILINE) or [""]
    lines = sections[-1].splitlines()
    functions = sorted(line for line in lines if re.match(r"fn .*: proved$", line))
    if not any(line.startswith(f"fn {crate}::") for line in functions):
        sys.exit(f"proof.py: the log has no verdict of {crate} at its end")
    verdict = lines[-1].split()
    # The verdict counts neither a closure, below its function's path and the word fn, nor what runs `main`, whose name ends with +run.
    counted = sum("::fn::" not in line and not line.endswith("+run: proved") for line in functions)
    if f"functions={counted}" not in verdict:
        sys.exit(f"proof.py: the log names {counted} functions of {crate} as proved, and its verdict has another number: {lines[-1]}")
    return [*functions, *(line for line in lines if line.startswith("axioms "))], verdict


def main():
    words = argparse.ArgumentParser()
    words.add_argument("--verdict", action="store_true")
    words.add_argument("log", type=pathlib.Path)
    words.add_argument("crate")
    words.add_argument("folder", type=pathlib.Path, nargs="?")
    words.add_argument("files", nargs="*")
    given = words.parse_args()
    log = given.log.read_text(encoding="utf-8")
    said, verdict = said_last(said_of(log, given.crate) if given.verdict else log, given.crate)
    kept = [word for word in verdict if word in (KEPT, "batches=trusted")]
    if given.verdict and kept:
        sys.exit(f"proof.py: the verdict of {given.crate} rests on kept work: {' '.join(kept)}")
    if not given.verdict:
        verdict = [word for word in verdict if word != KEPT] + [KEPT]
    print(f"crate {given.crate}", f"commit {commit()}", sep="\n")
    for name in with_those_below(given.crate, (TOP / "crates.txt").read_text(encoding="utf-8")):
        print(f"sources {name} {sum_of_sources(name)}")
    for name in sorted(given.files):
        print(f"file {name} {sum_of(given.folder / name)}")
    print(*said, " ".join(verdict), sep="\n")


if __name__ == "__main__":
    main()
