"""Prints each broken link of a folder of HTML, to a file or an anchor that isn't there, and fails if there is one. It skips rustdoc's folder."""
import functools
import html
import pathlib
import re
import sys
import urllib.parse

TOP = pathlib.Path(sys.argv[1]).resolve()


@functools.lru_cache(maxsize=None)
def attributes(path, names):
    return set(re.findall(rf'<[a-z][^>]*?\s(?:{names})="([^"]*)"', html.unescape(path.read_text(encoding="utf-8"))))


def leads_somewhere(path, link):
    target, _, anchor = urllib.parse.unquote(link).partition("#")
    goal = (path.parent / target.partition("?")[0]).resolve() if target else path
    return goal.is_file() and (not anchor or goal.suffix != ".html" or anchor in attributes(goal, "id|name"))


pages = sorted(path for path in TOP.rglob("*.html") if TOP / "rust" not in path.parents)
faults = [f"{path.relative_to(TOP)}: {link}" for path in pages for link in sorted(attributes(path, "href|src"))
          if not re.match("[a-z]+:|//|#?$", link) and not leads_somewhere(path, link)]
print(*faults, f"links: {len(pages)} pages, {len(faults)} links that lead nowhere", sep="\n")
sys.exit(bool(faults))
