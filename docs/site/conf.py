"""The site that `make site` builds: the pages in the order of docs/README.md, and a reference of the packages. scripts/site.sh runs this."""
import ctypes
import os
import re
import sys
from unittest import mock

from pygments.lexers.special import TextLexer

TOP = os.environ["TOP"]


def read(name):
    with open(f"{TOP}/{name}", encoding="utf-8") as text:
        return text.read()


number = int(re.search(r"I_SHAPE_VERSION (\w+)", read("include/i_shape.h"))[1], 16)
project, author, release = "Raspochre", "the authors of Raspochre", f"{number >> 16}.{number >> 8 & 255}.{number & 255}"
root_doc = "README"
include_patterns = ["*.md", "*.rst", "docs/*.md", "docs/develop/*.md", "examples/*/README.md", "bindings/*/README.md"]
# Links to folders of the repository become text, and Rattle is coloured as Rust as far as that goes.
suppress_warnings = ["ref.myst", "misc.highlighting_failure"]

extensions = ["myst_parser", "sphinx.ext.autodoc", "sphinx.ext.napoleon", "breathe"]
myst_heading_anchors = 4
napoleon_google_docstring, napoleon_use_ivar, autodoc_typehints = False, True, "none"
breathe_projects, breathe_default_project, breathe_domain_by_extension = {"i_shape": "../doxygen/xml"}, "i_shape", {"h": "c"}

html_theme, html_title, html_extra_path = "furo", f"{project} {release}", ["../extra"]
html_copy_source = html_show_sphinx = html_show_copyright = False

# The docstrings are read without the C library.
sys.path.insert(0, f"{TOP}/bindings/python/src")
ctypes.CDLL = mock.MagicMock(**{"return_value.i_shape_version.return_value": number})


def setup(app):
    pages = [os.path.normpath(f"docs/{page}") for page in ("README", *re.findall(r"\]\(([\w./]+)\.md\)", read("docs/README.md")))]
    contents = {"Pages": pages, "Reference": ["python", "c", "cpp", "javascript", "rust"]}

    def add_contents(_, name, source):
        source[0] = re.sub("<!-- plot (.*): (.*) -->", r"![\2](plots/\1.svg)", source[0])
        if name == root_doc:
            source[0] += "".join("\n".join(["", "```{toctree}", ":hidden:", f":caption: {caption}", *names, "```", ""]) for caption, names in contents.items())
        elif name not in sum(contents.values(), []):
            source[0] = f"---\norphan: true\n---\n{source[0]}"

    app.connect("source-read", add_contents)
    app.connect("autodoc-skip-member", lambda *words: (words[3].__doc__ or "").startswith("Alias for field") or None)
    app.add_lexer("antt", TextLexer)
