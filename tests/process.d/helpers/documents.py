"""What documents consist of: which of their lines are prose, and which are code, headings and rows of tables."""

import os
import re

HIDDEN = re.compile(r"<!--.*?-->|<img\b[^>]*>", re.S)
# What docs/sentences writes is the program's own text.
GENERATED = re.compile(r"<!--[^>]*sentences begins.*?sentences ends.*?-->", re.S)
SPAN = re.compile(r"``.*?``|`[^`]*`", re.S)


def pages_of(top):
    """README.md, CHANGELOG.md, CONTRIBUTING.md and docs/*.md, as far as they are there."""
    roots = [it for it in ("README.md", "CHANGELOG.md", "CONTRIBUTING.md") if os.path.isfile(os.path.join(top, it))]
    docs = sorted(it for it in os.listdir(os.path.join(top, "docs")) if it.endswith(".md"))
    return roots + [f"docs/{it}" for it in docs]


def text_of(top, name):
    with open(os.path.join(top, name), encoding="utf-8") as file:
        return file.read()


def blank(found):
    """Nothing in place of what was found, but its line feeds."""
    return "\n" * found[0].count("\n")


def lines_of(text):
    """Each line with its number and its kind: `code`, `heading`, `row`, `prose`, or `` if it is empty. Pictures, comments and
    what docs/sentences writes are taken away. A line of prose that goes on with the one before may be indented."""
    text = HIDDEN.sub(blank, GENERATED.sub(blank, text))
    fenced = before = ""
    for number, line in enumerate(text.split("\n"), 1):
        bare = line.strip()
        if bare.startswith("```"):
            fenced, kind = "" if fenced else "code", "code"
        elif fenced:
            kind = "code"
        elif not bare:
            kind = ""
        elif line.startswith("    ") and before != "prose":
            kind = "code"
        elif bare.startswith("|"):
            kind = "row"
        else:
            kind = "heading" if line.startswith("#") else "prose"
        yield number, kind, line.rstrip()
        before = kind
