"""Whether links lead somewhere, and whether questions are answered near README.md.

    answers.py TOP

Each link of README.md, CHANGELOG.md, CONTRIBUTING.md and docs/*.md to a file of the repository has its file, and its heading
if it names one. Each source that such a page names as code is a file of the repository. And some questions that readers have are answered on a page that two links from README.md lead to, at most:
there is a part of it, from a heading to the next one, with all that the answer consists of.
"""

import os
import re
import sys

from documents import SPAN, blank, lines_of, pages_of, text_of

START, FARTHEST = "README.md", 2
# Each question, and what a part has to have that answers it: the first line is its heading, and the second one all else.
QUESTIONS = (
    ("how a spare is added", (r"^#.*\bspare\b", r"insert --did", r"SYNCHRONIZING")),
    ("which image is to be trusted", (r"^#.*\btrust(ed)?\b", r"\btaste\b", r"\bACTIVE\b")),
    ("which file writes the sectors of a patch", (r"\bgm_apply\b", r"`patch`[^.;|]*\bwrites\b[^.;|]*\bsectors\b")),
    ("what is proved of a patch", (r"\bgm_apply\b", r"\bdirt\b[^.]*\bpatch(es)?\b", r"`apply`")),
    ("which files change for a new refusal", (r"^#.*\bnew refusal\b", r"`src/refusals\.rt`", r"`gm_sentences`")),
)
LINK = re.compile(r"(?<!!)\[[^\]]*\]\(([^)\s]+)\)")
ELSEWHERE = re.compile(r"[a-z][a-z0-9+.-]*:")
# A source that is named as code. Braces stand for several, and capitals for any: `proofs/MODULE/Answers.antt`.
SOURCE = re.compile(r"`([\w./{},-]+\.(?:rt|antt|edit|sh|py|md))`")
ANY = re.compile(r"(?:^|/)[A-Z]+/")


def prose_of(text):
    """A text without code and pictures, with its line feeds."""
    lines = [line if kind != "code" else "" for _, kind, line in lines_of(text)]
    return SPAN.sub(blank, "\n".join(lines))


def slugs_of(text):
    """The anchors of a page's headings: small letters, hyphens for spaces, and a number if another is the same."""
    found = []
    for _, kind, line in lines_of(text):
        if kind == "heading":
            name = re.sub(r"[^\w\- ]", "", line.lstrip("#").strip().lower()).replace(" ", "-")
            count = sum(1 for it in found if it[0] == name)
            found.append((name, f"{name}-{count}" if count else name))
    return {it[1] for it in found}


def links_of(top, name):
    """The links of a page to files: the line, what is written, the file from the top on, and the heading."""
    text = prose_of(text_of(top, name))
    for found in LINK.finditer(text):
        target = found[1]
        if not ELSEWHERE.match(target):
            path, _, heading = target.partition("#")
            to = os.path.normpath(os.path.join(os.path.dirname(name), path)) if path else name
            yield text[: found.start()].count("\n") + 1, target, to, heading


def leads_nowhere(top, to, heading):
    """Why a link leads nowhere, if it does."""
    if to.startswith("..") or not os.path.exists(os.path.join(top, to)):
        return "there is no such file"
    if heading and (not to.endswith(".md") or heading not in slugs_of(text_of(top, to))):
        return "there is no such heading"
    return None


def files_of(top):
    """The files of the repository, each after a slash, without what isn't kept in it."""
    found = []
    for folder, folders, names in os.walk(top):
        folders[:] = [it for it in folders if it not in (".git", "out", "bin")]
        found += [f"/{os.path.relpath(os.path.join(folder, it), top)}" for it in names]
    return found


def several(source):
    """The sources that braces stand for."""
    begin, brace, rest = source.partition("{")
    if not brace:
        return [source]
    middle, _, end = rest.partition("}")
    return [it for name in middle.split(",") for it in several(f"{begin}{name.strip()}{end}")]


def sources_of(text):
    """The sources that a page names: the line, and the end of the path."""
    for number, kind, line in lines_of(text):
        if kind != "code":
            for found in SOURCE.findall(line):
                for source in several(found):
                    if not ANY.search(source):
                        yield number, source


def reached(top):
    """The pages that at most so many links lead to, each after those that are nearer."""
    found, last = [START], [START]
    for _ in range(FARTHEST):
        links = [to for name in last for _, _, to, _ in links_of(top, name)]
        last = [
            to
            for to in dict.fromkeys(links)
            if to not in found and to.endswith(".md") and os.path.isfile(os.path.join(top, to))
        ]
        found += last
    return found


def parts_of(text):
    """The parts of a page, from a heading to the next one: the heading, and what is below it as a line."""
    parts = [["", ""]]
    for _, kind, line in lines_of(text):
        if kind == "heading":
            parts.append([line, ""])
        else:
            parts[-1][1] += f" {line}"
    return [f"{heading}\n{' '.join(below.split())}" for heading, below in parts]


def answers(top, name, wanted):
    return any(all(re.search(it, part) for it in wanted) for part in parts_of(text_of(top, name)))


def main(top):
    files = files_of(top)
    for name in pages_of(top):
        wrong = False
        for number, target, to, heading in links_of(top, name):
            why = leads_nowhere(top, to, heading)
            if why:
                print(f"failed {name}, links lead somewhere: line {number}: {target}: {why}")
                wrong = True
        if not wrong:
            print(f"ok {name}, links lead somewhere")
        lacking = [(n, it) for n, it in sources_of(text_of(top, name)) if not any(file.endswith(f"/{it}") for file in files)]
        for number, source in lacking:
            print(f"failed {name}, the sources that it names are there: line {number}: {source}")
        if not lacking:
            print(f"ok {name}, the sources that it names are there")
    near = reached(top)
    for question, wanted in QUESTIONS:
        found = [it for it in near if answers(top, it, wanted)]
        if found:
            print(f"ok two links from {START} at most: {question}: {found[0]}")
        else:
            print(f"failed two links from {START} at most: {question}: none of {' '.join(near)} says it")


main(sys.argv[1])
