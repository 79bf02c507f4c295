"""Whether the documents are short, and in plain sentences.

    prose.py TOP

Of README.md, CHANGELOG.md, CONTRIBUTING.md and docs/*.md this counts words, as `wc -w` does, and looks for

- lines of prose that are too wide;
- `where` that stands for if, and `behind` that stands for after;
- sentences that are too long.

Code, sessions, headings, pictures and what docs/sentences writes are left out, and tables too, but for the second. A list is
parted at its items. Each finding is a line of its own, with its page, its line and what was found.
"""

import re
import sys

from documents import SPAN, blank, lines_of, pages_of, text_of

# How many words a page may have.
WORDS = {
    "README.md": 750,
    "CHANGELOG.md": 820,
    "docs/ARCHITECTURE.md": 3700,
    "docs/DECISIONS.md": 6400,
    "docs/DEFINITIONS.md": 4600,
    "docs/GATE.md": 580,
    "docs/PERFORMANCE.md": 1130,
    "docs/PROOF.md": 4800,
    "docs/REFERENCE.md": 11700,
    "docs/USE.md": 6400,
}
# How many columns a line of prose has at most, and how many words a sentence; a span of code counts as one.
COLUMNS, LONGEST = 100, 30
# `where` is of a place if it is a cell by itself, or comes after one of these words.
OF_PLACE = r"says?|said|shows?|tells?|told|knows?|sees?|from|to|is|are|place"
# `behind` is of a place, or of what is out of date, after one of these.
OUT_OF_DATE = r"fall|falls|fell|fallen|falling|left|is|are|stays?|lies|lie|lags?"
# Each word that stands for another, which one that is, and what comes before it if it does not.
WORDS_FOR_OTHERS = (
    ("where", "if", re.compile(rf"(?<![\w-])(?:({OF_PLACE}) +)?(where)(?![\w-])", re.I)),
    ("behind", "after", re.compile(rf"(?<![\w-])(?:({OUT_OF_DATE}) +)?(behind)(?![\w-])", re.I)),
)
# The end of a sentence, and words that end in a full stop and don't end one.
END = re.compile(r"[.!?][\"')\]*_]*(?=\s|$)")
SHORTENED = re.compile(r"(?:\b(?:e\.g|i\.e|etc|cf|vs|No)|\.)\.$")
ITEM = re.compile(r"\s*(?:[-*]|\d+\.)\s+")


class Page:
    """The parts of a page, each with the number of its first line: paragraphs of prose, an item of a list each; lines of
    prose; and cells of tables."""

    def __init__(self, text):
        self.paragraphs, self.lines, self.cells = [], [], []
        before = ""
        for number, kind, line in lines_of(text):
            if kind == "row":
                self.cells += [(number, it.strip()) for it in line.strip().strip("|").split("|")]
            elif kind == "prose":
                self.lines.append((number, line))
                item = ITEM.match(line)
                if item or before != "prose":
                    self.paragraphs.append([])
                self.paragraphs[-1].append((number, line[item.end() :] if item else line.strip()))
            before = kind


def words_alone(text):
    """A text with a word for each span of code, and of a link what is shown of it."""
    text = SPAN.sub(lambda it: "x" + blank(it), text)
    return re.sub(r"\[([^\]]*)\]\([^)]*\)", r"\1", text)


def sentences_of(paragraph):
    """The sentences of a paragraph, each with the number of the line on which it begins."""
    text = words_alone("\n".join(line for _, line in paragraph))
    begin = 0
    ends = [it.end() for it in END.finditer(text) if not SHORTENED.search(text[: it.end()])]
    for end in [*ends, len(text)]:
        sentence = text[begin:end]
        if sentence.strip():
            before = begin + len(sentence) - len(sentence.lstrip())
            yield paragraph[0][0] + text[:before].count("\n"), sentence.split()
        begin = end


def wide_lines(page):
    for number, line in page.lines:
        if len(line) > COLUMNS:
            yield number, f"{len(line)} columns"


def words_for_others(page):
    """Each word that stands for another, in prose and in tables."""
    parts = [(it[0][0], "\n".join(line for _, line in it)) for it in page.paragraphs]
    for first, text in parts + page.cells:
        text = words_alone(text)
        flat = text.replace("\n", " ")
        for word, other, pattern in WORDS_FOR_OTHERS:
            for found in pattern.finditer(flat):
                if found[1] or flat == word:
                    continue
                number = first + text[: found.start(2)].count("\n")
                yield number, f"`{word}` for {other}: {flat[found.start(2):][:40]}"


def long_sentences(page):
    for paragraph in page.paragraphs:
        for number, words in sentences_of(paragraph):
            count = sum(1 for it in words if re.search(r"\w", it))
            if count > LONGEST:
                yield number, f"{count} words: {' '.join(words[:6])}"


LOOKS = (
    (f"lines have at most {COLUMNS} columns", wide_lines),
    ("if and after are said as such", words_for_others),
    (f"sentences have at most {LONGEST} words", long_sentences),
)


def main(top):
    pages = pages_of(top)
    for name in WORDS:
        if name not in pages:
            print(f"failed {name} has at most {WORDS[name]} words: there is no such page")
    for name in pages:
        text = text_of(top, name)
        page, count = Page(text), len(text.split())
        if name in WORDS:
            title = f"{name} has at most {WORDS[name]} words"
            print(f"ok {title}" if count <= WORDS[name] else f"failed {title}: it has {count}")
        for title, look in LOOKS:
            found = list(look(page))
            for number, what in sorted(found):
                print(f"failed {name}, {title}: line {number}: {what}")
            if not found:
                print(f"ok {name}, {title}")


main(sys.argv[1])
