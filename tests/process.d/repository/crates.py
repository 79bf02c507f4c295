"""What the order of the crates has to be, so that a build waits for no proof that it can do without.

    crates.py TOP

The proof of gm_bench is the longest, and what stands on it comes last. So a crate of the program stands on it only if it uses
something of it, and one that does is small: those above it are proved side by side. Tests are in crates of their own, which
the program doesn't need.
"""

import os
import re
import sys

PROGRAM, BENCH = "gmbench", "gm_bench"
# How many functions a crate above the bench may have.
MOST = 60
FUNCTION = re.compile(r"^\s*(?:pub(?:\([^)]*\))? )?(?:const )?fn \w+", re.M)


def lines_of(top):
    """The crates, and those below each, in the order of crates.txt."""
    found = {}
    with open(os.path.join(top, "crates.txt"), encoding="utf-8") as file:
        for line in file:
            name, colon, below = line.partition("#")[0].partition(":")
            if colon:
                found[name.strip()] = below.split()
    return {name: [it for it in below if it in found] for name, below in found.items()}


def all_below(crates, name):
    found = set(crates[name])
    for it in crates[name]:
        found |= all_below(crates, it)
    return found


def text_of(top, name, *parts, tests=False):
    """What is written in these folders of a crate, with its tests or without."""
    texts = []
    for part in parts:
        for at, folders, files in os.walk(os.path.join(top, "crates", name, part)):
            folders[:] = sorted(it for it in folders if tests or it != "tests")
            for it in sorted(files):
                if it.endswith((".rt", ".antt")) and (tests or it != "tests.rt"):
                    with open(os.path.join(at, it), encoding="utf-8") as file:
                        texts.append(file.read())
    return "\n".join(texts)


def tell(name, why):
    print(f"failed {name}: {why}" if why else f"ok {name}")


def main(top):
    crates = lines_of(top)
    order = list(crates)
    for name, below in crates.items():
        late = [it for it in below if order.index(it) > order.index(name)]
        tell(f"{name} is listed after the crates below it", late and f"{late[0]} comes later")
    program = all_below(crates, PROGRAM) | {PROGRAM}
    for name in sorted(program):
        has_tests = re.search(r"^\s*#\[test\]", text_of(top, name, "src", tests=True), re.M)
        tell(f"{name} has no tests, which a build would prove", has_tests and "it has some")
    above = [it for it in order if it in program and BENCH in all_below(crates, it)]
    tell("some crates stand above the bench", None if above else "there are none")
    for name in above:
        text = text_of(top, name, "src", "specs", "proofs")
        waits = [it for it in crates[name] if it == BENCH or it in above]
        idle = [it for it in waits if not re.search(rf"\b{it}\b", text)]
        tell(
            f"{name} needs each crate for which it waits",
            idle and f"it names nothing of {' '.join(idle)}",
        )
        count = len(FUNCTION.findall(text_of(top, name, "src")))
        tell(f"{name} has at most {MOST} functions", count > MOST and f"it has {count}")


main(sys.argv[1])
