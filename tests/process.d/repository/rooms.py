"""What docs/ARCHITECTURE.md lists of the crates, beside what there is.

    rooms.py TOP

Each module of a crate has its place in the section of the crate, and each file of definitions is named in the table of
definitions; and no section or row names one that isn't there. Crates of tests are left out.
"""

import os
import re
import sys


def names_of(folder, ending, but):
    """The files of a folder with this ending, without it."""
    if not os.path.isdir(folder):
        return set()
    found = {it[: -len(ending)] for it in os.listdir(folder) if it.endswith(ending)}
    return found - but


def sections_of(page):
    """The section of each crate: from its name in bold to the next one, or to the next heading."""
    parts = re.split(r"^\*\*`(\w+)`\*\*", page, flags=re.M)
    return {name: text.split("\n## ")[0] for name, text in zip(parts[1::2], parts[2::2])}


def definitions_of(page):
    """The files of definitions that are named, by their crates."""
    found = {}
    for crate, names in re.findall(r"`(\w+)/specs/(\{[^}]*\}|\w+)\.antt`", page):
        found.setdefault(crate, set()).update(it.strip() for it in names.strip("{}").split(","))
    return found


def tell(name, lacking):
    print(f"failed {name}: {' '.join(sorted(lacking))}" if lacking else f"ok {name}")


def main(top):
    with open(os.path.join(top, "docs", "ARCHITECTURE.md"), encoding="utf-8") as file:
        page = file.read()
    sections, definitions = sections_of(page), definitions_of(page)
    for crate in sorted(os.listdir(os.path.join(top, "crates"))):
        if crate.endswith("_tests") or crate.startswith("gm_test_"):
            continue
        folder = os.path.join(top, "crates", crate)
        modules = names_of(os.path.join(folder, "src"), ".rt", {"lib", "main", "tests"})
        section = sections.get(crate, "")
        tell(f"each module of {crate} has its place", {it for it in modules if f"`{it}`" not in section})
        specs = names_of(os.path.join(folder, "specs"), ".antt", {"Lib"})
        named = definitions.get(crate, set())
        tell(f"each definition of {crate} has its row", specs - named)
        tell(f"each row of {crate} has its definition", named - specs)


main(sys.argv[1])
